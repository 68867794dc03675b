"""The page in Debian's Firefox, headless, over Marionette: the protocol that Firefox itself has for being driven."""

import base64
import json
import os
import shutil
import signal
import socket
import subprocess
import tempfile
import time
from pathlib import Path
from typing import Any

from browser import PAGE, READY, SHOTS, WRAP


class Firefox:
    """One Firefox with a profile of its own. It answers calls of the page's own script."""

    def __init__(self, width: int = 1280, height: int = 860) -> None:
        self.profile = Path(tempfile.mkdtemp())
        port = free_port()
        (self.profile / "user.js").write_text(
            f'user_pref("marionette.port", {port});\nuser_pref("network.proxy.type", 0);\nuser_pref("network.manage-offline-status", false);\n'
        )
        words = ["firefox-esr", "--headless", "--marionette", "--profile", str(self.profile), f"--width={width}", f"--height={height}"]
        environment = {**os.environ, "HOME": str(self.profile), "MOZ_HEADLESS": "1"}
        self.process = subprocess.Popen(words, env=environment, stdout=subprocess.DEVNULL, stderr=subprocess.DEVNULL, start_new_session=True)
        self.last = 0
        self.socket = connected(port)
        self._read()  # what Firefox says of itself
        self.version = str(self.command("WebDriver:NewSession", {"strictFileInteractability": False})["capabilities"]["browserVersion"])
        self.command("WebDriver:SetTimeouts", {"script": 300000})
        self.command("WebDriver:Navigate", {"url": PAGE.as_uri()})
        self.call(READY)

    def _read(self) -> Any:
        length = b""
        while not length.endswith(b":"):
            length += self.socket.recv(1)
        data = b""
        while len(data) < int(length[:-1]):
            data += self.socket.recv(int(length[:-1]) - len(data))
        return json.loads(data)

    def command(self, name: str, words: dict[str, Any]) -> Any:
        self.last += 1
        data = json.dumps([0, self.last, name, words]).encode()
        self.socket.sendall(str(len(data)).encode() + b":" + data)
        _, _, error, result = self._read()
        if error:
            raise AssertionError(str(error)[:500])
        return result

    def call(self, body: str, *args: Any) -> Any:
        """Runs the body of an async function in the page."""
        answer = self.command("WebDriver:ExecuteAsyncScript", {"script": WRAP.replace("BODY", body), "args": list(args), "sandbox": None})
        result = answer["value"]
        if "e" in result:
            raise AssertionError(result["e"])
        return result.get("v")

    def shot(self, name: str) -> None:
        SHOTS.mkdir(parents=True, exist_ok=True)
        picture = self.command("WebDriver:TakeScreenshot", {"full": False})["value"]
        (SHOTS / f"{name}.png").write_bytes(base64.b64decode(picture))

    def quit(self) -> None:
        try:
            self.command("Marionette:Quit", {"flags": ["eForceQuit"]})
            self.process.wait(20)
        except (OSError, AssertionError, subprocess.TimeoutExpired):
            os.killpg(self.process.pid, signal.SIGKILL)  # our own, started above
            self.process.wait()
        shutil.rmtree(self.profile, ignore_errors=True)


def free_port() -> int:
    with socket.socket() as probe:
        probe.bind(("127.0.0.1", 0))
        return int(probe.getsockname()[1])


def connected(port: int) -> socket.socket:
    """Waits until Firefox listens."""
    end = time.time() + 60
    while True:
        try:
            return socket.create_connection(("127.0.0.1", port), timeout=310)
        except OSError:
            if time.time() > end:
                raise
            time.sleep(0.2)
