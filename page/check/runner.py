"""What the flows share: the worked line, the program beside the page, and a line printed for each flow."""

import os
import subprocess
import sys
import time
import traceback
from collections.abc import Callable
from pathlib import Path

from browser import SHOTS, TOP, Page

PROGRAM = os.environ.get("BALISEPLAN", str(TOP / "crates/baliseplan/out/baliseplan"))
BASE = (TOP / "examples/line.base").read_bytes()


def native(base: bytes, journal: bytes = b"", commands: bytes = b"", most: int = 1) -> tuple[bytes, bytes]:
    """Plan and journal of a run of the program, which must not answer worse than `most`."""
    run = subprocess.run([PROGRAM, "--quiet", "--journal"], input=base + journal + b"edits\n" + commands, capture_output=True)
    assert run.returncode <= most, run.stdout[:200]
    plan, rest = run.stdout.split(b"journal ", 1)
    return plan[plan.index(b"plan 1") :], b"journal " + rest


def fields_reference(lines: list[str], *flags: str) -> list[str]:
    """What the reference for fields prints."""
    words = [sys.executable, str(TOP / "reference/balisefields.py"), *flags]
    return subprocess.run(words, input="\n".join(lines) + "\n", capture_output=True, text=True).stdout.splitlines()


def digits_of(*lines: str) -> str:
    """The digits of an item, by the reference."""
    (line,) = fields_reference(list(lines), "--spell")
    return line.split(" ")[-1]


def line_of(count: int) -> bytes:
    return subprocess.run(["node", str(Path(__file__).with_name("make_line.mjs")), str(count)], capture_output=True, check=True).stdout


def short(trace: str) -> str:
    lines = [line for line in trace.split("\n") if not line.startswith("#") and "site-packages" not in line and "dist-packages" not in line]
    return "\n".join(lines[:24])


class Runner:
    """Runs flows one after another over a page; a flow that fails is shown with a picture."""

    def __init__(self, page: Page) -> None:
        self.page = page
        self.failed = 0

    def run(self, name: str, work: Callable[[Page], None]) -> bool:
        began = time.time()
        try:
            work(self.page)
        except Exception:
            self.failed += 1
            print(f"FAILED  {name}\n{short(traceback.format_exc(limit=4))}", flush=True)
            self.page.driver.save_screenshot(str(SHOTS / f"failed-{name.replace(' ', '-')}.png"))
            return False
        print(f"ok      {name} ({time.time() - began:.1f} s)", flush=True)
        return True

    def end(self) -> int:
        """Nothing in the console, and nothing asked for."""
        for words, found in (("console", self.page.complaints()), ("asked for", self.page.network())):
            if found:
                self.failed += 1
                print(f"FAILED  {words}: {found[:5]}", flush=True)
        self.page.call("baliseplan.app.savedJournal = baliseplan.app.journal; baliseplan.app.draft = ''")
        self.page.quit()
        return self.failed
