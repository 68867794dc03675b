"""The built page in a headless browser, driven by selenium. It is opened from the disk, as a person would."""

import base64
import json
import os
import time
from collections.abc import Callable
from pathlib import Path
from typing import Any

from selenium import webdriver
from selenium.common.exceptions import NoSuchElementException, StaleElementReferenceException
from selenium.webdriver.chrome.options import Options
from selenium.webdriver.chrome.service import Service
from selenium.webdriver.common.action_chains import ActionChains
from selenium.webdriver.common.by import By
from selenium.webdriver.common.keys import Keys
from selenium.webdriver.support.ui import WebDriverWait

TOP = Path(__file__).resolve().parents[2]
PAGE = Path(os.environ.get("PAGE", TOP / "page/baliseplan.html")).resolve()
SHOTS = Path(os.environ.get("SHOTS", TOP / "page/out/shots"))

READY = "while (!window.baliseplan) await new Promise((r) => setTimeout(r, 10)); await baliseplan.ready; return true"
BUTTON = """return [...document.querySelectorAll(arguments[0])].find((each) => each.checkVisibility({visibilityProperty: true}) && each.getClientRects().length > 0
  && (each.innerText.trim() === arguments[1] || each.title.startsWith(arguments[1]) || each.getAttribute('aria-label') === arguments[1])) ?? null"""
WRAP = (
    "const done = arguments[arguments.length - 1], args = [...arguments].slice(0, -1);"
    "(async () => {BODY})().then((v) => done({v}), (e) => done({e: String(e && e.stack || e)}))"
)


def chromium(width: int = 1280, height: int = 860) -> Any:
    options = Options()
    for word in ("--headless=new", "--no-sandbox", f"--window-size={width},{height}", "--force-device-scale-factor=1"):
        options.add_argument(word)
    options.add_argument("--hide-scrollbars")
    options.set_capability("goog:loggingPrefs", {"browser": "ALL", "performance": "ALL"})
    driver = webdriver.Chrome(service=Service("/usr/bin/chromedriver"), options=options)
    driver.set_script_timeout(300)
    return driver


class Page:
    """A page in Chromium: what a person sees and does there."""

    def __init__(self, width: int = 1280, height: int = 860, dark: bool = False, offline: bool = True) -> None:
        self.driver = chromium(width, height)
        self.size(width, height)
        self.requests: list[str] = []
        if dark:
            self.media({"prefers-color-scheme": "dark"})
        if offline:
            self.cdp("Network.enable", {})
            self.cdp("Network.emulateNetworkConditions", {"offline": True, "latency": 0, "downloadThroughput": 0, "uploadThroughput": 0})
        self.load()

    def cdp(self, name: str, words: dict[str, Any]) -> Any:
        return self.driver.execute_cdp_cmd(name, words)

    def media(self, features: dict[str, str], kind: str = "") -> None:
        self.cdp("Emulation.setEmulatedMedia", {"media": kind, "features": [{"name": n, "value": v} for n, v in features.items()]})

    def size(self, width: int, height: int) -> None:
        self.cdp("Emulation.setDeviceMetricsOverride", {"width": width, "height": height, "deviceScaleFactor": 1, "mobile": False})
        time.sleep(0.2)

    def load(self) -> None:
        self.driver.get(PAGE.as_uri())
        self.call(READY)

    def call(self, body: str, *args: Any) -> Any:
        """Runs the body of an async function in the page."""
        result = self.driver.execute_async_script(WRAP.replace("BODY", body), *args)
        if "e" in result:
            raise AssertionError(result["e"])
        return result.get("v")

    def css(self, selector: str) -> Any:
        return self.driver.find_element(By.CSS_SELECTOR, selector)

    def all(self, selector: str) -> list[Any]:
        return list(self.driver.find_elements(By.CSS_SELECTOR, selector))

    def text(self, selector: str) -> str:
        return str(self.css(selector).text)

    def wait(self, what: Callable[[], Any], seconds: float = 30) -> Any:
        """Waits until something holds, and returns it."""
        ignored = [NoSuchElementException, StaleElementReferenceException]
        return WebDriverWait(self.driver, seconds, poll_frequency=0.05, ignored_exceptions=ignored).until(lambda _: what())

    def button(self, words: str, within: str = "body") -> Any:
        """A button by its text, its name, or how its title begins."""
        return self.wait(lambda: self.driver.execute_script(BUTTON, within + " button", words))

    def click_row(self, listed: str, start: str) -> None:
        """Clicks the row of a list that begins so, also where the list is just drawn anew."""

        def click() -> bool:
            for row in self.all(listed + " .row"):
                if row.text.startswith(start):
                    row.click()
                    return True
            return False

        self.wait(click)

    def keys(self, *keys: str) -> None:
        """Presses the last key while the others are held."""
        chain = ActionChains(self.driver)
        for key in keys[:-1]:
            chain.key_down(key)
        chain.send_keys(keys[-1])
        for key in keys[:-1]:
            chain.key_up(key)
        chain.perform()

    def type(self, text: str) -> None:
        """Types into what has the focus, in place of what is there."""
        self.keys(Keys.CONTROL, "a")
        ActionChains(self.driver).send_keys(text).perform()

    def drop(self, *files: tuple[str, bytes], on: str = "body") -> None:
        """A drop event with files."""
        given = [[name, base64.b64encode(data).decode()] for name, data in files]
        self.call(
            """const transfer = new DataTransfer();
            for (const [name, b] of args[0]) transfer.items.add(new File([Uint8Array.from(atob(b), (c) => c.charCodeAt(0))], name));
            document.querySelector(args[1]).dispatchEvent(new DragEvent('drop', {dataTransfer: transfer, bubbles: true, cancelable: true}));""",
            given,
            on,
        )

    def said(self, words: str) -> str:
        """Waits until the last reply has some words."""
        return str(self.wait(lambda: words in self.text(".command-bar .last") and self.text(".command-bar .last")))

    def shot(self, name: str) -> None:
        SHOTS.mkdir(parents=True, exist_ok=True)
        time.sleep(0.3)
        self.driver.save_screenshot(str(SHOTS / f"{name}.png"))

    def complaints(self) -> list[str]:
        """Messages in the console, but those of a request that a test made."""
        return [entry["message"] for entry in self.driver.get_log("browser") if "example.org" not in entry["message"]]

    def network(self) -> list[str]:
        """Addresses that were asked for, beside the page's own file and blobs, and those that its policy stopped."""
        seen: dict[str, str] = {}
        for entry in self.driver.get_log("performance"):
            message = json.loads(entry["message"])["message"]
            words = message["params"]
            if message["method"] == "Network.requestWillBeSent":
                seen[words["requestId"]] = words["request"]["url"]
            elif message["method"] == "Network.loadingFailed" and words.get("blockedReason") == "csp":
                seen.pop(words["requestId"], None)
        return [url for url in seen.values() if not url.startswith(("blob:", "data:")) and url != PAGE.as_uri()]

    def quit(self) -> None:
        self.driver.quit()
