"""The report, as text and in a browser."""

from __future__ import annotations

import base64
import hashlib
import json
import re
from collections.abc import Iterator
from html.parser import HTMLParser
from pathlib import Path
from typing import Any

import pytest
from conftest import Desk
from plandesk.engine import Engine, find_engine

PARTS = ["insert 5.200 1 1 41408e000000000000", "set 5.200 1 1 Q_SCALE 0 1", "set 5.200 1 1 V_TSR 0 60km/h"]


@pytest.fixture
def page(desk: Desk, line: Path) -> Path:
    path = line.parent / "report.html"
    commands = ["set 5.200 1 0 V_TSR 0 30km/h", *PARTS, "renumber 5.200 250", "turn 5.300", "set 5.300 1 0 D_LINK 0 847m"]
    assert desk("do", *commands).exit_code == 0
    desk("strike", "1")
    desk("reviews", "--done", "1")
    (line.parent / "request").write_text("5.100 5.200 5.300")
    words = ["-o", path, "--title", "Line <5> & more", "--request", line.parent / "request"]
    result = desk("report", *words)
    assert result.exit_code == 0, result.output
    return path


class Outside(HTMLParser):
    """What a page would fetch."""

    def __init__(self) -> None:
        super().__init__()
        self.found: list[str] = []

    def handle_starttag(self, tag: str, attrs: list[tuple[str, str | None]]) -> None:
        names = ("src", "href", "data", "action", "srcset")
        self.found += [f"{tag} {k}={v}" for k, v in attrs if k in names and v and not v.startswith("#")]


def test_it_fetches_nothing(page: Path) -> None:
    text = page.read_text()
    parser = Outside()
    parser.feed(text)
    assert parser.found == []
    assert not re.search(r"url\((?!#)|@import|fetch\(|https?://", text)
    assert "Line &lt;5&gt; &amp; more" in text and "<5>" not in text


def test_it_has_the_facts(page: Path, line: Path) -> None:
    text = page.read_text()
    for name in ("base.plan", "journal", "line.plan"):
        assert hashlib.sha256((line / name).read_bytes()).hexdigest() in text
    program = find_engine()
    assert program.checksum == "" or f"<td>engine</td><td><code>{program.checksum}</code>" in text
    assert "They belong together." in text and "Both programs make it." in text
    assert "line.plan is base.plan with the 6 edits that stand in journal" in text
    found = json.loads(re.search(r'id="dependents">(.*?)</script>', text)[1])  # type: ignore[index]
    assert found["2"] == [3, 4]
    assert "V_TSR 8 → 6 (40 km/h → 30 km/h)" in text
    assert "not in the request" in text
    assert len(text) < 100_000


def test_the_checksum_is_that_of_the_program(tmp_path: Path) -> None:
    program = tmp_path / "program"
    program.write_bytes(b"#!/bin/sh\n")
    assert Engine((str(program),)).checksum == ""
    program.chmod(0o755)
    assert Engine((str(program),)).checksum == hashlib.sha256(b"#!/bin/sh\n").hexdigest()
    assert Engine((str(program), "-B")).checksum == Engine((str(tmp_path / "none"),)).checksum == ""


def test_it_says_what_is_wrong(desk: Desk, line: Path) -> None:
    path = line.parent / "report.html"
    plan = line / "line.plan"
    plan.write_text(plan.read_text().replace("a1007f80a0fa", "a1007f00a0fa"))
    assert desk("report", "--engine-only", "-o", path).exit_code == 1
    assert "They don&#39;t belong together." in path.read_text()
    assert "5.500: M_MCOUNT" in path.read_text()


@pytest.fixture(scope="module")
def browser() -> Iterator[Any]:
    webdriver = pytest.importorskip("selenium.webdriver")
    service = pytest.importorskip("selenium.webdriver.chrome.service").Service("/usr/bin/chromedriver")
    options = webdriver.ChromeOptions()
    for flag in ("--headless=new", "--no-sandbox", "--disable-gpu", "--disable-dev-shm-usage"):
        options.add_argument(flag)
    options.binary_location = "/usr/bin/chromium"
    options.set_capability("goog:loggingPrefs", {"browser": "ALL", "performance": "ALL"})
    if not Path(options.binary_location).exists():
        pytest.skip("chromium is missing")
    driver = webdriver.Chrome(options=options, service=service)
    yield driver
    driver.quit()


def width(browser: Any, pixels: int) -> None:
    size = {"width": pixels, "height": 900, "deviceScaleFactor": 1, "mobile": False}
    browser.execute_cdp_cmd("Emulation.setDeviceMetricsOverride", size)


def requests_of(browser: Any) -> list[str]:
    """The addresses that were asked for since the last look."""
    found = []
    for entry in browser.get_log("performance"):
        message = json.loads(entry["message"])["message"]
        if message["method"] == "Network.requestWillBeSent":
            found.append(message["params"]["request"]["url"])
    return found


@pytest.mark.browser
@pytest.mark.parametrize("pixels", [360, 768, 1280])
def test_nothing_sticks_out(page: Path, browser: Any, pixels: int) -> None:
    width(browser, pixels)
    requests_of(browser)
    browser.get(page.as_uri())
    assert browser.execute_script("return document.documentElement.scrollWidth") <= pixels
    assert browser.get_log("browser") == []
    assert {address.partition("#")[0] for address in requests_of(browser)} == {page.as_uri()}


@pytest.mark.browser
def test_pointing_at_an_edit_shows_its_dependents(page: Path, browser: Any) -> None:
    width(browser, 1280)
    browser.get(page.as_uri())
    browser.execute_script("document.querySelector('#e-2').dispatchEvent(new MouseEvent('click'))")
    rows = browser.execute_script("return [...document.querySelectorAll('tr.dep')].map((row) => row.id)")
    assert rows == ["e-3", "e-4"]
    said = "return document.getElementById('strike').textContent"
    assert "A strike of 2 would be refused: 3, 4 depend on it." in browser.execute_script(said)
    browser.execute_script("document.querySelector('#e-1').dispatchEvent(new MouseEvent('click'))")
    assert "Edit 1 is undone" in browser.execute_script(said)


@pytest.mark.browser
def test_a_box_of_the_picture_opens_its_group(page: Path, browser: Any) -> None:
    browser.get(page.as_uri())
    browser.execute_script("document.querySelectorAll('details.group').forEach((each) => { each.open = false; })")
    browser.execute_script("location.hash = 'g-5.250'")
    opened = "return new Promise((done) => setTimeout(() => done(document.getElementById('g-5.250').open), 200))"
    assert browser.execute_script(opened)


@pytest.mark.browser
def test_paper_has_all(page: Path, browser: Any) -> None:
    browser.get(page.as_uri())
    browser.execute_script("document.querySelectorAll('details.group').forEach((each) => { each.open = false; })")
    browser.execute_script("dispatchEvent(new Event('beforeprint'))")
    assert browser.execute_script("return document.querySelectorAll('details:not([open])').length") == 0
    assert browser.execute_script("return document.querySelectorAll('.item[hidden]').length") == 0
    printed = browser.execute_cdp_cmd("Page.printToPDF", {"printBackground": True, "preferCSSPageSize": True})
    assert base64.b64decode(printed["data"]).startswith(b"%PDF")
    browser.execute_script("dispatchEvent(new Event('afterprint'))")
    assert browser.execute_script("return document.querySelectorAll('details.group[open]').length") == 0
