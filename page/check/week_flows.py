"""The week of docs/GUIDE.md, by mouse and again by keyboard alone: saved, read again, and compared with the program."""

import base64
import time
from collections.abc import Callable
from typing import Any

from browser import Page
from edit_flows import edit_row, go_to, set_value
from runner import BASE, native
from selenium.webdriver.common.by import By
from selenium.webdriver.common.keys import Keys

# What the guide does, as commands: the page has to come to the same plan by its own way.
WEEK = b"""set 5.200 1 0 V_TSR 0 6
set 5.200 1 0 L_TSR 0 450
insert 5.200 1 1 41408e000000000000
set 5.200 1 1 Q_SCALE 0 1
set 5.200 1 1 NID_TSR 0 6
set 5.200 1 1 D_TSR 0 700
set 5.200 1 1 L_TSR 0 100
set 5.200 1 1 V_TSR 0 12
renumber 5.200 250
turn 5.300
set 5.300 1 0 D_LINK 0 847
set 5.300 1 1 D_LINK 0 703
set 5.100 0 0 D_LINK 1 847
set 5.250 0 0 D_LINK 0 847
set 5.400 0 1 D_LINK 0 703
strike 1
strike 4
strike 5
strike 6
strike 7
strike 8
strike 3
"""
EXPECTED = native(BASE, commands=WEEK, most=0)[0]
BEFORE_STRIKES = native(BASE, commands=b"".join(WEEK.splitlines(True)[:15]), most=0)[0]
DISTANCES = ("847", "703", "847", "847", "703")

# The browser's own pickers can't be driven; everything else is as a person has it.
PICKERS = """const files = Object.fromEntries(args[0].map(([name, b]) => [name, Uint8Array.from(atob(b), (c) => c.charCodeAt(0))]));
window.files = files;
const handle = (name) => ({name, kind: 'file', isSameEntry: async (other) => other.name === name, getFile: async () => new File([files[name]], name),
  createWritable: async () => { let text = ''; return { write: async (more) => { text += more; }, close: async () => { files[name] = new TextEncoder().encode(text); }, abort: async () => {} }; }});
window.showOpenFilePicker = async () => window.toOpen.map(handle);
window.showSaveFilePicker = async ({suggestedName}) => handle(suggestedName);
window.toOpen = ['base.plan'];"""
GIVE = "return Object.fromEntries(Object.entries(window.files).map(([name, bytes]) => [name, btoa(String.fromCharCode(...bytes))]))"


def pickers(page: Page, files: dict[str, bytes]) -> None:
    page.call(PICKERS, [[name, base64.b64encode(data).decode()] for name, data in files.items()])


def saved(page: Page) -> dict[str, bytes]:
    page.wait(lambda: {"journal", "line.plan"} <= set(page.call(GIVE)) and "not saved" not in page.text(".state"))
    return {name: base64.b64decode(data) for name, data in page.call(GIVE).items()}


def plan_now(page: Page) -> bytes:
    return str(page.call("return await baliseplan.app.worker.call('plan')")).encode()


def compare(page: Page, open_again: Callable[[], None]) -> None:
    """The files that were saved are the program's; the page, loaded anew, opens them as they were."""
    files = saved(page)
    assert files["line.plan"] == EXPECTED, "the plan isn't the guide's"
    assert native(BASE, files["journal"], most=0) == (files["line.plan"], files["journal"])
    edits = page.call("return baliseplan.app.edits")
    page.load()
    pickers(page, files)
    page.call("window.toOpen = ['base.plan', 'journal']")
    open_again()
    page.wait(lambda: "base.plan" in page.text(".state"))
    assert plan_now(page) == EXPECTED
    assert page.call("return baliseplan.app.edits") == edits
    assert page.call("return baliseplan.app.journal").encode() == files["journal"]
    page.css("#tab-reviews").click()
    page.wait(lambda: "A turn came with the journal: of 5.300, edit" in page.text(".reviews-pane"))


def by_mouse(page: Page) -> None:
    pickers(page, {"base.plan": BASE})
    page.button("Open files").click()
    page.wait(lambda: "5 groups" in page.text(".state"))
    page.click_row("#groups", "5.200")
    page.wait(lambda: page.text(".group-head h2") == "5.200")
    for at, value in (("1 0 V_TSR 0", "30 km/h"), ("1 0 L_TSR 0", "450")):
        set_and_wait(page, at, value)
    page.button("Put a packet into balise 1").click()
    page.wait(lambda: page.css("dialog[open] .packet-form"))
    page.button("Insert", "dialog").click()
    page.said("ok 3")
    for at, value in (("1 1 NID_TSR 0", "6"), ("1 1 D_TSR 0", "700"), ("1 1 L_TSR 0", "100 m"), ("1 1 V_TSR 0", "60 km/h")):
        set_and_wait(page, at, value)
    page.button("Renumber", ".group-head").click()
    page.wait(lambda: page.css("dialog input"))
    page.type("250")
    page.button("Renumber", "dialog").click()
    page.wait(lambda: page.text(".group-head h2") == "5.250")
    page.click_row("#groups", "5.300")
    page.wait(lambda: page.text(".group-head h2") == "5.300")
    page.button("Turn", ".group-head").click()
    page.said("6 to review")
    page.css("#tab-reviews").click()
    page.wait(lambda: len(page.all(".turn li")) == 6)
    page.all(".turn li .check input")[0].click()
    for i, value in enumerate(DISTANCES):
        page.wait(lambda: page.all(".turn li")[i + 1].find_element(By.CSS_SELECTOR, "input.mono")).click()
        page.type(value)
        page.all(".turn li")[i + 1].find_element(By.CSS_SELECTOR, "form button").click()
        page.wait(lambda: f"{i + 2} of 6 done" in page.text(".turn header"))
    assert plan_now(page) == BEFORE_STRIKES
    edit_row(page, 1)
    page.wait(lambda: "Nothing depends on it" in page.text(".edit-detail"))
    page.button("Strike 1", ".edit-detail").click()
    page.said("struck 1")
    edit_row(page, 3)
    page.wait(lambda: "4, 5, 6, 7" in page.text(".edit-detail"))
    page.button("Strike all 5", ".edit-detail").click()
    page.said("struck 3")
    page.button("Save the journal").click()
    page.wait(lambda: "journal" in page.call(GIVE))
    page.button("Save the plan").click()
    compare(page, lambda: click(page.button("Open files")))


def click(button: Any) -> None:
    button.click()


def set_and_wait(page: Page, at: str, value: str) -> None:
    before = page.text(".command-bar .last")
    set_value(page, at, value)
    page.wait(lambda: page.text(".command-bar .last") != before)
    page.wait(lambda: page.call("return document.activeElement.dataset.at") == at)


def until(page: Page, what: str, *keys: str, most: int = 120) -> None:
    """Presses a key until something holds of what has the focus, as a person does who looks at the page."""
    for _ in range(most):
        if page.call(f"const e = document.activeElement; return Boolean({what})"):
            return
        page.keys(*keys)
    raise AssertionError(f"no way by {keys} to {what}: {page.call('return document.activeElement.outerHTML.slice(0, 200)')}")


def field(page: Page, at: str, value: str) -> None:
    """By keys: along the fields to one, and another value."""
    time.sleep(0.2)
    until(page, "e.matches('.panel.group [data-rove]')", Keys.TAB)
    page.keys(Keys.HOME)
    until(page, f"e.dataset.at === '{at}'", Keys.ARROW_RIGHT)
    before = page.text(".command-bar .last")
    page.keys(Keys.ENTER)
    page.wait(lambda: page.css("#editor-value"))
    page.type(value + Keys.ENTER)
    page.wait(lambda: page.text(".command-bar .last") != before)
    page.wait(lambda: page.call("return document.activeElement.dataset.at") == at)


def by_keyboard(page: Page) -> None:
    page.load()
    pickers(page, {"base.plan": BASE})
    page.keys(Keys.CONTROL, "o")
    page.wait(lambda: "5 groups" in page.text(".state"))
    go_to(page, "5.200", "5.200")
    field(page, "1 0 V_TSR 0", "30 km/h")
    field(page, "1 0 L_TSR 0", "450 m")
    page.keys(Keys.HOME)
    until(page, "e.dataset.key === 'insert 1'", Keys.ARROW_RIGHT)
    page.keys(Keys.ENTER)
    page.wait(lambda: page.css("dialog[open] .packet-form"))
    until(page, "e.textContent === 'Insert'", Keys.TAB)
    page.keys(Keys.ENTER)
    page.said("ok 3")
    for at, value in (("1 1 NID_TSR 0", "6"), ("1 1 D_TSR 0", "700 m"), ("1 1 L_TSR 0", "100"), ("1 1 V_TSR 0", "60 km/h")):
        field(page, at, value)
    until(page, "e.dataset.key === 'renumber'", Keys.SHIFT, Keys.TAB)
    page.keys(Keys.ENTER)
    page.wait(lambda: page.css("dialog input"))
    page.type("250" + Keys.ENTER)
    page.wait(lambda: page.text(".group-head h2") == "5.250")
    go_to(page, "5.300", "5.300")
    until(page, "e.dataset.key === 'turn'", Keys.TAB)
    page.keys(Keys.ENTER)
    page.said("6 to review")
    until(page, "e.id === 'tab-edits'", Keys.TAB)
    page.keys(Keys.ARROW_RIGHT)
    page.wait(lambda: len(page.all(".turn li")) == 6)
    until(page, "e.matches('.check input')", Keys.TAB)
    page.keys(Keys.SPACE)
    page.wait(lambda: "1 of 6 done" in page.text(".turn header"))
    until(page, "e.matches('.turn input.mono')", Keys.TAB)
    for i, value in enumerate(DISTANCES):
        page.type(value + Keys.ENTER)
        page.wait(lambda: f"{i + 2} of 6 done" in page.text(".turn header"))
        if i < len(DISTANCES) - 1:
            page.wait(lambda: page.call("return document.activeElement.matches('.turn li:not(.done) input.mono')"))
    assert plan_now(page) == BEFORE_STRIKES
    strike_by_keys(page, 1, "Strike 1", "struck 1")
    strike_by_keys(page, 3, "Strike all 5", "struck 3")
    page.keys(Keys.CONTROL, "s")
    compare(page, lambda: page.keys(Keys.CONTROL, "o"))


def strike_by_keys(page: Page, serial: int, button: str, said: str) -> None:
    until(page, "e.getAttribute('role') === 'tab'", Keys.SHIFT, Keys.TAB)
    until(page, "e.id === 'tab-edits'", Keys.ARROW_LEFT)
    until(page, "e.id === 'edits'", Keys.TAB)
    page.keys(Keys.END)
    for _ in range(serial - 1):
        page.keys(Keys.ARROW_UP)
    page.wait(lambda: page.text(".edit-detail").startswith(f"Edit {serial}:") and "Looking" not in page.text(".edit-detail") or None)
    until(page, f"e.textContent === '{button}'", Keys.TAB)
    page.keys(Keys.ENTER)
    page.said(said)


FLOWS = [by_mouse, by_keyboard]
