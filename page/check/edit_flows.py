"""Editing by clicks and keys on the worked line: each flow goes on where the one before ended."""

import time

from browser import Page
from runner import BASE, digits_of
from selenium.common.exceptions import TimeoutException
from selenium.webdriver.common.by import By
from selenium.webdriver.common.keys import Keys


# Packet 5 of 5.100 with a link more than it has, and that of balise 0 of 5.300 as it is.
LINKS_OF_100 = (
    "NID_PACKET 5", "Q_DIR 1", "Q_SCALE 1", "D_LINK 600", "Q_NEWCOUNTRY 0", "NID_BG 200", "Q_LINKORIENTATION 1", "Q_LINKREACTION 1",
    "Q_LOCACC 5", "N_ITER 2", "D_LINK 850", "Q_NEWCOUNTRY 0", "NID_BG 300", "Q_LINKORIENTATION 0", "Q_LINKREACTION 1", "Q_LOCACC 5",
    "D_LINK 700", "Q_NEWCOUNTRY 0", "NID_BG 400", "Q_LINKORIENTATION 0", "Q_LINKREACTION 1", "Q_LOCACC 0",
)  # fmt: skip
LINKS_OF_300 = (
    "NID_PACKET 5", "Q_DIR 1", "Q_SCALE 1", "D_LINK 850", "Q_NEWCOUNTRY 0", "NID_BG 200", "Q_LINKORIENTATION 0", "Q_LINKREACTION 1",
    "Q_LOCACC 5", "N_ITER 0",
)  # fmt: skip


def go_to(page: Page, text: str, identity: str) -> None:
    page.keys(Keys.CONTROL, "g")
    page.type(text + Keys.ENTER)
    page.wait(lambda: page.text(".group-head h2") == identity)


def set_value(page: Page, at: str, value: str) -> str:
    """Sets a value by its tile; returns the command that the editor showed."""
    page.wait(lambda: page.css(f'[data-at="{at}"]').is_displayed())
    time.sleep(0.15)
    page.css(f'[data-at="{at}"]').click()
    page.wait(lambda: page.css("#editor-value"))
    if page.css("#editor-value").tag_name == "select":
        page.css(f'#editor-value option[value="{value}"]').click()
    else:
        page.type(value)
    preview = page.text(".editor .preview")
    page.css(".editor button[type=submit]").click()
    return preview


def empty_box(page: Page) -> None:
    page.css("#command").send_keys(Keys.CONTROL, "a")
    page.css("#command").send_keys(Keys.DELETE)


def edit_row(page: Page, serial: int) -> None:
    page.css("#tab-edits").click()
    page.click_row("#edits", f"{serial}\n")


def opened(page: Page) -> None:
    page.drop(("base.plan", BASE))
    page.wait(lambda: "5 groups" in page.text(".state"))
    go_to(page, "5.2", "5.200")


def set_with_unit(page: Page) -> None:
    assert set_value(page, "1 0 V_TSR 0", "30 km/h") == "set 5.200 1 0 V_TSR 0 6"
    page.said("ok 1")
    page.wait(lambda: "was 40 km/h" in page.text('[data-at="1 0 V_TSR 0"]'))
    assert page.call("return document.activeElement.dataset.at") == "1 0 V_TSR 0"


def refused_in_place(page: Page) -> None:
    set_value(page, "1 0 V_TSR 0", "200")
    page.wait(lambda: "doesn’t fit the bits" in page.text(".editor .refusal"))
    page.keys(Keys.ESCAPE)
    assert not page.all(".editor")


def command_with_completion(page: Page) -> None:
    page.keys(Keys.CONTROL, "k")
    box = page.driver.switch_to.active_element
    box.send_keys("set 5.20")
    page.wait(lambda: page.all(".choices li"))
    box.send_keys(Keys.TAB)
    box.send_keys("1 0 L_T")
    page.wait(lambda: any("L_TSR" in each.text for each in page.all(".choices li")))
    box.send_keys(Keys.TAB)
    box.send_keys("0 450" + Keys.ENTER)
    assert "set 5.200 1 0 L_TSR 0 450" in page.said("ok 2")


CONTROL = """const rows = [...document.querySelectorAll('dialog .field-row')].filter((row) => row.querySelector('b').textContent === arguments[0]);
return rows[arguments[1]].querySelector('input, select')"""


def form_of(page: Page, balise: int, number: int) -> None:
    """The form of a new packet."""
    page.button(f"Put a packet into balise {balise}").click()
    page.wait(lambda: page.css("dialog[open] .packet-form"))
    page.css(f'dialog select[aria-label=Packet] option[value="{number}"]').click()


def fill(page: Page, name: str, value: str, k: int = 0) -> None:
    """Types a value into a form; a choice is taken by its number."""
    control = page.driver.execute_script(CONTROL, name, k)
    if control.tag_name == "select":
        control.find_element(By.CSS_SELECTOR, f'option[value="{value}"]').click()
    else:
        control.click()
        page.type(value)


def shows(page: Page, *commands: str) -> None:
    """Waits until a form shows commands."""
    due = "\n".join(commands)
    try:
        page.wait(lambda: page.text("dialog .preview") == due, 10)
    except TimeoutException:
        raise AssertionError(f"{page.text('dialog .preview')} instead of {due}") from None


def insert_by_fields(page: Page) -> None:
    form_of(page, 1, 65)
    for name, value in (("NID_TSR", "6"), ("D_TSR", "700 m"), ("L_TSR", "100 m"), ("V_TSR", "60 km/h")):
        fill(page, name, value)
    fields = ("NID_PACKET 65", "Q_DIR 1", "Q_SCALE 1", "NID_TSR 6", "D_TSR 700", "L_TSR 100", "Q_FRONT 0", "V_TSR 12")
    shows(page, f"insert 5.200 1 1 {digits_of('packet 33', *fields)}")
    page.shot("insert-form")
    page.button("Insert", "dialog").click()
    page.said("ok 3")
    page.wait(lambda: "700 m" in page.text('[data-at="1 1 D_TSR 0"]') and "60 km/h" in page.text('[data-at="1 1 V_TSR 0"]'))


def typed_wrong_in_the_form(page: Page) -> None:
    page.button("Put a packet into balise 1").click()
    row = page.wait(lambda: next(each for each in page.all("dialog .field-row") if each.text.startswith("V_TSR")))
    row.find_element(By.CSS_SELECTOR, "input").click()
    page.type("33 km/h")
    assert "no whole number of steps" in row.text and not page.button("Insert", "dialog").is_enabled()
    page.button("Cancel", "dialog").click()


def packet_anew(page: Page) -> None:
    go_to(page, "100", "5.100")
    page.button("All fields of packet 5 anew").click()
    page.wait(lambda: len(page.all("dialog .part-form")) == 2)
    assert page.text("dialog .preview") == "nothing is changed yet" and not page.button("Replace", "dialog").is_enabled()
    page.button("One link more", "dialog").click()
    page.wait(lambda: len(page.all("dialog .part-form")) == 3)
    fill(page, "D_LINK", "700 m", 2)
    fill(page, "NID_BG", "400", 2)
    fill(page, "Q_LINKREACTION", "1", 2)
    shows(page, "delete 5.100 0 0", f"insert 5.100 0 0 {digits_of('packet 33', *LINKS_OF_100)}")
    page.shot("packet-anew")
    page.button("Try", "dialog").click()
    page.wait(lambda: "1 group would change" in page.text("dialog .tried"))
    page.button("Replace", "dialog").click()
    page.wait(lambda: "3 links" in page.text(".packet"))
    page.wait(lambda: "700 m" in page.text('[data-at="0 0 D_LINK 2"]') and "400" in page.text('[data-at="0 0 NID_BG 2"]'))
    page.css(".group-head h2").click()
    page.keys(Keys.CONTROL, "z")
    page.said("undone 5")
    page.keys(Keys.CONTROL, "z")
    page.said("undone 4")
    page.wait(lambda: "2 links" in page.text(".packet"))


def undo_by_button(page: Page, times: int) -> None:
    for _ in range(times):
        before = page.text(".command-bar .last")
        page.button("Undo").click()
        page.wait(lambda: page.text(".command-bar .last") != before)


def a_late_answer(page: Page) -> None:
    """An answer of the engine that comes after a later one isn't shown."""
    go_to(page, "5.200", "5.200")
    form_of(page, 1, 66)
    page.call(
        """const {worker} = baliseplan.app, call = worker.call;
        worker.call = async (name, words) => { const value = await call.call(worker, name, words);
          if (name === 'spell' && words.items[0].includes('NID_TSR 7')) await new Promise((r) => setTimeout(r, 600));
          return value; };"""
    )
    fill(page, "NID_TSR", "7")
    page.wait(lambda: page.text("dialog .preview") == "…")
    fill(page, "NID_TSR", "8")
    due = f"insert 5.200 1 2 {digits_of('packet 33', 'NID_PACKET 66', 'Q_DIR 1', 'NID_TSR 8')}"
    shows(page, due)
    time.sleep(0.8)
    shows(page, due)
    page.call("delete baliseplan.app.worker.call")
    page.button("Cancel", "dialog").click()


def copy_of_a_packet(page: Page) -> None:
    """Also of one that isn't known: its digits are the engine's."""
    go_to(page, "5.300", "5.300")
    page.button("Put a packet into balise 1").click()
    page.css('dialog select[aria-label=Packet] option[value="copy 0"]').click()
    shows(page, f"insert 5.300 1 1 {digits_of('packet 33', 'NID_PACKET 44', 'Q_DIR 1', 'rest 9 d28')}")
    page.wait(lambda: "content d28 9 bits" in page.text("dialog .fields-view"))
    page.button("Cancel", "dialog").click()
    page.button("Put a packet into balise 0").click()
    page.css('dialog select[aria-label=Packet] option[value="copy 0"]').click()
    shows(page, f"insert 5.300 0 2 {digits_of('packet 33', *LINKS_OF_300)}")
    page.button("Cancel", "dialog").click()


def refused_digits(page: Page) -> None:
    """Digits that a person typed and the engine refuses: where, and what was due."""
    go_to(page, "5.200", "5.200")
    page.button("Put a packet into balise 1").click()
    page.css("dialog select[aria-label=Packet] option[value=hex]").click()
    page.css("dialog input.mono").send_keys("4140500000")
    page.wait(lambda: page.text("dialog .fields-view tr.fault") == "33 D_TSR refused here")
    page.button("Insert", "dialog").click()
    page.wait(lambda: "In the packet, at bit 33, D_TSR is due, and too few bits are left for it." in page.text("dialog .refusal"))
    page.shot("refused-digits")
    wide = "return [...document.querySelectorAll('#app, .command-bar, main')].filter((e) => e.getBoundingClientRect().width > innerWidth).length"
    assert page.call(wide) == 0, "a long reason makes the page wider than the window"
    page.button("Cancel", "dialog").click()


def move_and_delete(page: Page) -> None:
    go_to(page, "5.200", "5.200")
    page.button("Move down: move 5.200 0 0 1").click()
    page.wait(lambda: page.text(".command-bar .last").startswith("ok"))
    page.button("Take out: delete 5.200 0 1").click()
    page.wait(lambda: "delete 5.200 0 1" in page.text(".command-bar .last"))
    page.wait(lambda: page.all(".gone"))
    for _ in range(2):
        before = page.text(".command-bar .last")
        page.button("Undo").click()
        page.wait(lambda: page.text(".command-bar .last") != before)
    page.wait(lambda: not page.all(".gone"))


def renumber(page: Page) -> None:
    page.button("Renumber", ".group-head").click()
    page.wait(lambda: page.css("dialog input"))
    page.type("300" + Keys.ENTER)
    page.wait(lambda: "has this number already" in page.text("dialog .refusal"))
    page.type("250" + Keys.ENTER)
    page.wait(lambda: page.text(".group-head h2") == "5.250" and "5.200 in the base plan" in page.text(".group-head"))


def set_row(page: Page, name: str, value: str) -> None:
    """Types into the row of a form, or takes a choice by its value."""
    row = page.wait(lambda: next(each for each in page.all("dialog .form-row") if each.text.startswith(name)))
    control = row.find_element(By.CSS_SELECTOR, "input, select")
    if control.tag_name == "select":
        control.find_element(By.CSS_SELECTOR, f'option[value="{value}"]').click()
    else:
        control.click()
        page.type(value)


def telegram(bits: int, version: int, number: int, pig: int, total: int) -> str:
    """A telegram of a new group of country 5, by the reference."""
    header = f"Q_UPDOWN 1,M_VERSION {version},Q_MEDIA 0,N_PIG {pig},N_TOTAL {total},M_DUP 0,M_MCOUNT 255,NID_C 5,NID_BG {number},Q_LINK 1"
    return digits_of(f"telegram {bits}", *header.split(","), "end")


def next_place(page: Page) -> int:
    """The place after the group that is shown."""
    return int(page.call("return baliseplan.app.selected")) + 1


def add_and_drop(page: Page) -> None:
    page.button("Add a group").click()
    set_row(page, "Country", "1024")
    page.wait(lambda: page.text("dialog .preview") == "NID_C 1024: the value doesn’t fit the bits of the variable.")
    assert not page.button("Add", "dialog").is_enabled()
    set_row(page, "Country", "5")
    set_row(page, "Number", "600")
    shows(page, f"add {next_place(page)} {telegram(210, 33, 600, 0, 1)} {telegram(210, 33, 600, 1, 1)}")
    page.button("Add", "dialog").click()
    page.wait(lambda: page.text(".group-head h2") == "5.600" and "6 groups" in page.text(".state"))
    page.button("Drop", ".group-head").click()
    page.button("Drop", "dialog").click()
    page.wait(lambda: "5 groups" in page.text(".state"))
    undo_by_button(page, 2)
    page.wait(lambda: "5 groups" in page.text(".state"))


def many_parts(page: Page) -> None:
    """A packet with many parts in a new long telegram."""
    page.button("Add a group").click()
    for name, value in (("Number", "700"), ("Balises", "1"), ("Telegrams", "1")):
        set_row(page, name, value)
    shows(page, f"add {next_place(page)} {telegram(830, 33, 700, 0, 0)}")
    page.button("Add", "dialog").click()
    page.wait(lambda: page.text(".group-head h2") == "5.700")
    form_of(page, 0, 21)
    for count in range(2, 13):
        page.button("One gradient more", "dialog").click()
        page.wait(lambda: len(page.all("dialog .part-form")) == count)
    parts = [(str(100 * k), str(k % 2), str(3 * k)) for k in range(12)]
    for k, (distance, uphill, slope) in enumerate(parts):
        for name, value in zip(("D_GRADIENT", "Q_GDIR", "G_A"), (distance, uphill, slope), strict=True):
            fill(page, name, value, k)
    fields = [[f"D_GRADIENT {d}", f"Q_GDIR {g}", f"G_A {a}"] for d, g, a in parts]
    item = ["packet 33", "NID_PACKET 21", "Q_DIR 1", "Q_SCALE 1", *fields[0], "N_ITER 11", *sum(fields[1:], [])]
    shows(page, f"insert 5.700 0 0 {digits_of(*item)}")
    page.button("Insert", "dialog").click()
    page.wait(lambda: "12 gradients" in page.text(".packet"))
    assert "1\u202f100 m" in page.text('[data-at="0 0 D_GRADIENT 11"]')
    undo_by_button(page, 2)
    page.wait(lambda: "5 groups" in page.text(".state"))


def a_form_that_is_refused(page: Page) -> None:
    """The engine knows packet 27 in telegrams of version 2.Y alone; what was filled in stays."""
    page.button("Add a group").click()
    for name, value in (("Number", "701"), ("Balises", "1"), ("system version", "16")):
        set_row(page, name, value)
    page.button("Add", "dialog").click()
    page.wait(lambda: page.text(".group-head h2") == "5.701")
    form_of(page, 0, 27)
    fill(page, "V_STATIC", "60 km/h")
    page.wait(lambda: page.text("dialog .preview") == "The engine doesn’t know packet 27 in a telegram of version 1.0: insert its digits.")
    assert not page.button("Insert", "dialog").is_enabled()
    page.shot("refused-form")
    assert any(each.get_attribute("value") == "60 km/h" for each in page.all("dialog .field-row input"))
    page.button("Cancel", "dialog").click()
    page.css("#command").send_keys("insert 5.701 0 0 1b")
    page.wait(lambda: not page.all(".choices li"))
    empty_box(page)
    page.css("#command").send_keys("insert 5.701 0 0 15")
    page.wait(lambda: [each.text.split()[0] for each in page.all(".choices li")] == ["15406c00000000"])
    empty_box(page)
    undo_by_button(page, 1)
    page.wait(lambda: "5 groups" in page.text(".state"))


def strike_with_its_dependents(page: Page) -> None:
    go_to(page, "250", "5.250")
    serial = page.call("return baliseplan.app.edits.find((e) => e.stands && e.kind === 'insert').s")
    for at, value in (("1 1 NID_TSR 0", "7"), ("1 1 L_TSR 0", "120 m")):
        before = page.text(".command-bar .last")
        set_value(page, at, value)
        page.wait(lambda: page.text(".command-bar .last") != before)
    edit_row(page, serial)
    page.wait(lambda: "depends on it" in page.text(".edit-detail"))
    assert "2 later edits must go first" in page.text(".edit-detail"), page.text(".edit-detail")
    page.button(f"Strike {serial}", ".edit-detail").click()
    page.said("refused 26 DependsOn")
    page.button("Strike all 3", ".edit-detail").click()
    page.said(f"struck {serial}")
    page.wait(lambda: "3 edits undone or struck" in page.text(".stack"))
    for _ in range(3):
        before = page.text(".command-bar .last")
        page.button("Redo").click()
        page.wait(lambda: page.text(".command-bar .last") != before)
    edit_row(page, 1)
    page.wait(lambda: "Nothing depends on it" in page.text(".edit-detail"))
    page.button("Strike 1", ".edit-detail").click()
    page.said("struck 1")


def turn_and_worklist(page: Page) -> None:
    go_to(page, "300", "5.300")
    page.button("Turn", ".group-head").click()
    page.said("6 to review")
    page.css("#tab-reviews").click()
    page.wait(lambda: len(page.all(".turn li")) == 6)
    page.all(".turn li .check input")[0].click()
    for i, value in ((1, "847"), (2, "703"), (3, "847"), (4, "847"), (5, "703")):
        page.wait(lambda: page.all(".turn li")[i].find_element(By.CSS_SELECTOR, "input.mono")).click()
        page.type(value + Keys.ENTER)
        page.wait(lambda: f"{i + 1} of 6 done" in page.text(".turn header"))
    page.shot("worklist")
    page.all(".turn li")[4].find_element(By.CSS_SELECTOR, "button[title^=Show]").click()
    page.wait(lambda: page.text(".group-head h2") == "5.250")
    page.wait(lambda: page.css(".spot").get_attribute("data-at") == "0 0 D_LINK 0")


def undo_and_redo(page: Page) -> None:
    page.css(".group-head h2").click()
    page.keys(Keys.CONTROL, "z")
    last = page.said("undone").split()[1]
    page.keys(Keys.CONTROL, Keys.SHIFT, "z")
    page.said(f"redone {last}")


def all_or_nothing(page: Page) -> None:
    journal = page.call("return baliseplan.app.journal")
    page.css("#command").click()
    lines = ("set 5.100 0 0 D_LINK 0 610", "drop 9.9", "set 5.100 0 0 D_LINK 0 99999")
    for line in lines[:-1]:
        page.css("#command").send_keys(line + Keys.ESCAPE + Keys.SHIFT + Keys.ENTER + Keys.NULL)
    page.css("#command").send_keys(lines[-1])
    page.button("Run", ".prompt").click()
    text = page.wait(lambda: page.text("dialog[open]"))
    assert "Nothing was done" in text and "2 commands of 3 were refused" in text, text
    assert "no group has this identity" in text and "doesn’t fit the bits" in text and "set 5.100 0 0 D_LINK 0 610" not in text, text
    page.button("Close", "dialog").click()
    assert page.call("return baliseplan.app.journal") == journal
    assert page.css("#command").get_attribute("value") == "\n".join(lines)
    page.css("#keep-accepted").click()
    page.button("Run", ".prompt").click()
    assert "The others were done" in page.wait(lambda: page.text("dialog[open]"))
    page.button("Close", "dialog").click()
    page.css("#keep-accepted").click()
    assert page.call("return baliseplan.app.journal") != journal
    page.css(".group-head h2").click()
    page.keys(Keys.CONTROL, "z")
    page.said("undone")


def commands_of_a_file(page: Page) -> None:
    page.drop(("monday.txt", b"seth 5.100 0 M_MCOUNT 7\nseth 5.100 0 M_MCOUNT 8\n"))
    page.wait(lambda: page.css("#command").get_attribute("value") == "seth 5.100 0 M_MCOUNT 7\nseth 5.100 0 M_MCOUNT 8")
    page.css("#command").send_keys(Keys.ENTER)
    page.said("ok")
    for _ in range(2):
        before = page.text(".command-bar .last")
        page.button("Undo").click()
        page.wait(lambda: page.text(".command-bar .last") != before)


def try_out(page: Page) -> None:
    before = page.call("return baliseplan.app.journal")
    page.css("#command").send_keys("renumber 5.400 450" + Keys.ESCAPE)
    page.button("Try", ".prompt").click()
    text = page.wait(lambda: page.text("dialog[open]"))
    assert "3 groups would change" in text and "5.400 → 5.450" in text, text
    page.button("Close", "dialog").click()
    assert page.call("return baliseplan.app.journal") == before
    empty_box(page)


def log_and_help(page: Page) -> None:
    page.button("Log", ".prompt").click()
    page.wait(lambda: "turn 5.300" in page.text(".log"))
    page.button("Log", ".prompt").click()
    page.button("Help").click()
    assert "renumber C.N M" in page.wait(lambda: page.text("dialog[open]"))
    page.keys(Keys.ESCAPE)
    page.wait(lambda: not page.all("dialog"))


FLOWS = [
    opened, set_with_unit, refused_in_place, command_with_completion, insert_by_fields, typed_wrong_in_the_form, packet_anew,
    a_late_answer, copy_of_a_packet, refused_digits, move_and_delete, renumber, add_and_drop, many_parts, a_form_that_is_refused,
    strike_with_its_dependents, turn_and_worklist, undo_and_redo, all_or_nothing, commands_of_a_file, try_out, log_and_help,
]  # fmt: skip
