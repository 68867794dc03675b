"""Looking at a line of 2,000 groups: list, picture, text, links; and that nothing overflows at any width."""

import time

from browser import Page
from edit_flows import go_to
from runner import line_of, native
from selenium.webdriver.common.keys import Keys

WIDTHS = (420, 640, 900, 1280, 1920)
OVERFLOW = """const over = [...document.querySelectorAll('body *')].filter((e) => e.checkVisibility() && !e.closest('.scroll-x, .list, svg, .choices, .log, .sr'))
  .filter((e) => { const b = e.getBoundingClientRect(); return b.width > 0 && b.right > innerWidth + 1 && getComputedStyle(e).position !== 'fixed'; });
return [document.documentElement.scrollWidth - innerWidth, over.slice(0, 3).map((e) => e.tagName + '.' + e.className)]"""


# Every kind of command, on groups that the made lines of 2,000 and of 100,000 groups have.
KINDS = b"""set 1.700 0 0 D_LINK 0 555
seth 1.701 1 M_MCOUNT 7
insert 1.701 1 0 41408e000000000000
set 1.701 1 0 V_TSR 0 12
delete 1.705 1 1
move 1.709 1 0 2
renumber 1.710 16100
turn 1.714
add 100 a1007ff08033ffffffffffffffffffffffffffffffffffffffffc0
drop 1.720
undo
redo
strike 1
"""


def as_the_program(page: Page, data: bytes, seconds: float = 10) -> None:
    """Every kind of command as one step: plan and journal are those of the program."""
    page.drop(("all.txt", KINDS))
    page.wait(lambda: "strike 1" in page.css("#command").get_attribute("value"))
    page.css("#command").send_keys(Keys.ENTER)
    page.wait(lambda: "struck 1" in page.text(".command-bar .last"), seconds)
    plan = str(page.call("return await baliseplan.app.worker.call('plan')")).encode()
    journal = str(page.call("return baliseplan.app.journal")).encode()
    assert (plan, journal) == native(data, commands=KINDS, most=0)


def opened(page: Page) -> None:
    page.drop(("line.base", line_of(2000)))
    page.wait(lambda: "2\u202f000 groups" in page.text(".state"))
    page.wait(lambda: page.text(".count").startswith("2\u202f000 groups"), 30)


def every_kind_as_the_program(page: Page) -> None:
    as_the_program(page, line_of(2000))


def found_by_number_and_packet(page: Page) -> None:
    go_to(page, "1.1777", "1.1777")
    page.keys(Keys.CONTROL, "g")
    page.type("p44")
    page.wait(lambda: "of 2\u202f000 groups" in page.text(".count"))

    page.css("#search").send_keys(Keys.CONTROL, "a")
    page.css("#search").send_keys(Keys.DELETE)
    next(each for each in page.all(".chip") if each.text.startswith("Unknown")).click()
    page.wait(lambda: all("?" in row.text for row in page.all("#groups .row")[:5]))
    next(each for each in page.all(".chip") if each.text == "All").click()
    assert len(page.all("#groups .row")) < 60


def faults_show(page: Page) -> None:
    page.call("await baliseplan.app.run(['set 1.1000 1 0 D_LINK 0 300', 'drop 1.500'])")
    page.wait(lambda: any(each.text.startswith("Dangling") and any(c.isdigit() for c in each.text) for each in page.all(".chip")))
    page.button("Line", "nav").click()
    page.wait(lambda: "dangling links" in page.text(".tools") and "disagree" in page.text(".tools"))
    page.shot("line-2000")


def chosen_by_keys(page: Page) -> None:
    box = page.css(".tools input")
    box.send_keys("1.1000" + Keys.ENTER)
    page.wait(lambda: page.text(".caption h3") == "1.1000")
    page.css("svg.picture").send_keys(Keys.ARROW_RIGHT)
    page.wait(lambda: page.text(".caption h3") != "1.1000")
    page.css("svg.picture").send_keys(Keys.ARROW_LEFT)
    page.wait(lambda: page.text(".caption h3") == "1.1000")
    assert "drawn" in page.text(".link-tables")
    page.shot("line-2000-near")
    assert len(page.all("svg.picture .node")) < 60
    page.button("true distances").click()
    page.css("svg.picture").send_keys("+")
    page.css("svg.picture").send_keys("0")


def as_text(page: Page) -> None:
    page.button("Text").click()
    page.wait(lambda: page.css("#line-text").is_displayed() and page.all("#line-text .row"))
    assert len(page.all("#line-text .row")) < 60
    page.css("#line-text").send_keys(Keys.END)
    page.wait(lambda: page.text(".caption h3") == "1.2000" or "2000" in page.text(".caption h3"))
    page.css("#line-text").send_keys(Keys.ARROW_UP)
    page.wait(lambda: page.text(".caption h3") != "1.2000")
    assert " m, passed" in page.text("#line-text .row.on"), page.text("#line-text .row.on")
    page.shot("line-text")
    page.button("Picture").click()
    page.css("svg.picture").send_keys(Keys.ENTER)
    page.wait(lambda: page.css(".edit-view").is_displayed())


def no_overflow(page: Page) -> None:
    for width in WIDTHS:
        page.size(width, 860)
        for view in ("edit", "line", "check"):
            page.call("baliseplan.app.show(args[0]); await new Promise((r) => setTimeout(r, 250))", view)
            for pane in ("groups", "group", "side") if view == "edit" and width <= 900 else ("group",):
                page.call("baliseplan.app.emit('pane', args[0]); await new Promise((r) => setTimeout(r, 80))", pane)
                more, who = page.call(OVERFLOW)
                assert more <= 0 and not who, (width, view, pane, more, who)
    page.size(1280, 860)
    page.call("baliseplan.app.show('edit')")


def one_tab_stop_for_the_fields(page: Page) -> None:
    go_to(page, "1.1", "1.1")
    time.sleep(0.3)
    stops = page.call("return [...document.querySelectorAll('.panel.group [data-rove]')].filter((e) => e.tabIndex === 0).length")
    assert stops == 1, stops
    page.call("document.querySelector('.panel.group [data-rove][tabindex=\"0\"]').focus()")
    seen = set()
    for _ in range(200):
        page.keys(Keys.ARROW_RIGHT)
        seen.add(page.call("return document.activeElement.dataset.at ?? document.activeElement.dataset.key ?? ''"))
    assert len([each for each in seen if each]) == page.call("return [...document.querySelectorAll('.panel.group [data-at], .panel.group [data-key][data-rove]')].filter((e) => !e.disabled).length")


def both_themes_and_forced_colours(page: Page) -> None:
    for name, features in (("dark", {"prefers-color-scheme": "dark"}), ("forced", {"forced-colors": "active"}), ("forced-dark", {"forced-colors": "active", "prefers-color-scheme": "dark"})):
        page.media(features)
        for view in ("edit", "line"):
            page.call("baliseplan.app.show(args[0]); await new Promise((r) => setTimeout(r, 300))", view)
            page.shot(f"{view}-{name}")
    page.media({})
    page.call("baliseplan.app.show('edit')")


FLOWS = [
    opened, every_kind_as_the_program, found_by_number_and_packet, faults_show, chosen_by_keys, as_text, no_overflow, one_tab_stop_for_the_fields,
    both_themes_and_forced_colours,
]  # fmt: skip
