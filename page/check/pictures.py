#!/usr/bin/env python3
"""Makes the pictures of the page for docs/: page_edit.png, page_line.png, page_check.png.

usage: pictures.py [FOLDER]
"""

import sys
import time
from pathlib import Path

import browser
from browser import TOP, Page
from check_flows import JOURNAL, PLAN, check
from runner import BASE, line_of
from week_flows import WEEK

WIDTH, HEIGHT = 1240, 800


def ran(page: Page, *commands: str) -> None:
    page.call("for (const command of args[0]) await baliseplan.app.run([command])", list(commands))


def main() -> int:
    browser.SHOTS = Path(sys.argv[1]) if len(sys.argv) > 1 else TOP / "docs"
    page = Page(WIDTH, HEIGHT)
    page.drop(("line.base", BASE))
    page.wait(lambda: "5 groups" in page.text(".state"))
    ran(page, *WEEK.decode().splitlines()[:10])
    page.call("baliseplan.app.jumpTo('5.250'); baliseplan.app.emit('edit', 3)")
    page.wait(lambda: "depends on it" in page.text(".edit-detail"))
    time.sleep(0.4)
    page.call("document.activeElement.blur()")
    page.shot("page_edit")
    page.drop(("line.base", line_of(2000)))
    page.button("Open anyway", "dialog").click()
    page.wait(lambda: page.text(".count").startswith("2\u202f000 groups"), 30)
    ran(page, "set 1.1000 0 0 D_LINK 0 1500", "set 1.1003 1 0 NID_BG 0 3000")
    page.call("baliseplan.app.select(baliseplan.app.byId.get('1.1000')); baliseplan.app.show('line')")
    page.wait(lambda: page.all("svg.picture .node, svg.picture .dots"))
    page.css(".tools input").send_keys("1.1000\n")
    page.wait(lambda: page.text(".caption h3") == "1.1000" and page.all("svg.picture .node"))
    page.call("document.activeElement.blur()")
    page.shot("page_line")
    page.button("Check", "nav").click()
    check(page, PLAN.replace(b"a1007f80a0fa", b"a1007f00a0fa"), JOURNAL)
    page.css(".bit-diff summary").click()
    page.shot("page_check")
    page.call("baliseplan.app.savedJournal = baliseplan.app.journal")
    page.quit()
    return 0


if __name__ == "__main__":
    sys.exit(main())
