"""A plan of 100,000 groups, 15 MB: nothing stalls, and a changed bit is found."""

import time

from browser import Page
from edit_flows import go_to, set_value
from look_flows import as_the_program
from runner import line_of
from timings import measure

# The longest time in milliseconds for which the page may answer nothing; and as a multiple of the time that the browser
# takes to copy 100,000 small objects just then, for machines that do other work.
MOST_STALL = 700
MOST_COPIES = 6
COUNT = 100000
TRIES = 3


def edited_without_a_stall(page: Page) -> None:
    """A machine that does other work may hold the page up: a stall is one that comes back each time."""
    data = line_of(COUNT)
    least: dict[str, int] = {}
    for _ in range(TRIES):
        found = measure(page, data)
        rows, _ = found.pop("rows"), found.pop("heap")
        most = max(MOST_STALL, MOST_COPIES * found.pop("calibration"))
        print("        " + ", ".join(f"{name} {each['ms']} ({each['stall']})" for name, each in found.items()), flush=True)
        assert rows < 60, rows
        least = {name: min(each["stall"], least.get(name, each["stall"])) for name, each in found.items()}
        if max(least.values()) <= most:
            return
    raise AssertionError({name: stall for name, stall in least.items() if stall > most})


def set_by_a_click(page: Page) -> None:
    go_to(page, "7.1", "7.1")
    time.sleep(0.5)
    set_value(page, "0 0 D_LINK 0", "1 km")
    page.wait(lambda: "ok" in page.text(".command-bar .last") and "set 7.1 0 0 D_LINK 0 1000" in page.text(".command-bar .last"), 30)
    page.wait(lambda: page.call("return document.activeElement.dataset.at") == "0 0 D_LINK 0", 30)


def a_changed_bit_is_found(page: Page) -> None:
    found = page.call(
        """const app = baliseplan.app, base = app.base.bytes, journal = new TextEncoder().encode(app.journal);
        const delivered = new TextEncoder().encode(await app.worker.call('plan'));
        const at = delivered.length - 8; // in the padding of the last telegram
        delivered[at] = delivered[at] === 102 ? 101 : 102;
        const { verdict, finding, differs } = await app.worker.call('check', {base, journal, delivered});
        app.savedJournal = app.journal;
        return {verdict, kind: finding.kind, differs: differs.length}"""
    )
    assert found == {"verdict": "no", "kind": "bits", "differs": 1}, found


def every_kind_as_the_program(page: Page) -> None:
    data = line_of(COUNT)
    page.drop(("line.base", data))
    page.wait(lambda: "100\u202f000 groups" in page.text(".state") and "0 edits" in page.text(".state"), 60)
    as_the_program(page, data, 60)
    page.call("baliseplan.app.savedJournal = baliseplan.app.journal")


FLOWS = [every_kind_as_the_program, edited_without_a_stall, set_by_a_click, a_changed_bit_is_found]
