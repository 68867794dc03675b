"""A checker's deliveries, each named for what it is; the change request; the report."""

import base64
import hashlib
import re

from browser import SHOTS, Page
from runner import BASE, native

EDITS = b"""set 5.200 1 0 V_TSR 0 6
set 5.200 1 0 L_TSR 0 450
insert 5.200 1 1 41408e000000000000
set 5.200 1 1 NID_TSR 0 6
renumber 5.200 250
turn 5.300
"""
PLAN, JOURNAL = native(BASE, commands=EDITS)


def check(page: Page, delivered: bytes, journal: bytes = JOURNAL, base: bytes = BASE) -> str:
    """Drops three files in any order, and returns what the verdict calls them."""
    page.call("document.querySelector('.verdict')?.remove()")
    page.drop(("line.plan", delivered), ("journal", journal), ("base.plan", base), on=".check-view")
    page.wait(lambda: page.all(".verdict") and page.all(".facts li") and "Reading the links" not in page.text(".facts") or None)
    return str(page.css(".verdict").get_attribute("data-finding"))


def without(journal: bytes, start: bytes) -> bytes:
    return b"".join(line for line in journal.splitlines(True) if not line.startswith(start))


def belongs(page: Page) -> None:
    page.button("Check", "nav").click()
    assert check(page, PLAN) == "same"
    assert "They belong together." in page.text(".verdict") and "6 edits that stand" in page.text(".verdict")
    assert "5.500 0 0 NID_BG 0: 6.20 500 m" in page.text(".facts") and "5.300: 44?" in page.text(".facts")
    assert "5.250" in page.text("table.edits") and "renumbered 200 → 250" in page.text("table.edits")


def a_bit(page: Page) -> None:
    assert check(page, PLAN.replace(b"a1007f80a0fa", b"a1007f00a0fa")) == "bits"
    assert "One bit of 5.500 was changed" in page.text(".verdict")
    assert "M_MCOUNT" in page.text(".diff") and "1 bit differs in balise 0: 24" in page.text(".diff")
    assert "seth 5.500 0 M_MCOUNT 254" in page.text(".report")
    page.css(".bit-diff summary").click()
    page.shot("check-a-bit")


def an_entry_missing(page: Page) -> None:
    assert check(page, PLAN, without(JOURNAL, b"2 set")) == "missing"
    assert "has no entry 2" in page.text(".verdict") and "set 5.250 1 0 L_TSR 0 450" in page.text(".report")
    assert check(page, PLAN, without(JOURNAL, b"3 insert")) == "missing"
    assert "27 JournalMismatch" in page.text(".facts") and "names what edit 3 put in" in page.text(".verdict")


def an_entry_more(page: Page) -> None:
    less, _ = native(BASE, commands=b"".join(line for line in EDITS.splitlines(True) if b"L_TSR" not in line))
    assert check(page, less) == "more"
    assert "Without edit 2" in page.text(".verdict")
    assert check(page, native(BASE, JOURNAL, b"undo\nundo\n")[0]) == "older"


def another_journal(page: Page) -> None:
    assert check(page, PLAN, JOURNAL.replace(b" 6 8", b" 6 9")) == "other"
    assert "Line 2 of the journal" in page.text(".facts") and "has 8 there" in page.text(".verdict")
    assert check(page, PLAN, JOURNAL.replace(b"450 300", b"450 301")) == "changed"


def carriage_returns(page: Page) -> None:
    assert check(page, PLAN.replace(b"\n", b"\r\n")) == "transfer"
    assert "same plan bit for bit" in page.text(".verdict") and "carriage return (CRLF)" in page.text(".verdict")
    assert check(page, PLAN, JOURNAL.replace(b"\n", b"\r\n")) == "transfer"
    assert "The journal: Lines end" in page.text(".verdict")


def a_byte_order_mark(page: Page) -> None:
    assert check(page, b"\xef\xbb\xbf" + PLAN) == "transfer"
    assert "byte-order mark (EF BB BF)" in page.text(".verdict")


def a_cut(page: Page) -> None:
    assert check(page, PLAN[:-20]) == "delivered"
    assert "may be cut off" in page.text(".facts") and "Line 13 of the plan" in page.text(".facts")
    assert "There are 35 digits, an odd number: one is missing at the end." in page.text(".fields-view")


def the_request(page: Page) -> None:
    assert check(page, PLAN) == "same"
    page.css("#request").send_keys("5.100 5.200 5.250 5.300")
    assert "Changed, but not in the request: 5.400" in page.text(".request")
    page.css("#request").send_keys(" 5.400 9.9")
    assert "In the request, but not changed: 9.9" in page.text(".request") and "not in the request" not in page.text(".request")


def the_report(page: Page) -> None:
    text = page.text(".sums")
    for data in (BASE, JOURNAL, PLAN):
        assert hashlib.sha256(data).hexdigest() in text
    assert re.search(r"engine of baliseplan \d+\.\d+\.\d+, SHA-256 [0-9a-f]{64}", text), text
    assert re.search(r"\(20\d\d-\d\d-\d\dT[\d:.]+Z\)", text), text
    assert page.call("return document.querySelector('meta[name=engine-sha256]').content") in text
    pdf = base64.b64decode(page.cdp("Page.printToPDF", {"printBackground": False})["data"])
    SHOTS.mkdir(parents=True, exist_ok=True)
    (SHOTS / "report.pdf").write_bytes(pdf)
    assert len(pdf) > 20000


def one_by_one(page: Page) -> None:
    """The files come one after another, in the other order."""
    page.load()
    page.button("Check", "nav").click()
    for name, data in (("journal", JOURNAL), ("base.plan", BASE), ("line.plan", PLAN)):
        page.drop((name, data), on=".check-view")
    page.wait(lambda: "They belong together." in page.text(".verdict"))


FLOWS = [
    belongs, a_bit, an_entry_missing, an_entry_more, another_journal, carriage_returns, a_byte_order_mark, a_cut, the_request,
    the_report, one_by_one,
]  # fmt: skip
