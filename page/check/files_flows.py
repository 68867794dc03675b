"""Opening, saving, and losing nothing: by downloads, in place, on a full disk, after a crash."""

import tempfile
import time
from pathlib import Path

from browser import Page
from edit_flows import empty_box, fill, form_of, go_to, set_value, shows
from runner import BASE, digits_of, fields_reference, native
from selenium.webdriver.common.keys import Keys

STUB = """window.written = {}; window.failing = '';
const handle = (name) => ({name, kind: 'file', isSameEntry: async (other) => other.name === name,
  createWritable: async () => { let text = ''; return {
    write: async (more) => { if (window.failing === 'write') throw new DOMException('The disk is full', 'QuotaExceededError'); text += more; },
    close: async () => { window.written[name] = text; }, abort: async () => {} }; } });
window.showSaveFilePicker = async ({suggestedName}) => handle(window.savedAs ?? suggestedName);"""


def run(page: Page, *commands: str) -> None:
    page.call("await baliseplan.app.run(args[0])", list(commands))


def opened(page: Page) -> None:
    page.drop(("base.plan", BASE))
    page.wait(lambda: "5 groups" in page.text(".state"))
    page.wait(lambda: "saved" in page.text(".state"))


def saved_by_downloads(page: Page) -> None:
    go_to(page, "5.200", "5.200")
    set_value(page, "1 0 V_TSR 0", "30 km/h")
    page.said("ok 1")
    page.wait(lambda: "journal not saved" in page.text(".state"))
    folder = Path(tempfile.mkdtemp())
    page.cdp("Browser.setDownloadBehavior", {"behavior": "allow", "downloadPath": str(folder)})
    page.call("window.showSaveFilePicker = undefined")
    page.button("Save the journal").click()
    page.wait(lambda: (folder / "journal.txt").exists() or (folder / "journal").exists())
    page.button("Save the plan").click()
    page.wait(lambda: len([each for each in folder.iterdir() if "download" not in each.suffix]) == 2)
    time.sleep(0.3)
    files = {("plan" if "plan" in each.name else "journal"): each.read_bytes() for each in folder.iterdir()}
    assert native(BASE, files["journal"]) == (files["plan"], files["journal"])
    page.wait(lambda: "not saved" not in page.text(".state"))


def saved_in_place(page: Page) -> None:
    page.call(STUB)
    run(page, "seth 5.100 0 M_MCOUNT 7")
    page.css(".group-head h2").click()
    page.keys(Keys.CONTROL, "s")
    page.wait(lambda: set(page.call("return window.written")) == {"journal", "line.plan"})
    written = page.call("return window.written")
    assert native(BASE, written["journal"].encode()) == (written["line.plan"].encode(), written["journal"].encode())
    page.wait(lambda: "not saved" not in page.text(".state"))


def a_full_disk(page: Page) -> None:
    before = page.call("return window.written.journal")
    page.call("window.failing = 'write'")
    run(page, "seth 5.100 0 M_MCOUNT 8")
    page.button("Save the journal").click()
    page.wait(lambda: any("Not saved" in each.text and "disk is full" in each.text for each in page.all(".toast.bad")))
    assert page.call("return window.written.journal") == before
    assert "journal not saved" in page.text(".state")
    page.call("window.failing = ''")
    page.button("Save the journal").click()
    page.wait(lambda: "not saved" not in page.text(".state"))


def never_onto_the_base_plan(page: Page) -> None:
    page.call("window.savedAs = 'base.plan'; baliseplan.app.base.handle = {name: 'base.plan'}; baliseplan.app.planFile.handle = null")
    page.button("Save the plan").click()
    page.wait(lambda: any("is the base plan" in each.text for each in page.all(".toast.bad")))
    assert "base.plan" not in page.call("return window.written")
    page.call("delete window.savedAs; baliseplan.app.base.handle = null")


def leaving_warns(page: Page) -> None:
    asks = "const e = new Event('beforeunload', {cancelable: true}); dispatchEvent(e); return e.defaultPrevented"
    assert page.call(asks) is False
    run(page, "seth 5.100 0 M_MCOUNT 9")
    assert page.call(asks) is True


def crash(page: Page) -> None:
    """Leaves the page as a crash does, without its question."""
    time.sleep(0.3)
    page.call("baliseplan.app.loaded = false; baliseplan.app.draft = ''")
    page.load()


def resumed_after_a_crash(page: Page) -> None:
    page.call("await baliseplan.app.run(['turn 5.300'])")
    page.css("#command").send_keys("set 5.100 0 0 D_LINK 0 61" + Keys.ESCAPE)
    before = page.call("return baliseplan.app.journal")
    crash(page)
    page.wait(lambda: "Unsaved edits of base.plan" in page.text(".notice"))
    page.shot("left-behind")
    page.button("Go on").click()
    page.wait(lambda: "journal not saved" in page.text(".state"))
    assert page.call("return baliseplan.app.journal") == before
    assert page.call("return baliseplan.app.openReviews.length") == 6
    assert page.css("#command").get_attribute("value") == "set 5.100 0 0 D_LINK 0 61"
    empty_box(page)


def another_plan_loses_nothing(page: Page) -> None:
    before = page.call("return baliseplan.app.journal")
    page.drop(("other.plan", b"plan 1\n"))
    page.wait(lambda: "The journal isn’t saved" in page.text("dialog"))
    page.button("Open anyway", "dialog").click()
    page.wait(lambda: "other.plan" in page.text(".state"))
    crash(page)
    page.wait(lambda: "Unsaved edits of base.plan" in page.text(".notice"))
    page.button("Go on").click()
    page.wait(lambda: "base.plan" in page.text(".state"))
    assert page.call("return baliseplan.app.journal") == before


def a_full_store_is_said(page: Page) -> None:
    page.call("window.put = IDBObjectStore.prototype.put; IDBObjectStore.prototype.put = () => { throw new DOMException('full', 'QuotaExceededError'); }")
    run(page, "seth 5.100 0 M_MCOUNT 11")
    page.wait(lambda: "not saved, and no copy is kept" in page.text(".state"))
    page.call("IDBObjectStore.prototype.put = window.put")
    run(page, "seth 5.100 0 M_MCOUNT 12")
    page.wait(lambda: "journal not saved" in page.text(".state"))


def the_engine_stops(page: Page) -> None:
    before = page.call("return baliseplan.app.journal")
    page.call("baliseplan.app.worker.worker.onerror({message: 'made to stop'})")
    page.wait(lambda: any("started again" in each.text for each in page.all(".toast.bad")))
    assert page.call("return baliseplan.app.journal") == before
    assert "5 groups" in page.text(".state")
    run(page, "seth 5.100 0 M_MCOUNT 13")
    page.said("ok")


def the_engine_stops_under_a_form(page: Page) -> None:
    """What was filled in stays, and the engine that was started again makes its digits."""
    go_to(page, "100", "5.100")
    form_of(page, 0, 66)
    fill(page, "NID_TSR", "7")
    page.call("baliseplan.app.worker.worker.onerror({message: 'made to stop'})")
    page.wait(lambda: "5 groups" in page.text(".state") and page.call("return baliseplan.app.worker.call('plan').then(() => true, () => false)"))
    assert page.css("dialog .field-row input").get_attribute("value") == "7"
    fill(page, "NID_TSR", "8")
    shows(page, f"insert 5.100 0 1 {digits_of('packet 33', 'NID_PACKET 66', 'Q_DIR 1', 'NID_TSR 8')}")
    page.button("Cancel", "dialog").click()


def a_file_from_windows(page: Page) -> None:
    page.call("baliseplan.app.savedJournal = baliseplan.app.journal")
    page.drop(("windows.plan", b"\xef\xbb\xbf" + BASE.replace(b"\n", b"\r\n")))
    text = page.wait(lambda: page.text("dialog"))
    assert "byte-order mark" in text and "carriage return" in text, text
    page.button("Clean it", "dialog").click()
    page.wait(lambda: "windows.plan" in page.text(".state"))
    page.drop(("windows2.plan", BASE.replace(b"\n", b"\r\n")))
    page.button("Leave it", "dialog").click()
    page.wait(lambda: "1 BadLine" in page.text("dialog"))
    page.button("Close", "dialog").click()
    assert "windows.plan" in page.text(".state")


def hostile_names_are_text(page: Page) -> None:
    page.drop(("<img src=x onerror=alert(1)>.plan", b"plan 1\ngroup\n<script>alert(1)</script>\n"))
    text = page.wait(lambda: page.text("dialog[open]"))
    assert "<script>alert(1)</script>" in text and "<img src=x" in text and "Line 3 of the plan" in text, text
    assert not page.all("img") and page.call("return document.scripts.length") == 4
    page.button("Close", "dialog").click()


def a_bad_plan(page: Page) -> None:
    """Where its digits are refused is shown as the engine has it: the fields, and the bit where something else was due."""
    wrong = BASE.replace(b"5023a0", b"502320")
    page.drop(("wrong.plan", wrong))
    text = page.wait(lambda: page.text("dialog[open]"))
    assert "Line 6 of the plan: the fields of a known packet don’t end at its L_PACKET" in text, text
    assert "In packet 0, at bit 114, V_TSR is due, and too few bits are left for it." in text, text
    page.shot("bad-plan")
    page.css(".fields-view summary").click()
    rows = [each.text.split(" ")[:3] for each in page.all(".fields-view tbody tr")]
    due = [line.split(" ") for line in fields_reference([wrong.decode().split("\n")[5]])]
    own = [[words[0], words[2], words[4]] for words in due[12:-1]]
    header = [[words[0], words[2], words[4]] for words in due[1:11]]
    assert rows == [*own, ["114", "V_TSR", "refused"], *header], rows
    assert page.all(".fields-view tr")[-len(header) - 2].get_attribute("class") == "fault"
    page.button("Close", "dialog").click()


def a_journal_of_another_plan(page: Page) -> None:
    _, journal = native(BASE, commands=b"set 5.200 1 0 V_TSR 0 6\n")
    page.drop(("base.plan", BASE.replace(b"0960064", b"0960074")), ("journal", journal))
    page.drop(("other.plan", native(BASE, journal)[0]), ("journal", journal))
    text = page.wait(lambda: page.text("dialog[open]"))
    assert "27 JournalMismatch" in text and "plan first read" in text, text
    page.button("Close", "dialog").click()


def unknown_files(page: Page) -> None:
    page.drop(("notes.txt", b"Dear all,\n"))
    page.wait(lambda: any("neither plan nor journal" in each.text for each in page.all(".toast.bad")))
    page.drop(("out", b"ok 1\nplan 1\n"))
    page.wait(lambda: any("is an output" in each.text for each in page.all(".toast.bad")))


def no_network(page: Page) -> None:
    got = page.call(
        """const seen = []; addEventListener('securitypolicyviolation', (e) => seen.push(e.effectiveDirective));
        const fetched = await fetch('https://example.org/').then(() => 'sent', () => 'refused');
        try { new WebSocket('wss://example.org/'); } catch {}
        const img = new Image(); img.src = 'https://example.org/x.png';
        const code = "fetch('https://example.org/').then(() => postMessage('sent'), () => postMessage('refused'))";
        const worker = new Worker(URL.createObjectURL(new Blob([code])));
        const inWorker = await new Promise((r) => { worker.onmessage = (e) => r(e.data); });
        await new Promise((r) => setTimeout(r, 200));
        return [fetched, inWorker, seen]"""
    )
    assert got[0] == "refused" and got[1] == "refused" and "connect-src" in got[2] and "img-src" in got[2], got
    sent = page.network()
    assert sent == [], sent


FLOWS = [
    opened, saved_by_downloads, saved_in_place, a_full_disk, never_onto_the_base_plan, leaving_warns, resumed_after_a_crash,
    another_plan_loses_nothing, a_full_store_is_said, the_engine_stops, the_engine_stops_under_a_form,
    a_file_from_windows, hostile_names_are_text, a_bad_plan, a_journal_of_another_plan, unknown_files, no_network,
]  # fmt: skip
