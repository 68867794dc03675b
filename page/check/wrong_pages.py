#!/usr/bin/env python3
"""Builds pages that are wrong on purpose, and sees that the checks find each.

usage: wrong_pages.py PROGRAM [--quick]     (--quick: four of them)
A page is built in a folder of its own, of the sources with one text replaced. A check finds it where it fails and names
what has to fail. Ends with 1 where one isn't found.
"""

import os
import shutil
import subprocess
import sys
import tempfile
import time
from dataclasses import dataclass
from pathlib import Path

TOP = Path(__file__).resolve().parents[2]
PYTHON = sys.executable


@dataclass(frozen=True)
class Wrong:
    name: str
    file: str  # below page/src
    old: str
    new: str
    check: tuple[str, ...]  # what has to fail
    says: str  # what the failure names; with a bar between, one of these
    quick: bool = False


def flows(name: str) -> tuple[str, ...]:
    return (PYTHON, "page/check/flows.py", name)


def test(name: str) -> tuple[str, ...]:
    return ("node", "--test", f"page/test/{name}.test.mjs")


AUDIT = (PYTHON, "page/check/audit.py")
PAGES = (
    Wrong("changes a bit of the plan that it saves", "ui/app.mjs", "await this.worker.call('plan')",
          "(await this.worker.call('plan')).replace('fc0\\n', 'ec0\\n')", flows("files"), "saved by downloads", True),
    Wrong("drops a line of the journal that it saves", "ui/app.mjs", "    return this.#save(journal, this.journalFile,",
          "    return this.#save(journal.replace(/\\n[^\\n]*\\n$/, '\\n'), this.journalFile,", flows("files"), "saved by downloads"),
    Wrong("shows another value", "ui/tile.mjs", "  const words = meaning(name, value, scale);",
          "  const words = meaning(name, value + 1, scale);", flows("edit"), "insert by fields", True),
    Wrong("runs another command than it shows", "ui/tile.mjs", "return shown.app.do(line, true)",
          "return shown.app.do(line.replace('V_TSR 0 6', 'V_TSR 0 7'), true)", flows("week"), "by mouse"),
    Wrong("loses what depends on a strike", "core/facts.mjs", "seen.add(later);",
          "later;", test("session"), "the session of docs/GUIDE.md"),
    Wrong("doesn't ask again once an anchor goes", "worker/session.mjs", "if (more.size === 0) return",
          "if (runs > 0 || more.size === 0) return", test("facts"), "a strike that moves an anchor"),
    Wrong("keeps the accepted commands of a refused step", "worker/session.mjs", "(!keepAccepted || refused === commands.length)",
          "refused === commands.length", test("session"), "several commands are one step"),
    Wrong("follows the balises of a turned group wrongly", "core/tags.mjs", "shape.findIndex(({ telegram }) => telegram === t)",
          "Number(t)", test("tags"), "lines of tags"),
    Wrong("adds up distances wrongly", "core/links.mjs", "sum += value", "sum = value", test("session"), "links are those of docs/GUIDE.md"),
    Wrong("leaves a field out of a form", "core/layouts.mjs", "'L_TSR', 'Q_FRONT', 'V_TSR'", "'L_TSR', 'V_TSR'",
          flows("edit"), "insert by fields"),
    Wrong("makes a field of a form another one", "core/items.mjs", "`${name} ${value}`", "`${name} ${value ^ (name === 'Q_GDIR')}`",
          flows("edit"), "many parts"),
    Wrong("shows an answer that comes too late", "ui/forms.mjs", "    if (mine !== latest) return;\n", "", flows("edit"), "a late answer|typed wrong in the form"),
    Wrong("shows a fault one bit off", "core/items.mjs", "bit: Number(bit), due });", "bit: Number(bit) + 1, due });", flows("files"), "a bad plan"),
    Wrong("reads the digits of a packet as of another version", "worker/speller.mjs", "packetItem(version, fields.map", "packetItem(16, fields.map", test("random"), "random session"),
    Wrong("finds that all belongs together", "worker/checker.mjs", "if (made.plan !== other.plan) return nameDifference(this, answer);",
          "", test("checker"), "a missing entry", True),
    Wrong("says of a byte-order mark that all is right", "core/damage.mjs", "if (hasMark(bytes)) found.push",
          "if (false) found.push", flows("check"), "byte order mark"),
    Wrong("keeps no copy", "ui/keeper.mjs", "    if (this.id === '') return;\n    this.wanted", "    return;\n    this.wanted",
          flows("files"), "resumed after a crash"),
    Wrong("asks the network", "ui/main.mjs", "\nstart();\n",
          "\nstart();\nfetch('https://example.com/').catch(() => {});\n", flows("edit"), "FAILED  console"),
    Wrong("has pale texts", "ui/style.css", "--muted: #5c626b;", "--muted: #a9adb3;", AUDIT, "contrast", True),
    Wrong("has buttons without a name", "ui/dom.mjs", "title, 'aria-label': text ? undefined : title,", "", AUDIT, "no name"),
    Wrong("gives other bytes than the engine", "core/engine.mjs", ".slice(Number(to), Number(to) + bytes)",
          ".slice(Number(to), Number(to) + bytes).map((byte, i) => (i === 20 ? byte ^ 1 : byte))", ("node", "page/check/compare_engine.mjs", "PROGRAM"), "differ"),
    Wrong("lets no key reach the fields", "ui/rove.mjs", "each.tabIndex = each === stop ? 0 : -1", "each.tabIndex = -1", flows("week"), "by keyboard"),
)  # fmt: skip


def make_tree(folder: Path, wrong: Wrong) -> None:
    """The page with one text replaced, beside all else of the repository."""
    (folder / "page").mkdir()
    for name in ("src", "test", "check"):
        shutil.copytree(TOP / "page" / name, folder / "page" / name, ignore=shutil.ignore_patterns("__pycache__"))
    for name in ("build.mjs", "baliseplan.html"):
        shutil.copy(TOP / "page" / name, folder / "page" / name)
    for name in ("checks", "crates", "data", "docs", "examples", "reference"):
        (folder / name).symlink_to(TOP / name)
    file = folder / "page/src" / wrong.file
    text = file.read_text()
    if text.count(wrong.old) != 1:
        raise SystemExit(f"{wrong.name}: its text is {text.count(wrong.old)} times in {wrong.file}")
    file.write_text(text.replace(wrong.old, wrong.new))
    subprocess.run(["node", "page/build.mjs"], cwd=folder, check=True, stdout=subprocess.DEVNULL)


def is_found(wrong: Wrong, program: str) -> bool:
    with tempfile.TemporaryDirectory() as name:
        folder = Path(name)
        make_tree(folder, wrong)
        words = [program if word == "PROGRAM" else word for word in wrong.check]
        run = subprocess.run(words, cwd=folder, env={**os.environ, "BALISEPLAN": program}, capture_output=True, text=True)
        faults = [line for line in run.stdout.split("\n") if not line.lstrip().startswith(("ok", "# Subtest"))]
        found = run.returncode != 0 and any(says in line for says in wrong.says.split("|") for line in faults)
        if not found:
            print(run.stdout[-1500:], run.stderr[-500:])
        return found


def main() -> int:
    program, quick = str(Path(sys.argv[1]).resolve()), "--quick" in sys.argv[2:]
    missed = 0
    chosen = [wrong for wrong in PAGES if wrong.quick or not quick]
    for wrong in chosen:
        began = time.time()
        found = is_found(wrong, program)
        missed += not found
        print(f"{'found  ' if found else 'MISSED '} a page that {wrong.name} ({time.time() - began:.0f} s)", flush=True)
    print(f"{len(chosen)} wrong pages, {missed} not found")
    return 1 if missed else 0


if __name__ == "__main__":
    sys.exit(main())
