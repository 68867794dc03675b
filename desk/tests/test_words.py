"""data/examples: the desk says the same as the page, which is tested against the same examples."""

from __future__ import annotations

import json
from pathlib import Path
from typing import Any

import pytest
from conftest import TOP, call
from plandesk.amounts import NoAmount, raw_value
from plandesk.changes import session_diff
from plandesk.damage import damage_of
from plandesk.desk import State, load
from plandesk.engine import Engine
from plandesk.folder import Folder
from plandesk.refusals import REFUSALS
from plandesk.rows import Row, notes_of, rows_of
from plandesk.sentences import sentence
from plandesk.short_forms import EMPTY
from plandesk.verify import Delivery, verify
from plandesk.vocabulary import meaning, packet_name, variables


def examples(name: str) -> Any:
    return json.loads((TOP / "data" / "examples" / f"{name}.json").read_text("utf-8"))


def plain(text: str) -> str:
    """The examples have plain apostrophes."""
    return text.replace("’", "'")


def test_values() -> None:
    values = examples("values")
    for name, value, scale, words in values["meanings"]:
        assert plain(meaning(name, value, scale)) == words, (name, value)
    for number, words in values["packets"]:
        assert plain(packet_name(number)) == words
    for name, text, scale, due in values["amounts"]:
        try:
            found: int | str = raw_value(name, text, scale)
        except NoAmount as reason:
            found = str(reason)
        assert found == due, (name, text)


def test_refusals() -> None:
    for number, name, what in examples("refusals"):
        assert REFUSALS[number][:2] == (name, what)
    page = (TOP / "docs" / "FORMATS.md").read_text()
    for number, (name, _, _) in REFUSALS.items():
        assert f"| {number} | `{name}`" in page or f"| {number} | {name}" in page, (number, name)


def test_damaged_files() -> None:
    for example in examples("files"):
        found = [[each.kind, each.text] for each in damage_of(example["text"].encode())]
        assert found == example["found"], example


def about(example: dict[str, Any]) -> str:
    return str(example["about"])


def session(example: dict[str, Any], path: Path, engine: Engine) -> State:
    base = TOP / example.get("base", "examples/line.base")
    assert call("init", base, path).exit_code == 0
    result = call("-C", path, "do", *example["commands"])
    assert result.exit_code == 0, result.output
    return load(Folder(path), engine)


@pytest.mark.parametrize("example", examples("sessions"), ids=about)
def test_edits_and_differences(example: dict[str, Any], tmp_path: Path, engine: Engine) -> None:
    state = session(example, tmp_path / "line", engine)
    edits = []
    for entry in state.journal.entries:
        words = sentence(entry, state.names)
        stands = entry.serial not in state.journal.gone
        edits.append([entry.serial, stands, words.group, plain(words.what), plain(words.detail)])
    assert edits == example["edits"]
    found = []
    for diff in session_diff(state):
        rows = [row_words(row) for row in rows_of(diff)]
        found.append({"title": diff.title, "notes": ", ".join(notes_of(diff)), "rows": rows})
    due = sorted(example["differences"], key=lambda each: str(each["title"]))
    assert sorted(found, key=lambda each: str(each["title"])) == due


def row_words(row: Row) -> list[str]:
    if row.change is None:
        return [row.place, plain(row.note)]
    change = row.change
    name = change.name + (f" ({change.k})" if change.k else "")
    return [row.place, name, plain(change.words(change.before)), plain(change.words(change.after))]


@pytest.mark.parametrize("example", examples("deliveries"), ids=about)
def test_deliveries(example: dict[str, Any], tmp_path: Path, engine: Engine) -> None:
    state = session(example, tmp_path / "line", engine)
    texts = {"base": state.base, "journal": state.journal_text, "delivered": state.line}
    if example["change"]:
        old, new = example["change"]
        texts[example["file"]] = texts[example["file"]].replace(old, new.encode().decode("latin-1"))
    for role, text in texts.items():
        (tmp_path / role).write_bytes(text.encode("latin-1"))
    paths = [str(tmp_path / role) for role in ("base", "journal", "delivered")]
    verdict = verify(Delivery("it", *paths), engine, None)
    title, damage = example["title"]
    known = {"They can't be read.": "They don't belong together."}
    assert known.get(verdict.title, verdict.title) == title
    for text in damage:
        assert any(finding.endswith(text) for finding in verdict.findings), verdict.findings


def test_empty_packets_are_those_of_the_formats() -> None:
    page = (TOP / "docs" / "FORMATS.md").read_text()
    for digits in EMPTY.values():
        assert digits in page
    for name in variables():
        assert name in page
