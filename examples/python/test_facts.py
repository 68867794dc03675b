"""Tests of the calls for facts: `python3 -m pytest` in this folder, once `make shared` has built the library."""

from __future__ import annotations

import pytest

import baliseplan
from baliseplan import EditFacts, Tagged

PLAN = "plan 1\ngroup\na1007f80a03250900f82ffffffffffffffffffffffffffffffffc0\n"
COMMANDS = ["set 5.100 0 0 NID_TSR 0 9", "set 5.100 0 0 NID_TSR 0 8", "redo", "turn 5.100"]
PLACE = "b0/0/b0.NID_TSR.0"
FIRST = EditFacts(1, [PLACE], [], [2])
LATER = [EditFacts(2, [PLACE], [], []), EditFacts(3, ["b0.turn", "#5.100"], [], [])]


def test_all_edits() -> None:
    assert baliseplan.facts(PLAN, COMMANDS) == [FIRST, *LATER]
    assert baliseplan.facts(PLAN) == []


@pytest.mark.parametrize(("edit", "due"), [(1, [FIRST]), (2, LATER[:1]), (0, []), (4, []), (2**32 - 1, [])])
def test_one_edit(edit: int, due: list[EditFacts]) -> None:
    assert baliseplan.facts(PLAN, COMMANDS, edit=edit) == due


def test_after_a_journal() -> None:
    journal = baliseplan.run(PLAN, COMMANDS).journal
    assert baliseplan.facts(PLAN, ["undo"], journal) == [FIRST, LATER[0]]


def test_tags() -> None:
    due = [Tagged("5.100", None, None, "b0"), Tagged("5.100", 0, None, "0"), Tagged("5.100", 0, 0, "b0")]
    assert baliseplan.tags(PLAN) == due
    (inserted,) = set(baliseplan.tags(PLAN, ["insert 5.100 0 1 2c803960"])) - set(due)
    assert inserted == Tagged("5.100", 0, 1, "n1")


def test_bytes() -> None:
    data = f"{PLAN}edits\nredo\n".encode()
    assert baliseplan.facts_bytes(data) == (1, b"refused 24 NothingToRedo\nfacts 1\n")
    assert baliseplan.facts_bytes(b"") == (2, b"bad 1 1 BadLine\n")


@pytest.mark.parametrize(("what", "serial"), [(3, 0), (-1, 0), (1, -1), (1, 2**32)])
def test_no_facts(what: int, serial: int) -> None:
    with pytest.raises(ValueError, match="are no facts"):
        baliseplan.facts_bytes(b"", what, serial)


def test_what_is_refused() -> None:
    with pytest.raises(baliseplan.BadInput) as raised:
        baliseplan.facts("plan 2\n")
    assert (raised.value.line, raised.value.number, raised.value.name) == (1, 1, "BadLine")
    with pytest.raises(baliseplan.Fault):
        baliseplan.tags(PLAN, ["x" * 4097])
    with pytest.raises(ValueError, match="no line `edits`"):
        baliseplan.facts(PLAN + "edits\n")
