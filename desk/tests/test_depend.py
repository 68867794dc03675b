"""What depends on what: closures where a strike moves an anchor, why in words, and a balisefacts that is wrong or missing."""

from __future__ import annotations

import json
import random
import sys
from io import BytesIO
from pathlib import Path

import pytest
from conftest import TOP, Desk, files, has_to_go, plain
from plandesk import programs
from plandesk.depend import Dependents
from plandesk.engine import find_engine
from plandesk.facts import find_facts, read_facts

import facts as reference_facts
import pairs
from run import Commands, Lines, read_session
from session import Session

SESSIONS = 400
INSERTS = [f"insert 5.101 0 {at} 42403e0a" for at in range(6)]
MOVES = [f"move 5.101 0 {pkt} {at}" for pkt in range(6) for at in range(6) if pkt != at]
ADDS = [line for line in pairs.commands() if line.startswith("add")]
OTHERS = ["strike 1", "strike 3", "undo", "redo", "delete 5.101 0 1", "turn 5.101", "set 5.101 0 2 Q_DIR 0 1"]

WRONG = """#!{python}
import subprocess, sys
given = sys.stdin.read()
done = subprocess.run({words!r} + sys.argv[1:], input=given, capture_output=True, text=True)
lines, status = done.stdout.splitlines(), done.returncode
if sys.argv[1:] == []:
    {change}
sys.stdout.write("".join(line + "\\n" for line in lines))
sys.exit(status)
"""
KINDS = {
    "leaves all dependents out": "lines = [line for line in lines if not line.startswith('dependent ')]",
    "leaves the first dependent out": "lines.remove('dependent 2')",
    "leaves the last edit out": "lines = lines[:max(at for at, line in enumerate(lines) if line.startswith('edit '))]",
    "leaves the first edit out": "lines = lines[:1] + lines[lines.index('edit 2'):]",
    "has an edit more": "lines += ['edit 99', 'changes b0']",
    "says that an edit depends on a later one": "lines += ['dependent 1']",
    "says that an edit depends on itself": "lines.insert(4, 'dependent 1')",
    "says that one depends that isn't there": "lines.insert(4, 'dependent 77')",
    "has an edit that changes nothing": "lines += ['edit 99']",
    "begins with another edit's facts": "lines.insert(1, 'dependent 3')",
    "prints nothing": "lines = []",
    "prints the first line alone": "lines = lines[:1]",
    "prints other words": "lines = ['hello you'] * len(lines)",
    "prints a plan": "lines = ['plan 1'] + given.splitlines()[1:3]",
    "prints a word that isn't a fact": "lines.insert(4, 'touches b0')",
    "prints what isn't a number": "lines.insert(4, 'dependent two')",
    "prints a word too many": "lines[2] += ' b0'",
    "is of another version": "lines[0] = 'facts 2'",
    "ends with 77": "status = 77",
    "refuses the journal": "lines, status = ['bad 7 27 JournalMismatch'], 2",
}
INSERTED = ("insert 5.300 1 0 42403e02", "insert 5.300 1 0 42403e04", "insert 5.300 1 1 42403e06")
PARTS = ("insert 5.200 1 1 41408e000000000000", "set 5.200 1 1 Q_SCALE 0 1", "set 5.200 1 1 V_TSR 0 9", "seth 5.100 0 M_DUP 1")


def random_session(seed: int) -> Session:
    """Packets and groups put in and moved beside one another, so that anchors go with strikes."""
    choose = random.Random(seed)
    text = "".join(line + "\n" for line in [*pairs.plan(), "edits"])
    session = read_session(Lines(BytesIO(text.encode()).read))
    commands = Commands(session, set(), [])
    for _ in range(choose.randint(3, 14)):
        commands.take(choose.choice(choose.choice((INSERTS, INSERTS, INSERTS, MOVES, MOVES, ADDS, OTHERS))))
    return session


def test_just_what_has_to_go() -> None:
    """Also where a strike moves an anchor to a place that an earlier edit changed."""
    by_anchor = 0
    for seed in range(SESSIONS):
        session = random_session(seed)
        lines = reference_facts.fact_lines(session, reference_facts.Asked())
        facts = read_facts("".join(line + "\n" for line in lines))
        found = Dependents(facts)
        for serial in facts:
            assert set(found.all_of(serial)) == has_to_go(session.levels[-1], serial), (seed, serial)
            arrows = {serial}
            for each in facts:
                if each in arrows:
                    arrows.update(facts[each].dependents)
            by_anchor += len(arrows) != len(found.all_of(serial)) + 1
    assert by_anchor > SESSIONS / 10


def test_several_at_once() -> None:
    for seed in range(SESSIONS // 4):
        session = random_session(seed)
        lines = reference_facts.fact_lines(session, reference_facts.Asked())
        found = Dependents(read_facts("".join(line + "\n" for line in lines)))
        serials = sorted(found.facts)[::3]
        state = session.levels[-1]
        for each in sorted({*serials, *found.all_of(*serials)}, reverse=True):
            state = state.without(each)


def test_an_anchor_that_goes(desk: Desk, line: Path) -> None:
    """Edit 3 doesn't depend on 1, but it does once 2 is struck: both then put a packet in first."""
    assert desk("do", *INSERTED).exit_code == 0
    result = desk("strike", "1")
    assert (result.exit_code, "2 later edits depend on 1" in result.output) == (1, True), result.output
    assert plain(result.output.splitlines()[1]).endswith("needs 1: what comes first in 5.300 1")
    assert plain(result.output.splitlines()[2]).endswith("needs 1: what comes first in 5.300 1")
    assert desk("strike", "1", "--with-dependents").exit_code == 0
    assert (line / "journal").read_text().endswith("undone 3\nundone 2\nundone 1\n")


@pytest.mark.parametrize(
    ("commands", "words"),
    [
        (("set 5.200 1 0 V_TSR 0 9", "set 5.200 1 0 V_TSR 0 8"), "V_TSR 0 of 5.200 1 0"),
        (("seth 5.200 1 M_DUP 1", "seth 5.200 1 M_DUP 2"), "M_DUP of 5.200 1"),
        (("seth 5.200 1 M_DUP 1", "turn 5.200"), "orientation of 5.200"),
        (("turn 5.200", "turn 5.200"), "orientation of 5.200"),
        (("renumber 5.200 250", "renumber 5.250 260"), "number of 5.260"),
        (("renumber 5.200 250", "turn 5.250"), "identity 5.250"),
        (("set 5.200 1 0 V_TSR 0 9", "delete 5.200 1 0"), "V_TSR 0 of b0 in 5.200 1"),
        (("set 5.200 1 0 V_TSR 0 9", "drop 5.200"), "V_TSR 0 of b0 in 5.200 (telegram 1)"),
        (("move 5.300 0 0 1", "move 5.300 0 0 1"), "what comes before 5.300 0 0"),
        (("insert 5.300 1 1 42403e02", "insert 5.300 1 1 42403e04"), "what comes after 5.300 1 0"),
        (("delete 5.300 0 1", "insert 5.300 0 1 42403e02"), "room in 5.300 0"),
        (("insert 5.300 1 0 42403e02", "insert 5.300 1 0 42403e04"), "what comes first in 5.300 1"),
        (("delete 5.300 0 1", "drop 5.300"), "packet b1 in 5.300 (telegram 0)"),
        (("drop 5.100", "drop 5.200"), "what comes before 5.200"),
    ],
)
def test_why(desk: Desk, commands: tuple[str, str], words: str) -> None:
    result = desk("do", *commands)
    assert result.exit_code == 0, result.output
    assert plain(desk("strike", "1").output.splitlines()[1]).endswith(f"needs 1: {words}")


@pytest.fixture(params=sorted(KINDS))
def wrong(request: pytest.FixtureRequest, tmp_path: Path) -> tuple[str, str]:
    """What is wrong with a program, and where it is."""
    kind = str(request.param)
    path = tmp_path / "wrong_facts"
    path.write_text(WRONG.format(python=sys.executable, words=list(find_facts().words), change=KINDS[kind]))
    path.chmod(0o755)
    return kind, str(path)


def test_nothing_wrong_is_kept(
    desk: Desk, line: Path, wrong: tuple[str, str], monkeypatch: pytest.MonkeyPatch
) -> None:
    assert desk("do", *PARTS).exit_code == 0
    before = files(line)
    monkeypatch.setenv("BALISEFACTS", wrong[1])
    result = desk("strike", "1", "--with-dependents")
    due = 1 if wrong[0] in ("leaves all dependents out", "leaves the first dependent out") else 3
    assert (result.exit_code, files(line)) == (due, before), (wrong[0], result.output)
    said = ("the engine refused: refused 26",) if due == 1 else ("ended with status ", "isn't the balisefacts of this engine")
    assert any(words in result.output for words in said), (wrong[0], result.output)
    assert desk("do", "undo").exit_code == 0  # all else goes on


def test_it_is_missing(desk: Desk, line: Path, tmp_path: Path, monkeypatch: pytest.MonkeyPatch) -> None:
    assert desk("do", *PARTS).exit_code == 0
    monkeypatch.setenv("BALISEPLAN", find_engine().name)
    monkeypatch.delenv("BALISEFACTS", raising=False)
    monkeypatch.setenv("PATH", str(tmp_path / "nothing"))
    monkeypatch.setattr(programs, "built", lambda name: tmp_path / "nothing" / name)
    monkeypatch.setattr(programs, "beside_engine", lambda name: "")
    before = files(line)
    said = "balisefacts, the program that says which edit depends on which, and where tags are, isn't beside baliseplan or on the path"
    shown = (["log"], ["log", "--no-dependencies"], ["status"], ["diff"], ["report", "--engine-only"])
    for words in (["strike", "1"], ["strike", "4"], ["do", "strike 4"], ["undo"], ["do", "--json", "turn 5.300"], *shown):
        result = desk(*words)
        assert (result.exit_code, said in result.output, "set BALISEFACTS to the program" in result.output) == (3, True, True)
    assert files(line) == before
    for words in (["show"], ["links"], ["do", "--json", "strike 4"], ["verify"]):
        assert desk(*words).exit_code == 0


def test_it_is_found_beside_the_engine(tmp_path: Path, monkeypatch: pytest.MonkeyPatch) -> None:
    for name in ("baliseplan", "balisefacts"):
        (tmp_path / name).write_text("#!/bin/sh\n")
        (tmp_path / name).chmod(0o755)
    monkeypatch.delenv("BALISEFACTS", raising=False)
    monkeypatch.delenv("BALISEPLAN", raising=False)
    monkeypatch.setenv("PATH", str(tmp_path))
    assert find_facts().name == str(tmp_path / "balisefacts")
    monkeypatch.setenv("BALISEFACTS", "python3 -B balisefacts.py")
    assert find_facts().words == ("python3", "-B", "balisefacts.py")


def test_the_reference_program_says_the_same(week: Desk, monkeypatch: pytest.MonkeyPatch) -> None:
    due = json.loads(week("log", "--json").output)
    monkeypatch.setenv("BALISEFACTS", f"{sys.executable} -B {TOP / 'reference' / 'balisefacts.py'}")
    assert json.loads(week("log", "--json").output) == due
