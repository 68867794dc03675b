"""Where tags are: what the reference says is taken, and a balisefacts that says another thing is refused."""

from __future__ import annotations

import sys
from pathlib import Path

import pytest
from conftest import TOP, Desk, call, files
from plandesk.desk import State, load
from plandesk.engine import Engine
from plandesk.facts import find_facts, read_tags
from plandesk.folder import Folder

EDITS = (
    "insert 5.300 1 1 42403e02",
    "move 5.300 1 0 1",
    "turn 5.300",
    "delete 5.400 0 0",
    "renumber 5.200 250",
    "drop 5.100",
)
WRONG = """#!{python}
import re, subprocess, sys
given = sys.stdin.read()
done = subprocess.run({words!r} + sys.argv[1:], input=given, capture_output=True, text=True)
lines, status = done.stdout.splitlines(), done.returncode
def at(start):
    return next(i for i, line in enumerate(lines) if line.startswith(start))
def swap(one, other):
    i, j = at(one), at(other)
    a, b = lines[i].rpartition(" "), lines[j].rpartition(" ")
    lines[i], lines[j] = f"{{a[0]}} {{b[2]}}", f"{{b[0]}} {{a[2]}}"
def become(start, tag):
    lines[at(start)] = f"{{start}} {{tag}}"
if sys.argv[1:] == ["--tags"]:
    {change}
sys.stdout.write("".join(line + "\\n" for line in lines))
sys.exit(status)
"""
KINDS = {
    "leaves a group out": "lines = lines[:at('group 5.400')] + lines[at('group 5.500'):]",
    "leaves the last group out": "lines = lines[:at('group 5.500')]",
    "has a group twice": "lines += lines[at('group 5.500'):]",
    "has the group that was dropped": "lines[1:1] = ['group 5.100 b0', 'telegram 5.100 0 0', 'packet 5.100 0 0 b0']",
    "has groups in another order": "first, last = at('group 5.400'), at('group 5.500'); lines[first:] = lines[last:] + lines[first:last]",
    "gives a group its old identity": "lines = [line.replace(' 5.250 ', ' 5.200 ') for line in lines]",
    "exchanges the tags of two groups": "swap('group 5.250', 'group 5.300')",
    "gives a group a tag that none has": "become('group 5.300', 'b99')",
    "gives a group the tag of an edit that adds none": "become('group 5.300', 'n1')",
    "gives a group the tag of the dropped one": "become('group 5.300', 'b0')",
    "writes the tag of a group with a zero": "become('group 5.300', 'b02')",
    "says that the country is a tag": "become('group 5.300', '5.300')",
    "leaves a telegram out": "lines = [line for line in lines if not line.startswith(('telegram 5.300 1', 'packet 5.300 1'))]",
    "has a telegram more": "lines.append('telegram 5.500 9 9')",
    "has telegrams in another order": "lines[at('telegram 5.300 0')] = 'telegram 5.300 1 1'",
    "turns a group that wasn't turned": "swap('telegram 5.250 0', 'telegram 5.250 1')",
    "gives two telegrams one tag": "become('telegram 5.300 0', '0')",
    "leaves a packet out": "del lines[at('packet 5.300 0 0')]",
    "leaves the last packet out": "del lines[max(i for i, line in enumerate(lines) if line.startswith('packet 5.300 0'))]",
    "has a packet more": "lines.insert(at('packet 5.250 1 0') + 1, 'packet 5.250 1 1 b1')",
    "has the packet that was taken out": "become('packet 5.400 0 0', 'b0')",
    "gives the inserted packet another serial": "lines = [line.replace(' n1', ' n2') for line in lines]",
    "gives two packets one tag": "lines = [line.replace(' n1', ' b0') for line in lines]",
    "moves a packet where none was moved": "swap('packet 5.250 0 0', 'packet 5.250 0 1')",
    "names another group in a line": "lines[at('packet 5.300 0 0')] = 'packet 5.400 0 0 b0'",
    "prints nothing": "lines = []",
    "prints the first line alone": "lines = lines[:1]",
    "prints facts of edits": "lines = ['facts 1', 'edit 1', 'changes b0']",
    "prints a plan": "lines = given.partition('journal')[0].splitlines()",
    "prints a word too many": "lines[at('packet 5.300 0 0')] += ' b0'",
    "is of another version": "lines[0] = 'facts 2'",
    "ends with 77": "status = 77",
    "refuses the journal": "lines, status = ['bad 7 27 JournalMismatch'], 2",
}


@pytest.fixture(scope="module")
def worked(tmp_path_factory: pytest.TempPathFactory) -> Path:
    """A folder after the edits."""
    folder = tmp_path_factory.mktemp("tags") / "line"
    assert call("init", TOP / "examples" / "line.base", folder).exit_code == 0
    assert call("-C", folder, "do", *EDITS).exit_code == 0
    return folder


@pytest.fixture
def state(worked: Path, engine: Engine) -> State:
    return load(Folder(worked), engine)


def test_where_they_are(state: State) -> None:
    tags = state.tags
    assert tags.groups == {"b1": 0, "b2": 1, "b3": 2, "b4": 3}
    assert [state.groups.names[at] for at in tags.groups.values()] == ["5.250", "5.300", "5.400", "5.500"]
    assert (tags.telegram("b2", 1), tags.telegram("b2", 2), tags.telegram("b0", 0)) == ((1, 0), None, None)
    assert [tags.packet(("b2", 1, each)) for each in ("n1", "b0", "b9")] == [(1, 0, 0), (1, 0, 1), None]
    assert tags.path((1, 0, 0)) == ("b2", 1, "n1")
    assert tags.packet(("b3", 0, "b0")) is None and tags.packet(("b3", 0, "b1")) == (2, 0, 0)


def test_of_some_groups(state: State) -> None:
    some = state.names_of({"5.300", "5.500", "9.9"}).tags
    assert some.groups == {"b2": 1, "b4": 3}
    assert some.packet(("b2", 1, "n1")) == (1, 0, 0)
    assert state.names_of({"9.9"}).tags.groups == {}


@pytest.mark.parametrize("kind", sorted(KINDS))
def test_no_wrong_tags_are_taken(kind: str, worked: Path, tmp_path: Path, monkeypatch: pytest.MonkeyPatch) -> None:
    """Nothing is kept, and nothing is shown."""
    path = tmp_path / "wrong_facts"
    path.write_text(WRONG.format(python=sys.executable, words=list(find_facts().words), change=KINDS[kind]))
    path.chmod(0o755)
    monkeypatch.setenv("BALISEFACTS", str(path))
    before = files(worked)
    for words in (["log", "--no-dependencies"], ["strike", "6"]):
        result = call("-C", worked, *words)
        assert result.exit_code == 3, (kind, words, result.output)
        assert any(said in result.output for said in ("ended with status ", "isn't the balisefacts of this engine")), result.output
    assert before == files(worked)


@pytest.mark.parametrize(
    "commands",
    [["do", "seth 5.300 0 M_MCOUNT 9"], ["do", "turn 5.300"], ["undo"], ["do", "renumber 5.250 260"], ["do", "add 0 " + "{hex}"]],
)
def test_it_is_asked_before_anything_is_kept(
    desk: Desk, line: Path, commands: list[str], tmp_path: Path, monkeypatch: pytest.MonkeyPatch
) -> None:
    assert desk("do", *EDITS).exit_code == 0
    digits = (TOP / "examples" / "line.base").read_text().split("\n")[2]
    path = tmp_path / "wrong_facts"
    path.write_text(WRONG.format(python=sys.executable, words=list(find_facts().words), change="lines = lines[:1]"))
    path.chmod(0o755)
    monkeypatch.setenv("BALISEFACTS", str(path))
    before = files(line)
    for each in (["do", "renumber 5.500 9"], [word.format(hex=digits) for word in commands]):
        result = desk(*each)
        assert files(line) == before, (each, result.output)
        assert result.exit_code in (1, 3), (each, result.output)


@pytest.mark.parametrize(
    "text",
    [
        "", "facts 1", "facts 2\n", "ok 1\nfacts 1\n", "facts 1\nedit 1\n", "facts 1\ngroup\n", "facts 1\ngroup 5.1 b0\n",
        "facts 1\ngroup 5.1 b0\ntelegram 5.1 0 0\ntelegram 5.1 0 1\n", "facts 1\ngroup 5.1 b0\ntelegram 5.1 0 +0\n",
        "facts 1\ngroup 5.1 b0\ntelegram 5.1 0 8\n", "facts 1\ngroup 5.1 b0\ntelegram 0 0\n", "facts 1\ngroup 5.1 b0\ntelegram 5.2 0 0\n",
        "facts 1\ngroup 5.1 b0\npacket 5.1 0 0 b0\ntelegram 5.1 0 0\n", "facts 1\ngroup 5.1 b0\ntelegram 5.1 0 0\npacket 5.1 1 0 b0\n",
        "facts 1\ngroup 5.1 b0\ntelegram 5.1 0 0\npacket 5.1 0 0 b01\n", "facts 1\ngroup 5.1 b0\ntelegram 5.1 0 0\npacket 5.1 0 0 x1\n",
        "facts 1\ngroup 5.1 b0\ntelegram 5.1 0 0\n\n", "facts 1\ngroup 5.1 b0\ntelegram 5.1 5.1 0 0\n",
    ],
)  # fmt: skip
def test_no_tags(text: str) -> None:
    with pytest.raises(ValueError):
        read_tags(text)


def test_lines_of_tags() -> None:
    text = "facts 1\ngroup 5.1 b0\ntelegram 5.1 0 0\npacket 5.1 0 0 b0\ngroup 7.2 n3\ntelegram 7.2 0 1\ntelegram 7.2 1 0\n"
    found = read_tags(text)
    assert [(each.name, each.tag, each.shape.telegrams) for each in found] == [
        ("5.1", "b0", ((0, ("b0",)),)),
        ("7.2", "n3", ((1, ()), (0, ()))),
    ]
    assert [each.name for each in read_tags(text, {"7.2", "8.1"})] == ["7.2"]
    assert read_tags("facts 1\n") == []
