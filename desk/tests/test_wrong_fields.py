"""A balisefields that is wrong on purpose, or isn't there: nothing wrong is kept or shown, and nothing is lost."""

from __future__ import annotations

import os
import shlex
import sys
from pathlib import Path

import pytest
from conftest import TOP, Desk, call, files
from plandesk import fields, programs
from plandesk.engine import find_engine
from plandesk.facts import find_facts

WRONG = """#!{python}
import subprocess, sys
spells = "--spell" in sys.argv
def flipped(line, at):
    words = line.split(" ")
    words[-1] = words[-1][:at] + format(int(words[-1][at], 16) ^ 1, "x") + words[-1][at + 1:]
    return " ".join(words)
given = sys.stdin.read()
{before}
done = subprocess.run({words!r} + sys.argv[1:], input=given, capture_output=True, text=True)
lines, status = done.stdout.splitlines(), done.returncode
{after}
sys.stdout.write("".join(line + "\\n" for line in lines))
sys.exit(status)
"""
KINDS = {
    "flips a bit that it spells": ("", "if spells: lines[0] = flipped(lines[0], 9)"),
    "flips a bit both ways": (
        "if not spells: given = ''.join(flipped(line, 9) + chr(10) for line in given.splitlines())",
        "if spells: lines[0] = flipped(lines[0], 9)",
    ),
    "spells another value": ("if spells: given = given.replace('NID_TSR 3', 'NID_TSR 4')", ""),
    "spells another padding": ("", "if spells: lines[-1] = flipped(lines[-1], -3)"),
    "spells another packet": ("", "if spells: lines[0] = 'packet 33 42403e00'"),
    "leaves a field out": ("given = given.replace('NID_TSR 0 3', '')", "lines = lines[:-1] if not spells else lines"),
    "reads another value": ("", "if not spells: lines[4] = lines[4][:-1] + '0'"),
    "prints nothing": ("", "lines = []"),
    "prints a line more": ("", "lines += lines[-1:]"),
    "prints the first line twice": ("", "lines = lines[:1] + lines"),
    "prints other words": ("", "lines = ['hello you'] * len(lines)"),
    "prints what isn't text": ("", "lines = ['\\xff\\x00 \\x85'] * len(lines)"),
    "prints capital letters": ("", "lines = [line.upper() for line in lines]"),
    "finds a fault nowhere due": ("", "lines = ['fault'] if not spells else ['bad'] * len(lines); status = 1"),
    "finds another fault": ("", "lines = ['fault 2 BadHex - 0 digit'] if not spells else ['bad 99 Missing end']; status = 1"),
    "says bad without a line": ("", "lines = ['bad x y z w v'] if spells else ['fault 8 x y z w']; status = 1"),
    "ends with 77": ("", "status = 77"),
    "ends with 0 always": ("", "status = 0"),
    "ends with 1 always": ("", "status = 1"),
}
REVOKED = "NID_PACKET 66\nQ_DIR 1\nNID_TSR 3\n"
GROUP = (
    "telegram 210\nQ_UPDOWN 1\nM_VERSION 33\nQ_MEDIA 0\nN_PIG 0\nN_TOTAL 0\nM_DUP 0\nM_MCOUNT 255\nNID_C 5\nNID_BG 777\n"
    f"Q_LINK 1\npacket\n{REVOKED}packet\nNID_PACKET 44\nQ_DIR 2\nrest 5 b0\nend\n"
)
SPELLED = "a1007f80a184d0900f8196401cb7ffffffffffffffffffffffffc0"
"""What the reference makes of it."""


@pytest.fixture(params=sorted(KINDS))
def wrong(request: pytest.FixtureRequest, tmp_path: Path, monkeypatch: pytest.MonkeyPatch) -> str:
    """What is wrong with the program that the desk finds."""
    kind = str(request.param)
    before, after = KINDS[kind]
    path = tmp_path / "wrong_fields"
    words = list(fields.find_fields().words)
    path.write_text(WRONG.format(python=sys.executable, words=words, before=before, after=after))
    path.chmod(0o755)
    monkeypatch.setenv("RIGHT_FIELDS", shlex.join(words))
    monkeypatch.setenv("BALISEFIELDS", str(path))
    monkeypatch.chdir(tmp_path)
    Path("packet").write_text(REVOKED)
    Path("group").write_text(GROUP)
    return kind


def test_nothing_wrong_is_kept(desk: Desk, line: Path, wrong: str) -> None:
    before, texts = files(line), [Path(name).read_bytes() for name in ("packet", "group")]
    right = 0
    for command in ("insert 5.200 1 0 @packet", "add 0 @group", "replace 5.200 1 0 @packet"):
        for words in (["do"], ["do", "--keep-accepted"]):
            result = desk(*words, command)
            assert result.exit_code in (0, 1, 3), (wrong, result.output)
            if result.exit_code == 0:
                right += 1
                assert desk("undo", "2" if command.startswith("replace") else "1").exit_code == 0
            assert files(line)[1:] == before[1:], (wrong, result.output)
    if wrong.startswith(("flips", "spells", "prints", "says", "finds", "ends with 77")):
        assert right < 6, wrong
    assert [Path(name).read_bytes() for name in ("packet", "group")] == texts


def test_digits_that_are_kept_are_right(desk: Desk, line: Path, wrong: str) -> None:
    """Where a wrong program's digits are taken, they are those of the file."""
    if desk("do", "insert 5.200 1 0 @packet").exit_code == 0:
        assert (line / "journal").read_text().endswith("1 insert b1/1 ^ 42403e06\n"), wrong
    if desk("do", "add 0 @group").exit_code == 0:
        added = (line / "line.plan").read_text().splitlines()[2]
        assert added == SPELLED, wrong


def test_nothing_wrong_is_shown(desk: Desk, wrong: str, monkeypatch: pytest.MonkeyPatch) -> None:
    asked = [["5.200", "1", "0"], ["5.300"]]
    shown = [desk("fields", *words) for words in asked]
    monkeypatch.setenv("BALISEFIELDS", os.environ["RIGHT_FIELDS"])
    for words, result in zip(asked, shown, strict=True):
        assert result.exit_code in (0, 3), (wrong, result.output)
        if result.exit_code == 0:
            assert result.output == desk("fields", *words).output, wrong


def test_messages_stay(desk: Desk, line: Path, tmp_path: Path, wrong: str) -> None:
    """A refusal is the engine's, whatever is said of its digits."""
    result = desk("do", "insert 5.200 1 0 42403c00")
    assert (result.exit_code, "the fields of a known packet don't end at its L_PACKET" in result.output) == (1, True)
    bad = tmp_path / "bad.plan"
    bad.write_text((line / "base.plan").read_text().replace("5023a0", "502320"))
    result = call("init", bad, tmp_path / "new")
    assert (result.exit_code, "line 6, `a1127f80a06450502320" in result.output) == (2, True), result.output


def test_it_is_missing(desk: Desk, line: Path, tmp_path: Path, monkeypatch: pytest.MonkeyPatch) -> None:
    engine = find_engine().name
    (tmp_path / "packet").write_text(REVOKED)
    monkeypatch.setenv("BALISEPLAN", engine)
    monkeypatch.setenv("BALISEFACTS", find_facts().name)
    monkeypatch.delenv("BALISEFIELDS", raising=False)
    monkeypatch.setenv("PATH", str(tmp_path / "nothing"))
    monkeypatch.setattr(programs, "built", lambda name: tmp_path / "nothing" / name)
    monkeypatch.setattr(programs, "beside_engine", lambda name: "")
    before = files(line)
    said = "balisefields, the program that turns digits into fields and fields into digits, isn't beside baliseplan or on the path"
    for words in (["fields", "5.200"], ["do", f"insert 5.200 1 0 @{tmp_path}/packet"]):
        result = desk(*words)
        assert (result.exit_code, said in result.output, "set BALISEFIELDS to the program" in result.output) == (3, True, True)
    result = desk("do", "insert 5.200 1 0 42403c00")
    assert (result.exit_code, f"where they are wrong isn't known: {said}" in result.output) == (1, True), result.output
    assert files(line) == before
    assert desk("do", "set 5.200 1 0 V_TSR 0 30km/h").exit_code == 0  # all else goes on without it
    monkeypatch.setenv("BALISEFIELDS", str(tmp_path / "nothing"))
    result = desk("fields", "5.200")
    assert (result.exit_code, "nothing can't be run: No such file or directory" in result.output) == (3, True)


def test_it_is_found_beside_the_engine(tmp_path: Path, monkeypatch: pytest.MonkeyPatch) -> None:
    """As in an archive, in the Debian package, and by a link to the engine."""
    for folder in ("archive", "path", "links"):
        (tmp_path / folder).mkdir()
    for name in ("archive/baliseplan", "archive/balisefields", "path/balisefields"):
        (tmp_path / name).write_text("#!/bin/sh\n")
        (tmp_path / name).chmod(0o755)
    (tmp_path / "links" / "baliseplan").symlink_to(tmp_path / "archive" / "baliseplan")
    monkeypatch.delenv("BALISEFIELDS", raising=False)
    monkeypatch.delenv("BALISEPLAN", raising=False)
    beside, on_path = str(tmp_path / "archive" / "balisefields"), str(tmp_path / "path" / "balisefields")
    for path, engine, found in (
        ("path:archive", "", beside),
        ("path:links", "", beside),
        ("path", str(tmp_path / "archive" / "baliseplan"), beside),
        ("path", "python3 -B baliseplan.py", on_path),
        ("path", "", on_path),
        ("nothing", "", str(programs.built("balisefields"))),
    ):
        monkeypatch.setenv("PATH", ":".join(str(tmp_path / each) for each in path.split(":")))
        monkeypatch.setenv("BALISEPLAN", engine)
        if found != str(programs.built("balisefields")) or programs.built("balisefields").exists():
            assert fields.find_fields().name == found
    monkeypatch.setenv("BALISEFIELDS", "python3 -B balisefields.py")
    assert fields.find_fields().words == ("python3", "-B", "balisefields.py")


def test_the_reference_program_says_the_same(desk: Desk, monkeypatch: pytest.MonkeyPatch) -> None:
    due = [desk("fields", name).output for name in ("5.100", "5.300")]
    monkeypatch.setenv("BALISEFIELDS", f"{sys.executable} -B {TOP / 'reference' / 'balisefields.py'}")
    assert [desk("fields", name).output for name in ("5.100", "5.300")] == due
