"""Deliveries: right ones, tampered ones, many of them, and programs that are missing or slow."""

from __future__ import annotations

import json
import shutil
from pathlib import Path

import pytest
from conftest import Desk, call


def test_a_right_one(week: Desk, line: Path) -> None:
    result = week("verify")
    assert result.exit_code == 0
    assert "They belong together. Both programs make it." in result.output
    assert call("verify", line / "base.plan", line / "journal", line / "line.plan").exit_code == 0


@pytest.mark.parametrize(
    ("name", "old", "new", "result", "text"),
    [
        ("line.plan", "a1007f80a0fa", "a1007f00a0fa", "differs", "5.500: M_MCOUNT fits all messages → fits no message"),
        ("journal", "2 set b1/1/b0 L_TSR 0 450 300\n", "", "differs", "5.250: L_TSR 300 m → 450 m"),
        ("journal", " 450 300\n", " 450 310\n", "refused", "line 3, `2 set b1/1/b0 L_TSR 0 450 310`: the journal doesn't fit"),
        ("journal", "journal 2 11", "journal 2 99", "same", ""),
        ("journal", "journal 2", "journal 9", "refused", "line 1"),
        ("line.plan", "group\n", "group\r\n", "bytes", "The delivered plan: Lines end in a carriage return (CRLF)"),
        ("line.plan", "plan 1", "\xef\xbb\xbfplan 1", "bytes", "A byte-order mark"),
        ("line.plan", "a1007f80", "A1007F80", "bytes", "capital letters"),
        ("line.plan", "group\n", "group \n", "bytes", "Blanks stand at the end of"),
        ("base.plan", "a1007f80a0fa", "a1007f00a0fa", "differs", "5.500: M_MCOUNT fits no message → fits all messages"),
        ("line.plan", "plan 1\n", "plan 1\njournal 2 1\n", "refused", "the delivered plan, line 3"),
        ("line.plan", "plan 1\n", "", "refused", "the delivered plan, line 1"),
    ],
)
def test_tampering(week: Desk, line: Path, name: str, old: str, new: str, result: str, text: str) -> None:
    path = line / name
    before = path.read_bytes()
    path.write_bytes(before.replace(old.encode("latin-1"), new.encode("latin-1")))
    assert path.read_bytes() != before
    outcome = week("verify", "--json")
    verdict = json.loads(outcome.output)[0]
    assert verdict["result"] == result, verdict
    assert text in " ".join(verdict["findings"]), verdict
    assert outcome.exit_code == {"same": 0, "differs": 1, "bytes": 1, "refused": 2}[result]


def test_each_bit_and_each_line(week: Desk, line: Path) -> None:
    """One bit of the delivered plan changed, or one line of the journal out: never right, and no traceback."""
    plan, journal = (line / "line.plan").read_text(), (line / "journal").read_text()
    lines = journal.splitlines(keepends=True)
    tampered = [("line.plan", plan[:at] + f"{int(plan[at], 16) ^ 1:x}" + plan[at + 1 :]) for at in bits_to_change(plan)]
    tampered += [("journal", "".join(lines[:at] + lines[at + 1 :])) for at in range(len(lines))]
    for name, text in tampered:
        texts = {"line.plan": plan, "journal": journal} | {name: text}
        for file, content in texts.items():
            (line / file).write_text(content)
        assert week("verify", "--engine-only").exit_code in (1, 2), (name, text)


def bits_to_change(plan: str) -> list[int]:
    """Some places of digits in the plan."""
    digits = [at for at in range(len(plan)) if plan[at] in "0123456789abcdef" and at > 20]
    return [at for at in digits[::17] if plan[plan.rfind("\n", 0, at) + 1] == "a"]


def test_many(week: Desk, line: Path) -> None:
    every = line.parent / "every"
    for number in range(6):
        shutil.copytree(line, every / f"line{number}")
    (every / "line3" / "line.plan").write_text((line / "base.plan").read_text())
    (every / "line4" / "line.plan").unlink()
    (every / "line5" / "journal").write_text("nonsense")
    result = call("verify", every, "--json", "-j", "2")
    verdicts = json.loads(result.output)
    assert [each["result"] for each in verdicts] == ["same", "same", "same", "differs", "unknown", "refused"]
    assert result.exit_code == 2
    assert "3 of 6 are right" in call("verify", every, "-j", "2").output
    assert call("verify", every / "line0", every / "line1").exit_code == 0


def test_the_reference_may_take_too_long(week: Desk, tmp_path: Path) -> None:
    result = week("verify", "--limit", "0.001")
    assert result.exit_code == 2
    assert result.output.startswith("half")
    assert "The reference program gave no answer" in result.output
    assert week("verify", "--limit", "0.001", "--engine-only").exit_code == 0
    assert week("report", "--limit", "0.001", "-o", tmp_path / "report.html").exit_code == 2


@pytest.mark.parametrize("program", ["/nowhere/baliseplan", "/bin/false", "/bin/echo", "/bin/cat"])
def test_no_engine(week: Desk, monkeypatch: pytest.MonkeyPatch, program: str) -> None:
    monkeypatch.setenv("BALISEPLAN", program)
    assert week("verify").exit_code == 2
    assert week("log").exit_code in (2, 3)
    assert week("do", "turn 5.300").exit_code in (2, 3)


def test_the_reference_is_missing(week: Desk, monkeypatch: pytest.MonkeyPatch) -> None:
    monkeypatch.setenv("BALISEPLAN_REFERENCE", "/nowhere/baliseplan.py")
    result = week("verify")
    assert (result.exit_code, "isn't there" in result.output) == (2, True)
    assert week("verify", "--engine-only").exit_code == 0
