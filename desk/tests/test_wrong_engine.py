"""Engines that are wrong on purpose: they are found before anything is kept, or by verify."""

from __future__ import annotations

import json
import sys
from pathlib import Path

import pytest
from conftest import TOP, Desk, call, files
from plandesk.engine import find_engine

WRONG = """#!{python}
import subprocess, sys
given = sys.stdin.buffer.read()
done = subprocess.run({words!r} + sys.argv[1:], input=given, capture_output=True)
lines = done.stdout.decode("latin-1").splitlines(keepends=True)
commands = given.decode("latin-1").partition("edits\\n")[2]
journal = next((at for at, line in enumerate(lines) if line.startswith("journal ")), None)
plan = next((at for at, line in enumerate(lines) if line == "plan 1\\n"), None)
if journal is not None and plan is not None:
    {change}
sys.stdout.write("".join(lines))
sys.stderr.write(done.stderr.decode("latin-1"))
sys.exit(done.returncode)
"""
FLIP = "lines[plan + 2] = lines[plan + 2][:18] + format(int(lines[plan + 2][18], 16) ^ 1, 'x') + lines[plan + 2][19:]"
KINDS = {
    "drops the first edit of the journal": "lines = lines[:journal + 1] + lines[journal + 2:] if lines[journal + 2:journal + 3] else lines",
    "drops the last edit of the journal": "end = next((at for at in range(journal + 1, len(lines)) if lines[at][0] == '{'), len(lines)); lines = lines[:end - 1] + lines[end:] if end > journal + 1 else lines",
    "drops an undone line": "lines = [line for line in lines if not line.startswith('undone ') or lines.index(line) < plan]",
    "changes a bit of a plan with commands": "commands and " + "lines.__setitem__(plan + 2, lines[plan + 2][:18] + format(int(lines[plan + 2][18], 16) ^ 1, 'x') + lines[plan + 2][19:])",
    "changes a bit of each plan": FLIP,
    "drops a reply": "lines = lines[1:] if plan else lines",
    "drops a line of the view": "lines = [line for at, line in enumerate(lines) if line[0] != '{' or at != len(lines) - 1]",
}


@pytest.fixture(params=sorted(KINDS))
def wrong(request: pytest.FixtureRequest, tmp_path: Path) -> tuple[str, Path]:
    path = tmp_path / "wrong_engine"
    path.write_text(WRONG.format(python=sys.executable, words=list(find_engine().words), change=KINDS[request.param]))
    path.chmod(0o755)
    return request.param, path


def test_nothing_wrong_is_kept(week: Desk, line: Path, wrong: tuple[str, Path], monkeypatch: pytest.MonkeyPatch) -> None:
    week("undo", "2")
    before = files(line)
    monkeypatch.setenv("BALISEPLAN", str(wrong[1]))
    found = [week(*words).exit_code for words in (["do", "set 5.250 1 0 V_TSR 0 9"], ["do", "undo"], ["strike", "1"])]
    assert files(line) == before, wrong[0]
    assert set(found) <= {2, 3}, (wrong[0], found)


def test_verify_finds_it(week: Desk, line: Path, wrong: tuple[str, Path], monkeypatch: pytest.MonkeyPatch) -> None:
    week("undo", "2")
    monkeypatch.setenv("BALISEPLAN", str(wrong[1]))
    verdict = json.loads(week("verify", "--json").output)[0]
    if wrong[0] not in ("drops a reply", "changes a bit of a plan with commands"):  # verify gives no commands
        assert verdict["result"] != "same", wrong[0]
    if wrong[0] == "changes a bit of each plan":
        assert call("init", TOP / "examples" / "line.base", line.parent / "new").exit_code == 3
