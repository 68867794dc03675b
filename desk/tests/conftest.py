"""Fixtures: an engine, a folder with a line, and a command line that runs in this process."""

from __future__ import annotations

import os
import sys
from collections.abc import Callable
from pathlib import Path
from typing import Any

import pytest
from click.testing import CliRunner, Result

TOP = Path(__file__).resolve().parents[2]
REFERENCE = TOP / "reference"
sys.path[:0] = [str(TOP / "desk"), str(REFERENCE)]
sys.dont_write_bytecode = True

from plandesk.cli import main  # noqa: E402
from plandesk.engine import PROGRAM, Engine, find_engine  # noqa: E402
from plandesk.programs import built  # noqa: E402

from refusals import Refused  # noqa: E402

if not os.environ.get("BALISEPLAN") and not PROGRAM.exists():
    os.environ["BALISEPLAN"] = f"/usr/bin/python3 -B {REFERENCE / 'baliseplan.py'}"
for name in ("balisefields", "balisefacts"):
    if not os.environ.get(name.upper()) and not built(name).exists():
        os.environ[name.upper()] = f"/usr/bin/python3 -B {REFERENCE / name}.py"
os.environ["PLANDESK_WAIT"] = "20"

Desk = Callable[..., Result]
WEEK = [
    ["set 5.200 1 0 V_TSR 0 30km/h", "set 5.200 1 0 L_TSR 0 450m"],
    ["put 65 5.200 1 1 NID_TSR=6 D_TSR=700m L_TSR=100m V_TSR=60km/h"],
    ["renumber 5.200 250"],
    ["turn 5.300"],
    [
        "set 5.300 1 0 D_LINK 0 847m",
        "set 5.300 1 1 D_LINK 0 703m",
        "set 5.100 0 0 D_LINK 1 847m",
        "set 5.250 0 0 D_LINK 0 847m",
        "set 5.400 0 1 D_LINK 0 703m",
    ],
]
"""The week of docs/GUIDE.md, a list of commands for each day. The turn is edit 5."""


@pytest.fixture(scope="session")
def engine() -> Engine:
    return find_engine()


@pytest.fixture
def base() -> str:
    return (TOP / "examples" / "line.base").read_text()


@pytest.fixture
def line(tmp_path: Path) -> Path:
    """A folder at work on examples/line.base."""
    assert call("init", TOP / "examples" / "line.base", tmp_path / "line").exit_code == 0
    return tmp_path / "line"


def call(*words: object, text: str | None = None) -> Result:
    result = CliRunner(mix_stderr=True).invoke(main, [str(word) for word in words], input=text)
    assert "Traceback" not in result.output
    assert "plandesk: a fault" not in result.output, result.output
    return result


@pytest.fixture
def desk(line: Path) -> Desk:
    """`desk("do", "undo")` in the folder of the line."""

    def run(*words: object, text: str | None = None) -> Result:
        return call("-C", line, *words, text=text)

    return run


@pytest.fixture
def week(desk: Desk) -> Desk:
    for commands in WEEK:
        assert desk("do", *commands).exit_code == 0
    return desk


def files(line: Path) -> tuple[str, str, str]:
    """The texts of the folder that a command may change."""
    journal, plan, reviews = ((line / name).read_text() for name in ("journal", "line.plan", "reviews"))
    return journal, plan, reviews


def has_to_go(session: Any, serial: int) -> set[int]:
    """What strikes of the reference name one after another, until the last one is accepted."""
    found: set[int] = set()
    while True:
        state = session
        try:
            for each in [*sorted(found, reverse=True), serial]:
                state = state.without(each)
        except Refused as refused:
            found.add(int(str(refused).split(" ")[2]))
        else:
            return found


def plain(output: str) -> str:
    """An output without its columns."""
    return " ".join(output.replace("\u202f", "").split())
