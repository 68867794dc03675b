#!/usr/bin/env python3
"""Tests the comparison itself: plants ten faults in copies of the reference, and looks how soon random inputs show each.

usage: planted.py [--most COUNT] [--size small|medium] [--from SEED]

planted_facts.py does the same with faults of facts.

Each fault is one text of reference/ replaced by another in a copy of that folder. Copy and reference answer the same
random inputs, of one seed after another, until output or status differ. It prints for each fault after how many inputs
that was, and which seed it was. The inputs are made by the reference, so they are the same for all faults.

Status 0: each fault was found in COUNT inputs, 2,000 if none is given. 1: one wasn't. 2: reference/ isn't there, or a
text to replace isn't there exactly once, as after a change of the reference.
"""

import argparse
import importlib
import pickle
import shutil
import subprocess
import sys
import tempfile
from collections.abc import Iterator, Sequence
from dataclasses import dataclass
from io import BytesIO
from pathlib import Path
from typing import Any

REFERENCE = Path(__file__).resolve().parents[2] / "reference"

# A copy answers inputs one after another. An error of its own is an answer too.
ANSWERING = """
import pickle, sys
from importlib import import_module
from io import BytesIO
sys.path.insert(0, sys.argv[1])
answer = import_module(sys.argv[2]).answer
while True:
    arguments, text = pickle.load(sys.stdin.buffer)
    try:
        given = answer(arguments, BytesIO(text).read)
        shown = given.output, given.status
    except Exception as error:
        shown = repr(error).encode(), -1
    pickle.dump(shown, sys.stdout.buffer)
    sys.stdout.buffer.flush()
"""

Shown = tuple[bytes, int]
"""Standard output and status."""


@dataclass(frozen=True)
class Fault:
    """A fault, and how it is planted: a text of a module, and the one in its place."""

    name: str
    module: str
    old: str
    new: str


FAULTS = (
    Fault(
        "a strike leaves later edits on the anchor that is gone",
        "session.py",
        "entry = replace(entry, edit=replace(entry.edit, after=struck.edit.after))",
        "pass",
    ),
    Fault(
        "a link without NID_C has the telegram's country, not that of the link before it",
        "plans.py",
        """    for variable, value in packet.fields:
        if variable == "NID_C":
            country = value
        elif variable == "NID_BG":
            names.append((country, value))
""",
        """    own = country
    for variable, value in packet.fields:
        if variable == "NID_C":
            country = value
        elif variable == "NID_BG":
            names.append((country, value))
            country = own
""",
    ),
    Fault(
        "the padding is ones",
        "telegrams.py",
        "return front + self.ground[len(front) :]",
        'return front.ljust(len(self.ground), "1")',
    ),
    Fault(
        "18 and 19 come before 17",
        "edits.py",
        """    if place is None:
        raise Refused(Refusal.NoSuchVariable)
    _check_value(edit, edit.variable in STEERING)
""",
        """    _check_value(edit, edit.variable in STEERING)
    if place is None:
        raise Refused(Refusal.NoSuchVariable)
""",
    ),
    Fault(
        "a journal's note of the next neighbour isn't compared",
        "run.py",
        "if (note.old, note.before) != (entry.note.old, entry.note.before):",
        "if note.old != entry.note.old:",
    ),
    Fault(
        "a group's check has the number of the line after it",
        "run.py",
        "raise BadInput(start, refused) from None",
        "raise BadInput(lines.number, refused) from None",
    ),
    Fault(
        "a review line that has two reasons comes once",
        "run.py",
        "return inside + links",
        "return list(dict.fromkeys(inside + links))",
    ),
    Fault(
        "the keys of the view are in another order",
        "run.py",
        "sort_keys=True, ",
        "",
    ),
    Fault(
        "--stop goes on",
        "run.py",
        'not (commands.refused and "--stop" in flags) and ',
        "",
    ),
    Fault(
        "a line may have 4,097 bytes",
        "run.py",
        "LONGEST_LINE = 4096",
        "LONGEST_LINE = 4097",
    ),
)


class Unusable(Exception):
    """There is no reference, or a fault can't be planted in it."""


@dataclass(frozen=True)
class Program:
    """A program of reference/, by its module, and the function that makes the inputs of a seed, by module and name."""

    module: str
    inputs: tuple[str, str]


EDITOR = Program("baliseplan", ("compare", "given_once"))


class Compared:
    """Random inputs and what the reference answers, made once and kept."""

    def __init__(self, program: Program, first: int, size: str) -> None:
        sys.path.insert(0, str(REFERENCE))
        self.program = program
        self._reference: Any = importlib.import_module(program.module)
        self._inputs: Any = getattr(importlib.import_module(program.inputs[0]), program.inputs[1])
        self._first, self._size, self._seeds = first, size, 0
        self._made: list[tuple[int, tuple[list[str], bytes], Shown]] = []

    def _make(self) -> None:
        """Makes the inputs of the next seed."""
        seed = self._first + self._seeds
        for made in self._inputs(seed, self._size):
            due = self._reference.answer(list(made.arguments), BytesIO(made.text).read)
            self._made.append((seed, (list(made.arguments), made.text), (due.output, due.status)))
        self._seeds += 1

    def upto(self, most: int) -> Iterator[tuple[int, tuple[list[str], bytes], Shown]]:
        """Each input with its seed and what is due."""
        for number in range(most):
            while number >= len(self._made):
                self._make()
            yield self._made[number]


def plant(fault: Fault, folder: Path) -> None:
    """Makes a copy of the reference with a fault."""
    shutil.copytree(REFERENCE, folder, ignore=shutil.ignore_patterns("__pycache__", ".*"))
    module = folder / fault.module
    text = module.read_text()
    if text.count(fault.old) != 1:
        raise Unusable(f"'{fault.name}': its text stands {text.count(fault.old)} times in {fault.module}")
    module.write_text(text.replace(fault.old, fault.new))


def found(fault: Fault, compared: Compared, most: int) -> tuple[int, int] | None:
    """After how many inputs a fault is found, and the seed; or none."""
    with tempfile.TemporaryDirectory() as temporary:
        folder = Path(temporary) / "reference"
        plant(fault, folder)
        words = [sys.executable, "-B", "-c", ANSWERING, str(folder), compared.program.module]
        with subprocess.Popen(
            words, stdin=subprocess.PIPE, stdout=subprocess.PIPE, stderr=subprocess.DEVNULL
        ) as copy:
            assert copy.stdin and copy.stdout
            try:
                for number, (seed, given, due) in enumerate(compared.upto(most), 1):
                    pickle.dump(given, copy.stdin)
                    copy.stdin.flush()
                    if pickle.load(copy.stdout) != due:
                        return number, seed
            finally:
                copy.kill()
    return None


def plant_all(faults: Sequence[Fault], program: Program) -> int:
    """Plants faults in copies of a program one after another. The status."""
    parser = argparse.ArgumentParser(description="Plants faults in copies of the reference.")
    parser.add_argument("--most", type=int, default=2000, help="how many inputs each gets at most")
    parser.add_argument("--size", choices=("medium", "small"), default="small")
    parser.add_argument("--from", dest="first", metavar="SEED", type=int, default=1)
    asked = parser.parse_args()
    try:
        if not (REFERENCE / f"{program.module}.py").exists():
            raise Unusable(f"there is no {REFERENCE}/{program.module}.py")
        compared = Compared(program, asked.first, asked.size)
        hidden = 0
        for fault in faults:
            at = found(fault, compared, asked.most)
            hidden += at is None
            after = f"not in {asked.most} inputs" if at is None else f"{at[0]:5d} inputs (seed {at[1]})"
            print(f"{after:30s} {fault.name}", flush=True)
    except Unusable as reason:
        print(f"{parser.prog}: {reason}", file=sys.stderr)
        return 2
    print(f"planted: {len(faults)} faults, {hidden} not found")
    return 1 if hidden else 0


if __name__ == "__main__":
    sys.exit(plant_all(FAULTS, EDITOR))
