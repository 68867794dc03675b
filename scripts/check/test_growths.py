#!/usr/bin/env python3
"""Refuses each growth of memory of tests in turn: test_growths.py, or test_growths.py PROGRAM TEST .. [--after TEST].

PROGRAM is a program of tests, which `rt test` leaves in the folder `out` of a crate whose name ends in `_tests`. Each
TEST is run once for each growth that it meets, with that growth refused, and has to end well: such a test looks at what
is left where memory runs out. Where its name ends as one of AMPLE it requires that none is refused, so it has to end badly
for one of them at least. With --after, growths are refused only after as many as that test meets, which does what
the others do first. Without PROGRAM it takes the tests of memory of four crates. Needs cc.
Ends with 0; with 1 if a test failed; with 2 if a program of tests isn't there.

    O=crates/balise_history_tests/out/balise_history_tests_tests
    test_growths.py $O tests::growths::each_growth_refused --after tests::growths::edits_alone
"""

import os
import re
import sys
from argparse import ArgumentParser
from pathlib import Path

from hostile_runs import Runner
from runs import Missing, Wrong, ended

CRATES = Path(__file__).resolve().parents[2] / "crates"
MEMORY = {
    "balise_index_tests": ("memory", None),
    "balise_telegram_tests": ("memory", None),
    "balise_plan_tests": ("memory", None),
    "balise_history_tests": ("growths", "tests::growths::edits_alone"),
}
"""The module of each crate whose tests look at what is left, and the test that does what they do first."""
AMPLE = ("_with_ample_memory", "no_growth_refused")
"""How the names of tests end that require ample memory."""


def tests_of(crate: str, module: str) -> list[str]:
    """The tests of a module."""
    source = (CRATES / crate / "src" / "tests" / f"{module}.rt").read_text()
    names = re.findall(r"^#\[test\]\n(?:#\[.*\]\n)*fn (\w+)", source, re.MULTILINE)
    if not names:
        raise Missing(f"{crate} has no test in {module}.rt")
    return [f"tests::{module}::{name}" for name in names]


def growths_of(runner: Runner, test: str) -> int:
    """How many growths a test meets, where none is refused."""
    done = runner.run(b"", (test,))
    if done.status != 0:
        raise Wrong(f"{test} ended with status {done.status}, though no growth was refused")
    return done.report.get("growths", 0)


def judge(program: Path, tests: list[str], after: str | None) -> tuple[int, int]:
    """How many growths of the tests were refused, and how many tests are wrong. Prints a line for each test."""
    runner = Runner(str(program))
    first = growths_of(runner, after) if after else 0
    total = failed = 0
    for test in tests:
        refused = range(first + 1, growths_of(runner, test) + 1)
        bad = [n for n in refused if runner.run(b"", (test,), refused_growth=n).status != 0]
        how = judgement(test.endswith(AMPLE), len(refused), bad)
        print(f"{test}: {len(refused)} growths refused, after {first}: {how or 'all right'}", flush=True)
        total += len(refused)
        failed += bool(how)
    return total, failed


def judgement(is_ample: bool, refused: int, bad: list[int]) -> str:
    """What is wrong with a test that ended badly at some of the refused growths; nothing where it is right."""
    if not refused:
        return "NONE MET"
    if is_ample:
        return "" if bad else "SEES NONE OF THEM"
    return f"FAILED at {bad}" if bad else ""


def judge_all() -> tuple[int, int]:
    """The same for the tests of memory of all crates."""
    programs = {crate: CRATES / crate / "out" / f"{crate}_tests" for crate in MEMORY}
    absent = [crate for crate, program in programs.items() if not os.access(program, os.X_OK)]
    if absent:
        raise Missing(f"not built: the tests of {', '.join(absent)} (`rt test` in the folder of each builds them)")
    total = failed = 0
    for crate, (module, after) in MEMORY.items():
        tests = [test for test in tests_of(crate, module) if test != after]
        refused, wrong = judge(programs[crate], tests, after)
        total, failed = total + refused, failed + wrong
    return total, failed


def main() -> int:
    parser = ArgumentParser(description="Refuses each growth of memory of tests in turn.")
    parser.add_argument("program", nargs="?", type=Path)
    parser.add_argument("tests", nargs="*", metavar="TEST")
    parser.add_argument("--after", metavar="TEST", help="a test that meets the growths before those to refuse")
    given = parser.parse_args()
    if given.program is not None and not os.access(given.program, os.X_OK):
        raise Missing(f"{given.program} is no program that can be run")
    total, failed = judge(given.program, given.tests, given.after) if given.program else judge_all()
    print(f"growths of tests: {total} refused, {failed} tests wrong")
    return 1 if failed or not total else 0


if __name__ == "__main__":
    sys.exit(ended(main))
