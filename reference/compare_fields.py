#!/usr/bin/env python3
"""Compares a program with the reference on random telegrams and packets: explained, and spelled.

usage: compare_fields.py PROGRAM FROM TO [--damaged] [--explain-only] [--show COUNT] [-j PROCESSES]

Each seed from FROM to TO is an item of digits, and one of fields. 200 of them are one input, so
that the program is started seldom. It gets the digits, the fields that the reference makes of them,
and fields given with liberties. With --explain-only it gets the digits alone. With --damaged most
items are damaged, and some inputs end with a line that is too long. Standard output, standard error
and the status have to be the same. Where they aren't, the single items that differ are looked for
and shown. It ends after COUNT of them, 20 if none is given.

Status 0: the program printed the same for all. 1: some differ. 2: there is no such program.
"""

import argparse
import multiprocessing
import os
import sys
from collections import Counter
from collections.abc import Iterator
from dataclasses import dataclass, field
from io import BytesIO
from itertools import zip_longest

from balisefields import answer
from compare import NO_STATUS, Printed, by_program, counted, printed, program_words
from fields import LINES_OF_A_PLAN, OF_DIGITS, explain_item
from random_fields import make_digits, make_fields
from random_inputs import Input
from run import LONGEST_LINE

ITEMS = 200
"""The items of one input."""
Lines = tuple[str, ...]
TAILS: tuple[tuple[Lines, str], ...] = (
    ((), "\n"),
    ((), ""),
    (("x" * (LONGEST_LINE + 1),), "\n"),
    (("a" * LONGEST_LINE,), ""),
)
"""How damaged inputs end, in turn: a last item, and what stands after it."""


@dataclass(frozen=True)
class Task:
    """Items to compare, by their seeds."""

    words: tuple[str, ...]
    seeds: range
    damaged: bool
    explain_only: bool
    show: int


@dataclass(frozen=True)
class Runs:
    """What program and reference print for an input."""

    given: Input
    program: Printed
    reference: Printed

    def differ(self) -> bool:
        return self.program != self.reference


@dataclass
class Compared:
    """What was seen of the items of a task."""

    counts: Counter[str] = field(default_factory=Counter)
    differing: list[Runs] = field(default_factory=list)
    ended: bool = True


def by_reference(given: Input) -> Printed:
    """The reference's answer; its own error, if it has one, stands as output."""
    try:
        done = answer(list(given.arguments), BytesIO(given.text).read)
    except Exception as error:  # an error here is a finding, not the end of the comparison
        return Printed(repr(error).encode(), NO_STATUS)
    return printed(done.output, done.status, done.error.encode())


def runs_of(words: Lines, items: list[Lines], arguments: Lines, end: str = "\n") -> Runs:
    """Runs both over some items as one input."""
    text = "\n".join(line for lines in items for line in lines) + end
    given = Input(arguments, text.encode("latin-1"))
    return Runs(given, by_program(list(words), given), by_reference(given))


def narrowed(words: Lines, items: list[Lines], runs: Runs) -> Iterator[Runs]:
    """The single items that differ; or all of them, where none differs without the others."""
    if len(items) == 1 or runs.program.status == NO_STATUS:
        yield runs
        return
    middle = len(items) // 2
    found = False
    for part in (items[:middle], items[middle:]):
        half = runs_of(words, part, runs.given.arguments)
        if half.differ():
            found = True
            yield from narrowed(words, part, half)
    if not found:
        yield runs


def count(printed: Printed, spelled: bool) -> Counter[str]:
    """How many items were explained, spelled and refused, by the refusal."""
    counts: Counter[str] = Counter()
    of_digits = [refusal.name for refusal in OF_DIGITS]
    for line in printed.output.decode("latin-1").splitlines():
        words = line.split(" ")
        if words[0] in ("bad", "fault"):
            counts[f"{words[0]} {words[2]}"] += 1
            counts["explained"] -= not spelled and words[2] not in of_digits
        elif spelled:
            counts["spelled"] += line not in LINES_OF_A_PLAN
        elif words[0] == "telegram" or (words[0] == "packet" and len(words) == 2):
            counts["explained"] += 1
    return counts


def inputs_of(task: Task) -> Iterator[tuple[list[Lines], Lines]]:
    """The inputs of the items of some seeds, with the arguments for each."""
    digits = [make_digits(seed, task.damaged).lines for seed in task.seeds]
    yield digits, ()
    if not task.explain_only:
        yield [tuple(fields_of(lines)) for lines in digits], ("--spell",)
        yield [make_fields(seed, task.damaged).lines for seed in task.seeds], ("--spell",)


def compare(task: Task) -> Compared:
    """Compares on the items of some seeds."""
    compared = Compared()
    turn = task.seeds.start // ITEMS % len(TAILS) if task.damaged else 0
    for items, arguments in inputs_of(task):
        last, end = TAILS[turn]
        items = [lines for lines in [*items, last] if lines]
        runs = runs_of(task.words, items, arguments, end)
        compared.counts.update(count(runs.reference, arguments != ()))
        if runs.differ():
            compared.ended = runs.program.status != NO_STATUS
            found = narrowed(task.words, items, runs)
            compared.differing += [each for _, each in zip(range(task.show), found)]
            break
    return compared


def fields_of(digits: Lines) -> Iterator[str]:
    """The lines that the reference makes of an item of digits."""
    for line in digits:
        yield from [line] if line in LINES_OF_A_PLAN else explain_item(line)[0]


def show(runs: Runs) -> None:
    """Shows an item that differs, and the first line in which both answers do."""
    print(f"differs: {' '.join(runs.given.arguments) or 'digits to fields'}")
    for line in runs.given.text.decode("latin-1").splitlines()[:200]:
        print(f"    {line[:300]!a}")
    both = (runs.program, runs.reference)
    lines = [each.output.decode("latin-1").splitlines() for each in both]
    for number, (program, reference) in enumerate(zip_longest(*lines), 1):
        if program != reference:
            print(f"line {number} of the program: {program!a:.300}")
            print(f"line {number} of the reference: {reference!a:.300}")
            break
    for name, each in zip(("program", "reference"), both, strict=True):
        print(f"status of the {name}: {each.status} {each.error!a:.300}")


def compare_all(words: list[str], asked: argparse.Namespace) -> tuple[Counter[str], int]:
    """Compares all seeds: what was counted, and how many items differ, of which each is shown."""
    seeds = range(asked.first, asked.last + 1)
    parts = [seeds[start : start + ITEMS] for start in range(0, len(seeds), ITEMS)]
    flags = (asked.damaged, asked.explain_only)
    tasks = [Task(tuple(words), part, *flags, asked.show) for part in parts]
    counts: Counter[str] = Counter()
    differing = 0
    with multiprocessing.Pool(asked.processes) as pool:
        for compared in counted(pool.imap_unordered(compare, tasks), len(tasks)):
            counts.update(compared.counts)
            for runs in compared.differing:
                show(runs)
            differing += len(compared.differing)
            if not compared.ended or differing >= asked.show:
                print("no further input is tried")
                break
    return counts, differing


def main() -> int:
    parser = argparse.ArgumentParser(description="Compares a program with the reference.")
    parser.add_argument("program", metavar="PROGRAM", help="a program, perhaps with arguments")
    parser.add_argument("first", metavar="FROM", type=int, help="the first seed")
    parser.add_argument("last", metavar="TO", type=int, help="the last seed")
    parser.add_argument("--damaged", action="store_true", help="most items are damaged")
    parser.add_argument("--explain-only", action="store_true", help="digits to fields alone")
    parser.add_argument("--show", type=int, default=20, help="how many are shown, and then it ends")
    parser.add_argument("-j", dest="processes", type=int, default=os.cpu_count() or 1)
    asked = parser.parse_args()
    words = program_words(asked.program)
    if words is None:
        print(f"compare_fields.py: there is no program {asked.program}", file=sys.stderr)
        return 2
    counts, differing = compare_all(words, asked)
    for word, title in (("fault", "refused as digits"), ("bad", "refused as fields")):
        reasons = [(name, n) for name, n in counts.most_common() if name.startswith(f"{word} ")]
        print(f"{title}: {sum(n for _, n in reasons)}", end="")
        print("".join(f", {name.partition(' ')[2]} {n}" for name, n in reasons))
    items = max(0, asked.last - asked.first + 1)
    print(f"{items} items, {counts['explained']} explained, {counts['spelled']} spelled", end="")
    print(f", {differing} differ")
    return 1 if differing else 0


if __name__ == "__main__":
    sys.exit(main())
