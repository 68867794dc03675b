#!/usr/bin/env python3
"""Compares callers of the library with a program for facts: status and output, byte by byte.

usage: library_facts.py [--first MOST] COUNT PROGRAM CALLER ..

PROGRAM may have words of its own, as "python3 reference/balisefacts.py". The module of examples/python is a caller
too. Inputs are the examples and the rows of checks/ with each way to ask; COUNT of them damaged in up to three places,
by random numbers from a fixed seed, and COUNT random inputs of reference/random_inputs.py, with one way each. With
--first it takes the first MOST of these inputs alone.
Ends with 0; with 1 if something differs; with 2 if there is no such program.
"""

import random
import sys
from collections.abc import Iterator
from itertools import islice
from pathlib import Path

from library_callers import Answer, Words, compared, damaged, of_program
from runs import ended, program_words

ROOT = Path(__file__).resolve().parents[2]
WAYS: tuple[Words, ...] = ((), ("--tags",), *(("--edit", str(serial)) for serial in (0, 1, 2, 3, 5, 8, 2**32 - 1)))
FAULT = 3

# The second program has a module baliseplan too, so its folder comes last.
sys.path.insert(0, str(ROOT / "examples" / "python"))
sys.path.append(str(ROOT / "reference"))
import baliseplan  # noqa: E402
from random_inputs import make_input  # noqa: E402


def by_module(data: bytes, words: Words) -> Answer:
    """The status, 3 for a fault, and the output, which a fault has too."""
    try:
        if words == ("--tags",):
            return baliseplan.facts_bytes(data, baliseplan.TAGS)
        if words:
            return baliseplan.facts_bytes(data, baliseplan.ONE_EDIT, int(words[1]))
        return baliseplan.facts_bytes(data)
    except baliseplan.Fault as fault:
        return FAULT, fault.output


def inputs(count: int) -> Iterator[tuple[bytes, Words]]:
    texts = [plan.read_bytes() for plan in sorted((ROOT / "examples").glob("*.plan"))]
    line = (ROOT / "examples" / "line.base").read_bytes()
    texts += [line + b"edits\nturn 5.300\nturn 5.300\nstrike 1\n"]
    texts += [file.read_bytes() for file in sorted((ROOT / "checks" / "rows").glob("*.in"))]
    texts += [line + b"edits\nturn 5.300\nundo\n" + b"x" * 4097 + b"\n", line + b"x" * 4097, b""]
    yield from ((text, words) for text in texts for words in WAYS)
    for _ in range(count):
        yield damaged(random.choice(texts)), random.choice(WAYS)
    for seed in range(1, count + 1):
        yield make_input(seed, "small").text, random.choice(WAYS)


def main(words: list[str]) -> int:
    random.seed(1)
    most = None
    if words[0] == "--first":
        most, words = int(words[1]), words[2:]
    count, program, callers = int(words[0]), program_words(words[1]), words[2:]
    theirs = {caller: of_program([caller]) for caller in callers}
    return compared(islice(inputs(count), most), of_program(program), {"examples/python": by_module, **theirs})


if __name__ == "__main__":
    sys.exit(ended(lambda: main(sys.argv[1:])))
