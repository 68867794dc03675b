#!/usr/bin/env python3
"""Compares callers of the library with a program for fields, both ways: status and output, byte by byte.

usage: library_fields.py [--first MOST] COUNT PROGRAM CALLER ..

PROGRAM may have words of its own, as "python3 reference/balisefields.py". The module of examples/python is a caller
too. Inputs are the examples of docs/FIELDS.md and the plans of examples/, each both ways; COUNT inputs of random
telegrams and packets each way (reference/random_fields.py), every other one damaged; and COUNT of all these with bytes
damaged in up to three places, by random numbers from a fixed seed. Some end with a line that is too long, or without
an end of line. With --first it takes the first MOST of these inputs alone.
Ends with 0; with 1 if something differs; with 2 if there is no such program.
"""

import random
import sys
from collections.abc import Iterator
from itertools import islice
from pathlib import Path

from example_pages import blocks_of
from library_callers import Answer, Words, compared, damaged, of_program
from runs import ended, program_words

ROOT = Path(__file__).resolve().parents[2]
SPELL = ("--spell",)
ITEMS = 10
"""The telegrams and packets of one random input."""
ENDS = (b"\n", b"\n", b"", b"\n" + b"x" * 4097 + b"\n")
"""How random inputs end, in turn."""
FAULT = 3

# The second program has a module baliseplan too, so its folder comes last.
sys.path.insert(0, str(ROOT / "examples" / "python"))
sys.path.append(str(ROOT / "reference"))
import baliseplan  # noqa: E402
from random_fields import make_digits, make_fields  # noqa: E402


def by_module(data: bytes, words: Words) -> Answer:
    """The status, 3 for a fault, and the output, which a fault has too."""
    try:
        return baliseplan.spell_bytes(data) if words else baliseplan.explain_bytes(data)
    except baliseplan.Fault as fault:
        return FAULT, fault.output


def fixed() -> Iterator[bytes]:
    """Both sides of each example of the page, all of them as one input, and the plans."""
    page = (ROOT / "docs" / "FIELDS.md").read_text()
    sides: list[bytes] = []
    for block in blocks_of(page):
        if block.words in (["fields"], ["spell"]):
            for line in block.lines:
                sides += ["".join(f"{each}\n" for each in side.split(" | ")).encode() for side in line.split(" => ")]
    yield from sides
    yield b"".join(sides)
    yield from (plan.read_bytes() for plan in sorted((ROOT / "examples").glob("*.plan")))
    yield from (b"", b"\n", b"group", b"x" * 4097, b"group\n" + b"a" * 4096 + b"\n")


def of_seed(seed: int, words: Words) -> bytes:
    """A random input: its items, and how it ends."""
    make = make_fields if words else make_digits
    items = (make(each, seed % 2 == 1) for each in range(seed * ITEMS, (seed + 1) * ITEMS))
    return "\n".join(line for item in items for line in item.lines).encode("latin-1") + ENDS[seed // 2 % len(ENDS)]


def inputs(count: int) -> Iterator[tuple[bytes, Words]]:
    given = [(data, words) for data in fixed() for words in ((), SPELL)]
    given += [(of_seed(seed, words), words) for seed in range(count) for words in ((), SPELL)]
    yield from given
    for _ in range(count):
        data, words = random.choice(given)
        yield damaged(data), words


def main(words: list[str]) -> int:
    random.seed(1)
    most = None
    if words[0] == "--first":
        most, words = int(words[1]), words[2:]
    count, program, callers = int(words[0]), program_words(words[1]), words[2:]
    theirs = {caller: of_program([caller]) for caller in callers}
    return compared(islice(inputs(count), most), of_program(program), {"examples/python": by_module, **theirs})


if __name__ == "__main__":
    sys.exit(ended(lambda: main(sys.argv[1:])))
