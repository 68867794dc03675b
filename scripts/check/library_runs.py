#!/usr/bin/env python3
"""Compares callers of the library with a program: status and output, byte by byte.

usage: library_runs.py [--first MOST] COUNT PROGRAM CALLER ..

The module of examples/python is a caller too. Inputs are the examples and the rows of checks/ and balise_tests with
each set of flags; COUNT of them damaged in up to three places, by random numbers from a fixed seed, with one set of
flags each; and COUNT random inputs of reference/random_inputs.py with their own flags. With --first it takes the first
MOST of these inputs alone.
Ends with 0, or with 1 if something differs.
"""

import ast
import random
import re
import sys
from collections.abc import Iterator
from itertools import islice
from pathlib import Path

from library_callers import Answer, Words, compared, damaged, of_program
from runs import ended

ROOT = Path(__file__).resolve().parents[2]
FLAGS = ("--quiet", "--stop", "--journal", "--json")
SETS = 1 << len(FLAGS)
FAULT = 3

# The second program has a module baliseplan too, so its folder comes last.
sys.path.insert(0, str(ROOT / "examples" / "python"))
sys.path.append(str(ROOT / "reference"))
import baliseplan  # noqa: E402
from random_inputs import make_input  # noqa: E402


def words_of(flags: int) -> Words:
    return tuple(word for bit, word in enumerate(FLAGS) if flags >> bit & 1)


def by_module(data: bytes, words: Words) -> Answer:
    """The status, 3 for a fault, and the output, which a fault has too."""
    try:
        return baliseplan.run_bytes(data, sum(1 << FLAGS.index(word) for word in words))
    except baliseplan.Fault as fault:
        return FAULT, fault.output


def rows() -> Iterator[bytes]:
    """The inputs of the rows, which are literals without any escape that Python hasn't."""
    for file in sorted((ROOT / "crates" / "balise_tests" / "src" / "rows").glob("*.rt")):
        for literal in re.findall(r'input: ("(?:[^"\\]|\\.)*")', file.read_text()):
            yield ast.literal_eval(literal).encode("latin-1")


def inputs(count: int) -> Iterator[tuple[bytes, Words]]:
    texts = [plan.read_bytes() for plan in sorted((ROOT / "examples").glob("*.plan"))]
    line = (ROOT / "examples" / "line.base").read_bytes()
    texts += [line + b"edits\nturn 5.300\nstrike 1\n"]
    texts += [file.read_bytes() for file in sorted((ROOT / "checks" / "rows").glob("*.in"))]
    texts += [line + b"edits\nturn 5.300\nundo\n" + b"x" * 4097 + b"\n", line + b"x" * 4097]
    texts += [b"", *rows()]
    yield from ((text, words_of(flags)) for text in texts for flags in range(SETS))
    for _ in range(count):
        yield damaged(random.choice(texts)), words_of(random.randrange(SETS))
    for seed in range(1, count + 1):
        made = make_input(seed, "small")
        yield made.text, tuple(word for word in FLAGS if word in made.arguments)


def main(words: list[str]) -> int:
    random.seed(1)
    most = None
    if words[0] == "--first":
        most, words = int(words[1]), words[2:]
    count, program, callers = int(words[0]), words[1], words[2:]
    theirs = {caller: of_program([caller]) for caller in callers}
    return compared(islice(inputs(count), most), of_program([program]), {"examples/python": by_module, **theirs})


if __name__ == "__main__":
    sys.exit(ended(lambda: main(sys.argv[1:])))
