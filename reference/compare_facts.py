#!/usr/bin/env python3
"""Compares a program for facts with the reference on random inputs.

usage: compare_facts.py PROGRAM FROM TO [--size small|medium] [-j PROCESSES] [--keep FOLDER]

Each input of random_inputs.py is run in all ways: for all edits, for some by their serials,
of which some don't stand, and for the tags. Some runs have arguments that aren't the program's.

Status 0: the program printed the same for all seeds. 1: for some it differs, and each
such input is kept, made shorter. 2: there is no such program.
"""

import sys
from io import BytesIO
from random import Random

from balisefacts import answer
from compare import compare_with
from random_inputs import Input, make_input

ODD = (
    "--quiet",
    "--tags --tags",
    "--tags --edit 1",
    "--edit 1 --tags",
    "--edit 1 --edit 1",
    "--edit",
    "--edit one",
    "--edit 4294967296",
    "--edit 4294967295",
    "--edit +1",
    "--edit 001",
    "--edit=1",
    "--edit -1",
    "--tags --",
    "-- --tags",
    "1",
)
"""Arguments at the edge of what is taken."""


def given_in_all_ways(seed: int, size: str) -> list[Input]:
    """The input of a seed with the arguments of each way."""
    text, random = make_input(seed, size).text, Random(seed)
    lines = answer([], BytesIO(text).read).output.decode().splitlines()
    standing = [int(line.split()[1]) for line in lines if line.startswith("edit ")]
    serials = random.sample(standing, min(2, len(standing)))
    serials.append(random.randint(0, max(standing, default=0) + 1))
    ways = [(), ("--tags",), *(("--edit", str(serial)) for serial in serials)]
    if random.random() < 0.05:
        ways.append(tuple(random.choice(ODD).split()))
    return [Input(way, text) for way in ways]


if __name__ == "__main__":
    sys.exit(compare_with("Compares a program for facts.", answer, given_in_all_ways))
