#!/usr/bin/env python3
"""A plain second program for fields: digits to fields, and with --spell fields to digits."""

import sys
from collections.abc import Callable

from fields import explain
from filters import Answer, answered, finish, read_input
from run import Lines
from spelling import spell

FLAGS = ("--spell",)
HELP = "usage: balisefields.py [--spell] < INPUT > OUTPUT"


def answer(arguments: list[str], read: Callable[[int], bytes]) -> Answer:
    """What a run with these arguments prints, and its status."""

    def run(flags: set[str], out: list[str]) -> int:
        return (spell if "--spell" in flags else explain)(Lines(read), out)

    return answered(arguments, FLAGS, HELP, run)


def main(arguments: list[str]) -> int:
    return finish("balisefields.py", lambda: answer(arguments, read_input))


if __name__ == "__main__":
    sys.exit(main(sys.argv[1:]))
