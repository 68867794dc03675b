#!/usr/bin/env python3
"""A plain second program for balise plans: standard input to standard output."""

import sys
from collections.abc import Callable

from filters import Answer, answered, finish, read_input
from run import FLAGS, run

HELP = "usage: baliseplan.py [--quiet] [--stop] [--journal] [--json] < INPUT > OUTPUT"


def answer(arguments: list[str], read: Callable[[int], bytes]) -> Answer:
    """What a run with these arguments prints, and its status."""
    return answered(arguments, FLAGS, HELP, lambda flags, out: run(read, flags, out))


def main(arguments: list[str]) -> int:
    return finish("baliseplan.py", lambda: answer(arguments, read_input))


if __name__ == "__main__":
    sys.exit(main(sys.argv[1:]))
