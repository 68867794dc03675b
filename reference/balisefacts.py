#!/usr/bin/env python3
"""A plain second program for facts: what edits change and need, what depends on them, and tags."""

import re
import sys
from collections.abc import Callable

from facts import Asked, fact_lines
from filters import Answer, Usage, answered_as, finish, read_input
from run import run_to
from texts import GREATEST_NUMBER

HELP = "usage: balisefacts.py [--edit N | --tags] < INPUT > OUTPUT"


def asked_of(arguments: list[str]) -> Asked | None:
    """What the arguments ask for, from left to right; none where that is help."""
    given: dict[str, str] = {}
    words = iter(arguments)
    for word in words:
        name, equals, value = word.partition("=")
        if word in ("--help", "-h"):
            return None
        if word == "--":
            for more in words:
                raise Usage(more)
            break
        if name in given or name not in ("--edit", "--tags") or equals and name == "--tags":
            raise Usage(word)
        elif name == "--edit" and not equals:
            value = next(words, "-")
            if value.startswith("-"):
                raise Usage(word)
        given[name] = value
    return _judged(given)


def _judged(given: dict[str, str]) -> Asked:
    """At most one of the two, and a number of 32 bits. A plus and zeros before it count for nothing."""
    serial = given.get("--edit")
    if serial is None:
        return Asked(tags="--tags" in given)
    if "--tags" in given:
        raise Usage("--tags")
    if not re.fullmatch(r"\+?[0-9]+", serial) or int(serial) > GREATEST_NUMBER:
        raise Usage(serial)
    return Asked(int(serial))


def answer(arguments: list[str], read: Callable[[int], bytes]) -> Answer:
    """What a run with these arguments prints, and its status."""

    def run(asked: Asked, out: list[str]) -> int:
        return run_to(read, {"--quiet"}, out, lambda session: fact_lines(session, asked))

    return answered_as(lambda: asked_of(arguments), HELP, run)


def main(arguments: list[str]) -> int:
    return finish("balisefacts.py", lambda: answer(arguments, read_input))


if __name__ == "__main__":
    sys.exit(main(sys.argv[1:]))
