#!/usr/bin/env python3
"""Prints random inputs for fields with what the reference answers, one a line.

usage: print_random_fields.py COUNT

A line has the way, `explain` or `spell`, the status, and input and output in base64. COUNT inputs go each way. Each has a
handful of items: digits, the fields that the reference makes of them, and fields given with liberties. Every second input
is damaged.
"""

import base64
import sys
from collections.abc import Iterator
from io import BytesIO
from pathlib import Path

sys.path.insert(0, str(Path(__file__).resolve().parents[2] / "reference"))
from balisefields import answer  # noqa: E402
from compare_fields import fields_of  # noqa: E402
from random_fields import make_digits, make_fields  # noqa: E402
from run import LONGEST_LINE  # noqa: E402

ITEMS = 5


def text(items: list[tuple[str, ...]], last: str = "") -> bytes:
    return ("".join(line + "\n" for lines in items for line in lines) + last).encode("latin-1")


def inputs(count: int) -> Iterator[tuple[str, bytes]]:
    for turn in range(count):
        seeds, damaged = range(turn * ITEMS, (turn + 1) * ITEMS), turn % 2 == 1
        digits = [make_digits(seed, damaged).lines for seed in seeds]
        given = [make_fields(seed, damaged).lines for seed in seeds]
        made = [tuple(fields_of(lines)) for lines in digits]
        last = "x" * (LONGEST_LINE + 1) if turn % 20 == 19 else ""
        yield "explain", text(digits, last)
        yield "spell", text(made[:2] + given, last)


def main() -> int:
    for way, given in inputs(int(sys.argv[1])):
        done = answer(["--spell"] if way == "spell" else [], BytesIO(given).read)
        print(way, done.status, base64.b64encode(given).decode(), base64.b64encode(done.output).decode())
    return 0


if __name__ == "__main__":
    sys.exit(main())
