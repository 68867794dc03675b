#!/usr/bin/env python3
"""Runs the program on inputs that are damaged in one place, and compares each run with the reference.

Usage: damage_inputs.py PROGRAM INPUT|FOLDER ..

Each input is cut after each byte, loses each byte in turn, and has each byte changed to each of some twenty others. The
runs have each set of flags in turn. Status, output and standard error have to be those of reference/, which is called
in place. No run may end by a signal. Needs cc.
"""

import sys
from collections import Counter
from collections.abc import Iterator
from io import BytesIO
from pathlib import Path

from hostile_runs import EVERY_SET, Runner, in_turn, inputs_of
from runs import ended

sys.path.append(str(Path(__file__).resolve().parents[2] / "reference"))
from baliseplan import answer  # noqa: E402 (the folder has to be on the path first)

BYTES = b"\n\r\0\t 019afFgzbn./^$-,\x7f\x80\xff"
STATUSES = (0, 1, 2, 3)
PARTS = 9  # shares no factor with the number of sets, so that each part has each set of flags


def by_reference(text: bytes, flags: tuple[str, ...]) -> tuple[int, bytes, bytes]:
    """Status, output and standard error of the reference."""
    done = answer(list(flags), BytesIO(text).read)
    return done.status, done.output, done.error.encode()


def damaged(text: bytes) -> Iterator[tuple[str, bytes]]:
    """The texts that damage in one place makes of a text, each with what was done."""
    for at in range(len(text)):
        yield "cut", text[:at]
        yield "a byte lost", text[:at] + text[at + 1 :]
        for byte in BYTES:
            if byte != text[at]:
                yield "a byte changed", text[:at] + bytes([byte]) + text[at + 1 :]


def judge_part(runner: Runner, name: str, part: int, parts: int, text: bytes) -> tuple[Counter[str], list[str]]:
    """How many damaged texts of a part there were, by what was done and the status, and what is wrong."""
    seen: Counter[str] = Counter()
    wrong = []
    for number, (what, bad) in enumerate(damaged(text)):
        if number % parts != part:
            continue
        flags = EVERY_SET[number % len(EVERY_SET)]
        done, due = runner.run(bad, flags), by_reference(bad, flags)
        seen[what] += 1
        seen[f"status {done.status}"] += 1
        if done[:3] != due or done.status not in STATUSES:
            wrong.append(f"{name} {' '.join(flags)}, {what}: {bad!r}: {done[:3]}, due {due}")
    return seen, wrong


def main(program: str, *paths: str) -> int:
    inputs = inputs_of(paths)
    units = [(item.name, part, PARTS, item.text) for item in inputs for part in range(PARTS)]
    seen: Counter[str] = Counter()
    wrong = 0
    for some, faults in in_turn(program, judge_part, units):
        seen += some
        wrong += len(faults)
        for fault in faults[:20]:
            print(fault)
    counts = ", ".join(f"{count} {name}" for name, count in sorted(seen.items()))
    print(f"damaged: {len(inputs)} inputs: {counts}; {wrong} wrong")
    return 1 if wrong or not seen else 0


if __name__ == "__main__":
    sys.exit(ended(lambda: main(*sys.argv[1:])))
