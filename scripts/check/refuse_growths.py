#!/usr/bin/env python3
"""Runs the program on inputs once for each growth of memory, with that growth refused, and judges each run.

Usage: refuse_growths.py PROGRAM INPUT|FOLDER .. [--own-flags]

Each input is run with each set of flags (with --own-flags: with its own alone). Which line was in hand at the growth is
known, since the input is given byte by byte. A growth before the commands, or after the last of them, has to end the
run with status 3 and 'fault 30 OutOfMemory', with nothing written, or with all replies and a beginning of the rest. A
growth within a command has to be answered 'refused 30 OutOfMemory' there, and all else has to be as if the command
weren't in the input. Words of which there is no run may also be answered as with enough memory. Needs cc.
"""

import sys
from collections import Counter
from typing import Any

from hostile_runs import EVERY_SET, Done, Runner, in_turn, inputs_of, replies_of
from runs import ended

SEEN = ("arguments", "before the commands", "commands", "after the commands")
FAULT = b"fault 30 OutOfMemory\n"
REPLY = b"refused 30 OutOfMemory\n"


class Judge:
    """Judges the runs over one input with one set of flags."""

    def __init__(self, runner: Runner, text: bytes, flags: tuple[str, ...]) -> None:
        self.runner, self.flags = runner, flags
        self.text = text
        self.lines = text.splitlines(True)
        self.has_commands = b"edits\n" in self.lines
        self.commands = self.lines.index(b"edits\n") + 1 if self.has_commands else len(self.lines)
        self.whole = runner.run(text, flags, read_step=1)
        self.replies = b"".join(replies_of(self.whole.output))
        self.answers: dict[int, bytes] = {}

    def without(self, line: int) -> bytes:
        """The output that answers the command on a line by 30 OutOfMemory."""
        if line not in self.answers:
            before, after = self.lines[:line], self.lines[line + 1 :]
            cut = self.runner.run(b"".join(before), self.flags).output
            whole = cut if "--stop" in self.flags else self.runner.run(b"".join(before + after), self.flags).output
            at = len(replies_of(cut))
            rest = whole.splitlines(True)
            self.answers[line] = b"".join(rest[:at] + [REPLY] + rest[at:])
        return self.answers[line]

    def judge(self, done: Done) -> str | None:
        """Where the refused growth was, or none where the run is wrong."""
        if not done.report:
            return None
        place, at_end = done.report["place"], done.report["at_end"]
        in_hand = self.text.count(b"\n", 0, place)
        has_fault = (done.status, done.error) == (3, FAULT)
        if in_hand <= self.commands and not (at_end and self.has_commands):
            return "before the commands" if has_fault and done.output == b"" else None
        if has_fault:
            is_after = at_end or place == self.whole.report["taken"]
            is_beginning = self.whole.output.startswith(done.output) and done.output.startswith(self.replies)
            return "after the commands" if is_after and is_beginning else None
        is_answered = done.status == 1 and done.error == b"" and done.output == self.without(in_hand - 1)
        return "commands" if is_answered else None


Judged = tuple[Counter[str], list[str]]


def judge_input(runner: Runner, name: str, text: bytes, flags: tuple[str, ...]) -> Judged:
    """How many runs ended in which way, and what is wrong."""
    judge = Judge(runner, text, flags)
    seen: Counter[str] = Counter()
    wrong = []
    growths = judge.whole.report.get("growths", 0)
    if not growths:
        wrong.append(f"{name} {' '.join(flags)}: no growth is seen: {judge.whole}")
    for growth in range(1, growths + 1):
        done = runner.run(text, flags, refused_growth=growth, read_step=1)
        found = judge.judge(done)
        seen[found or "wrong"] += 1
        if found is None:
            wrong.append(f"{name} {' '.join(flags)} growth {growth}: {done}")
    past = runner.run(text, flags, refused_growth=growths + 1, read_step=1)
    if past != judge.whole:
        wrong.append(f"{name} {' '.join(flags)}: more growths than were counted")
    return seen, wrong


def judge_words(runner: Runner, words: tuple[str, ...]) -> Judged:
    """The same for words of which there is no run: help, and what isn't an argument."""
    seen: Counter[str] = Counter()
    wrong = []
    whole = runner.run(b"", words)
    for growth in range(1, whole.report["growths"] + 1):
        done = runner.run(b"", words, refused_growth=growth)
        seen["arguments"] += 1
        if done[:3] not in ((3, b"", FAULT), whole[:3]):
            wrong.append(f"{' '.join(words)} growth {growth}: {done}, due {whole}")
    return seen, wrong


def judge_unit(runner: Runner, *unit: Any) -> Judged:
    return judge_words(runner, unit[0]) if len(unit) == 1 else judge_input(runner, *unit)


def main(program: str, *paths: str) -> int:
    Runner(program).checked()
    own = "--own-flags" in paths
    units: list[Any] = [(words,) for words in (("--help",), ("--loud",), ("--version",), ("--quiet", "--quiet"))]
    for item in inputs_of(path for path in paths if path != "--own-flags"):
        text = item.text if item.text.endswith(b"\n") or item.text == b"" else item.text + b"\n"
        for flags in [item.flags] if own else EVERY_SET:
            units.append((item.name, text, flags))
    seen: Counter[str] = Counter()
    wrong = 0
    for some, faults in in_turn(program, judge_unit, units):
        seen += some
        wrong += len(faults)
        for fault in faults[:5]:
            print(fault)
    counts = ", ".join(f"{seen[name]} {name}" for name in SEEN)
    print(f"growths: {len(units)} inputs with flags, {sum(seen.values())} runs: {counts}; {wrong} wrong")
    return 1 if wrong or not seen else 0


if __name__ == "__main__":
    sys.exit(ended(lambda: main(*sys.argv[1:])))
