#!/usr/bin/env python3
"""Runs the program on inputs once for each read and each write, with that call failing, and judges each run.

Usage: fail_devices.py PROGRAM INPUT|FOLDER ..

Reads give and writes take 1, 2 or 3 bytes, or as many as there are. A read that fails (also one that was only
interrupted) has to end the run with status 3 and 'fault 31 ReadFault', with the replies to all lines that had come, and
no read after it. A write that fails has to end it with 'fault 32 WriteFault', what was written being a beginning of the
output; one that was interrupted is tried again. Needs cc.
"""

import errno
import sys
from collections import Counter

from hostile_runs import Done, Runner, in_turn, inputs_of, replies_of
from runs import ended

STEPS = (1, 2, 3, 0)
READ_ERRORS = (errno.EIO, errno.EINTR, errno.EAGAIN)
WRITE_ERRORS = (errno.ENOSPC, errno.EPIPE, errno.EAGAIN, 0)
KINDS = ("short calls", "reads failed", "writes failed", "writes interrupted")
READ_FAULT = (3, b"fault 31 ReadFault\n")
WRITE_FAULT = (3, b"fault 32 WriteFault\n")


def in_hand(errors: tuple[int, ...], step: int, call: int) -> tuple[int, ...]:
    """Every error where a call gives or takes many bytes, and one of them in turn where there are many calls."""
    return errors if step in (0, 3) else (errors[call % len(errors)],)


class Judge:
    """Judges the runs over one input with its flags."""

    def __init__(self, runner: Runner, name: str, text: bytes, flags: tuple[str, ...]) -> None:
        self.runner, self.name, self.text, self.flags = runner, name, text, flags
        self.whole = runner.run(text, flags)
        self.seen: Counter[str] = Counter()
        self.wrong: list[str] = []
        self.written: dict[int, bytes] = {}

    def note(self, what: str, is_right: bool, done: Done, calls: dict[str, int]) -> None:
        self.seen[what] += 1
        if not is_right:
            self.wrong.append(f"{self.name} {' '.join(self.flags)}, {what}, {calls}: {done}")

    def replies_to(self, given: int) -> bytes:
        """The replies to the lines that are complete in the first bytes of the input."""
        end = self.text.rfind(b"\n", 0, given) + 1
        if end not in self.written:
            lines = replies_of(self.runner.run(self.text[:end], self.flags).output)
            self.written[end] = b"".join(lines)
        return self.written[end]

    def short_calls(self) -> None:
        for step in STEPS:
            for calls in ({"read_step": step}, {"write_step": step}):
                done = self.runner.run(self.text, self.flags, **calls)
                is_right = done[:3] == self.whole[:3]
                self.note("short calls", is_right, done, calls)

    def failed_reads(self, step: int) -> None:
        reads = self.runner.run(self.text, self.flags, read_step=step).report.get("reads", 0)
        for read in range(1, reads + 1):
            for error in in_hand(READ_ERRORS, step, read):
                calls = {"read_step": step, "failed_read": read, "read_error": error}
                done = self.runner.run(self.text, self.flags, **calls)
                is_right = (done.status, done.error) == READ_FAULT and done.report.get("reads_after") == 0
                is_right = is_right and done.output == self.replies_to(done.report["taken"])
                self.note("reads failed", is_right, done, calls)

    def failed_writes(self, step: int) -> None:
        writes = self.runner.run(self.text, self.flags, write_step=step).report.get("writes", 0)
        for write in range(1, writes + 1):
            for error in in_hand(WRITE_ERRORS, step, write):
                calls = {"write_step": step, "failed_write": write, "write_error": error}
                done = self.runner.run(self.text, self.flags, **calls)
                is_right = (done.status, done.error) == WRITE_FAULT and self.whole.output.startswith(done.output)
                self.note("writes failed", is_right, done, calls)
            calls = {"write_step": step, "failed_write": write, "write_error": errno.EINTR}
            done = self.runner.run(self.text, self.flags, **calls)
            self.note("writes interrupted", done[:3] == self.whole[:3], done, calls)


def judge_input(runner: Runner, name: str, text: bytes, flags: tuple[str, ...]) -> tuple[Counter[str], list[str]]:
    """How many runs there were of each kind, and what is wrong."""
    judge = Judge(runner, name, text, flags)
    judge.short_calls()
    for step in STEPS:
        judge.failed_reads(step)
        judge.failed_writes(step)
    return judge.seen, judge.wrong


def main(program: str, *paths: str) -> int:
    Runner(program).checked()
    seen: Counter[str] = Counter()
    wrong = 0
    inputs = inputs_of(paths)
    for some, faults in in_turn(program, judge_input, inputs):
        seen += some
        wrong += len(faults)
        for fault in faults[:5]:
            print(fault)
    counts = ", ".join(f"{count} {name}" for name, count in sorted(seen.items()))
    print(f"devices: {len(inputs)} inputs, {sum(seen.values())} runs: {counts}; {wrong} wrong")
    return 1 if wrong or not all(seen[kind] for kind in KINDS) else 0


if __name__ == "__main__":
    sys.exit(ended(lambda: main(*sys.argv[1:])))
