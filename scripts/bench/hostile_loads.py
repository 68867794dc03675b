#!/usr/bin/env python3
"""Runs the program on each load of make_hostile.py, and judges how its time grows. Prints time and memory.

Usage: hostile_loads.py PROGRAM [LOAD ..]

Loads that go through an input once are run at a quarter of the longest input and at all of it, 64 MiB. Those that come
back to what there is are run at 3,000, 10,000, 30,000 and 100,000, as long as one run is foreseen to take less than 40 s.
The last column is the power of the count by which the time grew. It may be half more than the load's own, which is 1 or
2, once the longer run takes a tenth of a second. No run may take more than two minutes.
Ends with 0; with 1 if a status is wrong, a run takes too long or a time grows too fast.
"""

import math
import os
import resource
import signal
import subprocess
import sys
import tempfile
from pathlib import Path
from typing import NamedTuple

LONGEST = 40
LIMIT = round(float(os.environ.get("CHECK_SECONDS", "120")))
LONGEST_INPUT = 67_108_864
TOO_SHORT = 0.1
"""Where a run takes less seconds than this, its growth is noise. A run before it counts as half of this at least."""
SLACK = 0.5
AGAIN = 2
"""How often a run is made again where its time grew too fast: another task may have slowed it down."""


class Load(NamedTuple):
    """How often its parts come (0: the longest input, else bytes below 0), the status, and the power of its growth."""

    counts: tuple[int, ...]
    status: int
    power: int | None = 1


FULL = (-LONGEST_INPUT // 4, 0)
GROWING = (3_000, 10_000, 30_000, 100_000)
LOADS = {
    "groups": Load(FULL, 0),
    "groups-out-of-order": Load(FULL, 0),
    "groups-of-eight": Load(FULL, 0),
    "groups-full-of-packets": Load(FULL, 0),
    "groups-that-name-one": Load(FULL, 0),
    "groups-of-each-country": Load(FULL, 0),
    "identities-all-over": Load(FULL, 0),
    "telegrams-without-end": Load(FULL, 2),
    "lines-without-words": Load(FULL, 1),
    "lines-of-many-words": Load(FULL, 1),
    "lines-of-telegrams": Load(FULL, 1),
    "lines-of-digits": Load(FULL, 1),
    "nothing-to-undo": Load(FULL, 1),
    "no-such-edit": Load(FULL, 1),
    "values-too-wide": Load(FULL, 1),
    "set-and-undone": Load((125_000, 500_000), 0),
    "put-in-and-undone": Load((125_000, 500_000), 0),
    "turned": Load((250_000, 1_000_000), 0),
    "strikes-of-a-million": Load((100,), 0, None),
    "strikes-of-a-million-elsewhere": Load((100,), 0, None),
    "strikes": Load(GROWING, 0, 2),
    "refused-strikes": Load(GROWING, 1, 2),
    "undone-in-journal": Load(GROWING, 0, 2),
    "adds-in-the-middle": Load(GROWING, 0),
    "drops-of-the-first": Load(GROWING, 0),
    "renumberings-of-one-named": Load(GROWING, 0, 2),
    "turns-of-one-named": Load(GROWING, 0, 2),
    "added-by-rising-serials": Load(GROWING, 0),
    "added-by-colliding-serials": Load(GROWING, 0, 2),
}


class Run(NamedTuple):
    """A run: status, processor time in seconds, most memory in MB, and the input's bytes."""

    status: int
    seconds: float
    memory: float
    size: int

    def power(self, before: "Run", parts: float) -> float | None:
        """The power by which the time grew, with this many times the parts; none where it is noise."""
        if self.seconds < TOO_SHORT:
            return None
        return math.log(self.seconds / max(before.seconds, TOO_SHORT / 2)) / math.log(parts)


def limited() -> None:
    """A limit on processor time, and one on all time: a program may also wait for ever."""
    resource.setrlimit(resource.RLIMIT_CPU, (LIMIT, LIMIT))
    signal.alarm(2 * LIMIT)


def make(load: str, count: int, text: Path) -> None:
    maker = Path(__file__).with_name("make_hostile.py")
    counts = ["0", str(-count)] if count < 0 else [str(count)]
    with open(text, "wb") as made:
        subprocess.run([sys.executable, str(maker), load, *counts], stdout=made, check=True)


def measure(program: str, text: Path) -> Run:
    with open(text, "rb") as source, open(os.devnull, "wb") as output:
        process = subprocess.Popen([program], stdin=source, stdout=output, preexec_fn=limited)
        _, status, usage = os.wait4(process.pid, 0)
    process.returncode = os.waitstatus_to_exitcode(status)
    seconds = usage.ru_utime + usage.ru_stime
    return Run(process.returncode, seconds, usage.ru_maxrss / 1000, text.stat().st_size)


class Judge:
    """Runs one load at its counts, prints a row for each, and notes what is wrong."""

    def __init__(self, program: str, name: str, text: Path) -> None:
        self.program, self.name, self.text = program, name, text
        self.load = LOADS[name]
        self.wrong: list[str] = []

    def grew(self, before: tuple[int, Run] | None, count: int, done: Run) -> tuple[Run, float | None]:
        """The run, made again where it grew too fast, with the power by which it grew."""
        if before is None or self.load.power is None:
            return done, None
        parts = count / before[0] if count > 0 else done.size / before[1].size
        power = done.power(before[1], parts)
        for _ in range(AGAIN):
            if power is None or power <= self.load.power + SLACK:
                break
            again = measure(self.program, self.text)
            done = again if again.seconds < done.seconds else done
            power = done.power(before[1], parts)
        if power is not None and power > self.load.power + SLACK:
            self.wrong.append(f"{count}: the time grows by the power {power:.1f}, and {self.load.power} is due")
        return done, power

    def run(self) -> list[str]:
        before: tuple[int, Run] | None = None
        for count in self.load.counts:
            if before and count > 0 and before[1].seconds * (count / before[0]) ** 2 > LONGEST:
                print(f"| {self.name} | {count:,} | not run: more than {LONGEST} s foreseen | | |", flush=True)
                break
            make(self.name, count, self.text)
            done, power = self.grew(before, count, measure(self.program, self.text))
            parts = f"{count:,}" if count > 0 else f"{done.size / 2**20:.0f} MiB"
            grew = "" if power is None else f"{power:.1f}"
            print(f"| {self.name} | {parts} | {done.seconds:.2f} s | {done.memory:.0f} MB | {grew} |", flush=True)
            if done.status != self.load.status:
                self.wrong.append(f"{count}: status {done.status}, and {self.load.status} is due")
                break
            before = count, done
        return self.wrong


def main(program: str, *names: str) -> int:
    print("| load | count | time | memory | grows by |\n|---|---|---|---|---|", flush=True)
    wrong = 0
    with tempfile.TemporaryDirectory() as folder:
        for name in names or LOADS:
            faults = Judge(os.path.abspath(program), name, Path(folder, "input")).run()
            wrong += bool(faults)
            for fault in faults:
                print(f"{name} {fault}", flush=True)
    print(f"loads: {len(names or LOADS)}, {wrong} wrong")
    return 1 if wrong else 0


if __name__ == "__main__":
    if len(sys.argv) < 2 or not os.access(sys.argv[1], os.X_OK) or not set(sys.argv[2:]) <= set(LOADS):
        print("usage: hostile_loads.py PROGRAM [LOAD ..]", file=sys.stderr)
        sys.exit(2)
    sys.exit(main(*sys.argv[1:]))
