"""Inputs of a folder, and runs of a program over them in which chosen calls fail."""

import os
import signal
import subprocess
import tempfile
from collections.abc import Callable, Iterable, Iterator
from itertools import product
from multiprocessing import Pool
from pathlib import Path
from typing import Any, NamedTuple

from runs import SECONDS, NoEnd, Wrong, need

FLAGS = ("--quiet", "--stop", "--journal", "--json")
EVERY_SET = [
    tuple(flag for flag, given in zip(FLAGS, chosen) if given) for chosen in product((False, True), repeat=len(FLAGS))
]
REPORT = 9
CALLS = Path(__file__).with_name("failing_calls.c")


class Input(NamedTuple):
    name: str
    text: bytes
    flags: tuple[str, ...]


def inputs_of(paths: Iterable[str]) -> list[Input]:
    """The inputs of files and folders. NAME.args or NAME.flags beside an input has its flags, one a line."""
    found = []
    for path in map(Path, paths):
        files = sorted(path.iterdir()) if path.is_dir() else [path]
        for file in files:
            if path.is_dir() and (not file.is_file() or file.suffix not in ("", ".plan", ".in")):
                continue
            flags: tuple[str, ...] = ()
            for beside in (file.with_name(file.name + ".args"), file.with_suffix(".flags")):
                if beside.exists():
                    flags = tuple(beside.read_text().split())
            if set(flags) <= set(FLAGS):
                found.append(Input(file.name, file.read_bytes(), flags))
    return found


class Done(NamedTuple):
    """How a run ended. A status below 0 is a signal."""

    status: int
    output: bytes
    error: bytes
    report: dict[str, int]


COUNTS = ("growths", "place", "at_end", "reads", "taken", "ended", "reads_after", "writes", "writes_after")


class Runner:
    """Runs a program over inputs, in files of a folder of its own."""

    def __init__(self, program: str) -> None:
        need("cc")
        self.program = os.path.abspath(program)
        self.folder = tempfile.TemporaryDirectory()
        self.files = [os.path.join(self.folder.name, name) for name in ("input", "output", "error", "report")]
        self.held: bytes | None = None
        self.library = os.path.join(self.folder.name, "failing_calls.so")
        subprocess.run(["cc", "-O2", "-shared", "-fPIC", "-o", self.library, CALLS, "-ldl"], check=True)

    def run(self, text: bytes, flags: tuple[str, ...], **asked: int) -> Done:
        source, output, error, report = self.files
        if text is not self.held:
            Path(source).write_bytes(text)
            self.held = text
        create = os.O_WRONLY | os.O_CREAT | os.O_TRUNC
        actions = [
            (os.POSIX_SPAWN_OPEN, 0, source, os.O_RDONLY, 0),
            (os.POSIX_SPAWN_OPEN, 1, output, create, 0o600),
            (os.POSIX_SPAWN_OPEN, 2, error, create, 0o600),
            (os.POSIX_SPAWN_OPEN, REPORT, report, create, 0o600),
        ]
        limit = max(1, round(min(SECONDS, 60)))
        environment = {"LD_PRELOAD": self.library, "REPORT": str(REPORT), "RUN_SECONDS": str(limit)}
        environment.update((name.upper(), str(value)) for name, value in asked.items())
        process = os.posix_spawn(self.program, [self.program, *flags], environment, file_actions=actions)
        status = os.waitstatus_to_exitcode(os.waitpid(process, 0)[1])
        if status in (-signal.SIGALRM, -signal.SIGXCPU, -signal.SIGKILL):
            raise NoEnd(f"no end after {limit} s: {' '.join(flags)} {asked or ''} < {text[:4000]!r}")
        outputs = [Path(path).read_bytes() for path in self.files[1:]]
        return Done(status, outputs[0], outputs[1], dict(zip(COUNTS, map(int, outputs[2].split()))))

    def checked(self) -> "Runner":
        """Itself, once it is seen that the calls of this program are counted: else no call would ever fail."""
        done = self.run(b"plan 1\nedits\n", ())
        if not all(done.report.get(name) for name in ("growths", "reads", "writes")):
            raise NoCalls(f"no growth, read or write of {self.program} is seen: status {done.status}, {done.report}")
        return self


class NoCalls(Wrong):
    """The calls of a program aren't seen, so none of them can be made to fail."""


Judge = Callable[..., Any]
runner: Runner


def begin(program: str) -> None:
    global runner
    runner = Runner(program)


def in_turn(program: str, judge: Judge, units: list[Any]) -> Iterator[Any]:
    """What `judge(runner, *unit)` answers for each unit. Each processor that may be used has a runner of its own."""
    need("cc")
    with Pool(len(os.sched_getaffinity(0)), begin, (program,)) as pool:
        yield from pool.imap_unordered(judged, [(judge, unit) for unit in units], chunksize=4)


def judged(work: tuple[Judge, Any]) -> Any:
    judge, unit = work
    return judge(runner, *unit)


def replies_of(output: bytes) -> list[bytes]:
    """The lines of an output before the plan."""
    lines = output.splitlines(True)
    return lines[: lines.index(b"plan 1\n")] if b"plan 1\n" in lines else []
