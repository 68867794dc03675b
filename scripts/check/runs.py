"""What the checks share: tools that they need, and runs of a program with a limit of time.

A check ends with 0 where all is right, 1 where something is wrong, and 2 where it could not be run.
"""

import os
import re
import shlex
import shutil
import signal
import subprocess
import sys
from collections.abc import Callable
from dataclasses import dataclass

SECONDS = float(os.environ.get("CHECK_SECONDS", "120"))
"""What a run may take. The self-test gives less."""
RIGHT, WRONG, NOT_RUN = 0, 1, 2
PACKAGES = {
    "ar": "binutils",
    "awk": "mawk",
    "bats": "bats",
    "c++": "g++",
    "cargo": "cargo",
    "cc": "gcc libc6-dev",
    "cmp": "diffutils",
    "diff": "diffutils",
    "dot": "graphviz",
    "dpkg-deb": "dpkg",
    "jq": "jq",
    "make": "make",
    "mandoc": "mandoc",
    "mypy": "mypy",
    "objcopy": "binutils",
    "objdump": "binutils",
    "pkg-config": "pkgconf",
    "shellcheck": "shellcheck",
    "strace": "strace",
    "valgrind": "valgrind",
}
"""The Debian packages of tools."""
ERRORS = {0: "", 1: "", 2: "", 3: r"fault \d+ [A-Za-z]+\n", 64: r"(?s).+"}
"""What a program prints to standard error, by its status."""


class Missing(Exception):
    """Something that a check needs isn't there."""


class Wrong(Exception):
    """The program is so wrong that no further run is tried."""


class NoEnd(Wrong):
    """A run didn't end in time."""


@dataclass(frozen=True)
class Printed:
    """Status, standard output and standard error of a run. A status below 0 is a signal."""

    status: int
    output: bytes
    error: bytes

    def has_right_error(self) -> bool:
        """Whether standard error has what goes with the status, and nothing else."""
        due = ERRORS.get(self.status)
        return due is not None and re.fullmatch(due, self.error.decode("latin-1")) is not None


def need(*tools: str) -> None:
    """Looks for tools, and names the Debian packages of those that are missing."""
    absent = [tool for tool in tools if shutil.which(tool) is None]
    if absent:
        packages = sorted({PACKAGES.get(tool, "") for tool in absent} - {""})
        advice = f" (on Debian: apt-get install {' '.join(packages)})" if packages else ""
        raise Missing(f"missing: {', '.join(absent)}{advice}")


def program_words(program: str) -> list[str]:
    """The words that start a program, as "python3 reference/baliseplan.py"."""
    words = shlex.split(program)
    found = shutil.which(words[0]) if words else None
    scripts = [word for word in words[1:2] if word.endswith(".py")]
    if found is None or not all(os.path.isfile(script) for script in scripts):
        raise Missing(f"there is no program {program}")
    return [os.path.abspath(found), *(os.path.abspath(script) for script in scripts), *words[1 + len(scripts) :]]


def run(words: list[str], text: bytes, seconds: float = SECONDS, **more: object) -> Printed:
    """Runs a program over an input. Where it doesn't end, all that it started is killed."""
    process = subprocess.Popen(
        words,
        stdin=subprocess.PIPE,
        stdout=subprocess.PIPE,
        stderr=subprocess.PIPE,
        start_new_session=True,
        **more,  # type: ignore[call-overload]
    )
    try:
        output, error = process.communicate(text, timeout=seconds)
    except subprocess.TimeoutExpired:
        os.killpg(process.pid, signal.SIGKILL)
        process.wait()
        raise NoEnd(f"no end after {seconds:g} s: {shlex.join(words)}") from None
    return Printed(process.returncode, output, error)


def ended(check: Callable[[], int]) -> int:
    """The exit status of a check."""
    name = os.path.basename(sys.argv[0])
    try:
        return check()
    except Wrong as reason:
        print(f"{name}: {reason}")
        return WRONG
    except (Missing, OSError) as reason:
        print(f"{name}: {reason}", file=sys.stderr)
        return NOT_RUN


if __name__ == "__main__":
    # For scripts of the shell: runs.py TOOL .. looks for tools.
    def look() -> int:
        need(*sys.argv[1:])
        return RIGHT

    sys.exit(ended(look))
