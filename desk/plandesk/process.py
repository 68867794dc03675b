"""Runs a program over a text: the one place where a process is started."""

from __future__ import annotations

import subprocess
from collections.abc import Sequence

from plandesk.errors import Fault


def run_program(
    words: Sequence[str], flags: Sequence[str], text: str, seconds: float | None, hint: str
) -> tuple[int, str, str]:
    """Status, output and standard error. The hint is for a program that can't be run."""
    try:
        done = subprocess.run([*words, *flags], input=text.encode("latin-1"), capture_output=True, timeout=seconds)
    except OSError as error:
        raise Fault(f"{' '.join(words)} can't be run: {error.strerror}", hint) from None
    except subprocess.TimeoutExpired:
        raise Fault(f"{words[-1]} took more than {seconds:g} s") from None
    return done.returncode, done.stdout.decode("latin-1"), done.stderr.decode("latin-1")
