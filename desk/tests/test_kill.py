"""Killed at any moment, a folder is as before or as after."""

from __future__ import annotations

import os
import random
import signal
import subprocess
import sys
import time
from pathlib import Path

from conftest import TOP, call, files
from plandesk.engine import Engine
from plandesk.folder import Folder

COUNT = int(os.environ.get("PLANDESK_KILLS", "60"))
"""Kills; the check gives fewer with --quick."""


def begin(line: Path) -> subprocess.Popen[bytes]:
    words = [sys.executable, "-B", "-m", "plandesk", "-C", str(line), "do", "turn 5.300", "set 5.200 1 0 V_TSR 0 6"]
    return subprocess.Popen(words, cwd=TOP / "desk", stdout=subprocess.DEVNULL, stderr=subprocess.DEVNULL)


def texts(line: Path) -> tuple[str, str, str]:
    with Folder(line).locked(alone=False):
        return files(line)


def test_kill_in_a_loop(line: Path, engine: Engine) -> None:
    """Most kills come near the end of the run, where it writes."""
    start = time.monotonic()
    assert begin(line).wait() == 0
    whole = time.monotonic() - start
    assert call("-C", line, "undo", "2").exit_code == 0
    chance = random.Random(61)
    ends = {"before": 0, "after": 0}
    base = (line / "base.plan").read_text()
    for _ in range(COUNT):
        before = texts(line)
        process = begin(line)
        time.sleep(whole * chance.triangular(0.1, 1.3, 0.9))
        process.send_signal(signal.SIGKILL)
        process.wait()
        journal, plan, reviews = texts(line)
        run = engine.run(base, journal)
        assert (run.plan, run.journal) == (plan, journal)
        if (journal, plan, reviews) == before:
            ends["before"] += 1
            continue
        ends["after"] += 1
        assert len(reviews.splitlines()) == len(before[2].splitlines()) + 6
        assert [entry.split(" ")[1] for entry in journal.splitlines()[-2:]] == ["turn", "set"]
    assert ends["before"] and ends["after"], ends
    assert call("-C", line, "verify", "--engine-only").exit_code == 0


STOP_INSIDE = """
import os, signal, sys
at, count = int(sys.argv.pop(1)), 0
def step(real):
    def run(*args, **kwargs):
        global count
        count += 1
        if count == at:
            os.kill(os.getpid(), signal.SIGKILL)
        return real(*args, **kwargs)
    return run
for name in ("write", "fsync", "replace", "unlink"):
    setattr(os, name, step(getattr(os, name)))
from plandesk.__main__ import main
main()
"""


def test_kill_before_each_call(line: Path) -> None:
    """The whole command, killed before each call that changes the disk."""
    seen = set()
    before = texts(line)
    for at in range(1, 40):
        words = [sys.executable, "-B", "-c", STOP_INSIDE, str(at), "-C", str(line), "do", "turn 5.300"]
        done = subprocess.run(words, cwd=TOP / "desk", capture_output=True)
        now = texts(line)
        assert (now == before) or now[0].endswith(" turn b2\n") and len(now[2].splitlines()) == 7, at
        seen.add(now == before)
        if now != before:
            assert call("-C", line, "verify", "--engine-only").exit_code == 0
            for name, text in zip(("journal", "line.plan", "reviews"), before, strict=True):
                (line / name).write_text(text)
        if done.returncode == 0:
            break
    assert seen == {True, False}
