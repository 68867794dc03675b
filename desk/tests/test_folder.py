"""Nothing is lost: each file is replaced whole, all files or none, by one writer at a time."""

from __future__ import annotations

import fcntl
import json
import os
import subprocess
import sys
from collections.abc import Callable
from pathlib import Path
from typing import Any

import pytest
from conftest import TOP, Desk, call, files
from plandesk.errors import Fault, Refusal
from plandesk.folder import FILES, Folder, write_file

OLD = {"journal": "old journal\n", "line.plan": "old plan\n"}
NEW = {"journal": "new journal\n", "line.plan": "new plan\n"}
CALLS = ("open", "write", "fsync", "replace", "unlink")


def folder_with(path: Path, texts: dict[str, str]) -> Folder:
    path.mkdir(exist_ok=True)
    folder = Folder(path)
    with folder.locked(alone=True):
        folder.write(texts)
    return folder


def texts(folder: Folder) -> dict[str, str]:
    with folder.locked(alone=False):
        return {name: folder.read(name) for name in OLD}


class Stopped(BaseException):
    """The machine stops here."""


class Steps:
    """Counts the calls that change a disk, and stops or fails at one of them; a write may end half way."""

    def __init__(self, at: int, how: Callable[[], BaseException], half: bool = False, stays: bool = True) -> None:
        self.at, self.how, self.half, self.stays, self.count = at, how, half, stays, 0

    def patch(self, patch: pytest.MonkeyPatch) -> None:
        for name in CALLS:
            patch.setattr(os, name, self.step(name, getattr(os, name)))

    def step(self, name: str, real: Any) -> Any:
        def run(*args: Any, **kwargs: Any) -> Any:
            if name == "open" and not args[1] & os.O_CREAT:
                return real(*args, **kwargs)
            self.count += 1
            if self.count == self.at or self.stays and self.count > self.at:
                if name == "write" and self.half:
                    real(args[0], bytes(args[1])[: len(args[1]) // 2])
                raise self.how()
            return real(*args, **kwargs)

        return run


@pytest.mark.parametrize("half", [False, True])
def test_a_stop_at_each_call_leaves_old_or_new(tmp_path: Path, monkeypatch: pytest.MonkeyPatch, half: bool) -> None:
    """Also where the next run stops while it ends the change."""
    seen = set()
    for at in range(1, 60):
        folder = folder_with(tmp_path / str(at), OLD)
        steps = Steps(at, Stopped, half)
        with monkeypatch.context() as patch:
            steps.patch(patch)
            try:
                with folder.locked(alone=True):
                    folder.write(NEW)
            except Stopped:
                pass
        for again in (1, 2, 3):
            with monkeypatch.context() as patch:
                Steps(again + 1, Stopped).patch(patch)  # the first call opens the lock
                try:
                    texts(folder)
                except Stopped:
                    pass
        found = texts(folder)
        assert found in (OLD, NEW)
        seen.add(found == NEW)
        assert not list(folder.private.glob("*.new")) or found == OLD
        if steps.count < at:
            assert found == NEW
            break
    assert seen == {True, False}


def full() -> OSError:
    return OSError(28, "No space left on device")


def test_a_full_disk_at_each_call(tmp_path: Path, monkeypatch: pytest.MonkeyPatch) -> None:
    for at in range(1, 60):
        folder = folder_with(tmp_path / str(at), OLD)
        steps = Steps(at, full, stays=False)
        said = ""
        with monkeypatch.context() as patch:
            steps.patch(patch)
            try:
                with folder.locked(alone=True):
                    folder.write(NEW)
            except Fault as fault:
                said = fault.message
        found = texts(folder)
        if "nothing was changed" in said or "can't be written" in said:
            assert found == OLD
        else:
            assert found == NEW, said
        if steps.count < at:
            break


def test_a_file_that_may_not_grow(week: Desk, line: Path) -> None:
    """A real limit, in a process of its own: files have at most 300 bytes."""
    before = files(line)
    code = "import resource, signal, sys; signal.signal(signal.SIGXFSZ, signal.SIG_IGN); " \
        "resource.setrlimit(resource.RLIMIT_FSIZE, (300, 300)); from plandesk.__main__ import main; main()"
    words = [sys.executable, "-B", "-c", code, "-C", str(line), "do", "turn 5.300"]
    done = subprocess.run(words, capture_output=True, text=True, cwd=TOP / "desk")
    assert done.returncode == 3, done.stderr
    assert "nothing was changed" in done.stderr
    assert files(line) == before


def test_a_change_that_was_begun_is_ended(tmp_path: Path) -> None:
    folder = folder_with(tmp_path / "a", OLD)
    for name, text in NEW.items():
        (folder.private / f"{name}.new").write_text(text)
    assert texts(folder) == OLD
    for name, text in NEW.items():
        (folder.private / f"{name}.new").write_text(text)
    (folder.private / "commit").write_text(json.dumps([*NEW, "../outside"]))
    assert texts(folder) == NEW
    assert sorted(path.name for path in folder.private.iterdir()) == ["lock"]


def test_a_commit_that_is_no_list(tmp_path: Path) -> None:
    folder = folder_with(tmp_path / "a", OLD)
    (folder.private / "commit").write_text("nonsense")
    with pytest.raises(Fault, match="can't be ended"):
        texts(folder)


def test_a_second_run_waits_and_says_who(tmp_path: Path, monkeypatch: pytest.MonkeyPatch) -> None:
    folder = folder_with(tmp_path / "a", OLD)
    monkeypatch.setenv("PLANDESK_WAIT", "0.2")
    with open(folder.private / "lock", "r+") as other:
        fcntl.flock(other, fcntl.LOCK_EX)
        for alone in (True, False):
            with pytest.raises(Refusal, match=rf"at work in .*process {os.getpid()} on"), folder.locked(alone=alone):
                pass
        fcntl.flock(other, fcntl.LOCK_SH)
        assert texts(folder) == OLD


def test_two_at_once(line: Path) -> None:
    """Both edits are there, whichever came first."""
    words = [sys.executable, "-B", "-m", "plandesk", "-C", str(line), "do"]
    both = [subprocess.Popen([*words, command], cwd=TOP / "desk", stdout=subprocess.DEVNULL)
            for command in ("set 5.200 1 0 V_TSR 0 6", "turn 5.300")]
    assert [each.wait() for each in both] == [0, 0]
    lines = sorted(text.split(" ", 1)[1] for text in (line / "journal").read_text().splitlines()[1:])
    assert lines == ["set b1/1/b0 V_TSR 0 6 8", "turn b2"]
    assert call("-C", line, "verify", "--engine-only").exit_code == 0


def test_a_folder_that_can_only_be_read(week: Desk, line: Path) -> None:
    for name in FILES:
        (line / name).chmod(0o444)
    assert week("status").exit_code == 0


def test_a_report_is_replaced_whole(tmp_path: Path, monkeypatch: pytest.MonkeyPatch) -> None:
    path = tmp_path / "report.html"
    path.write_text("old")
    monkeypatch.setattr(os, "fsync", lambda _: (_ for _ in ()).throw(full()))
    with pytest.raises(Fault, match="can't be written"):
        write_file(path, "new")
    assert [each.name for each in tmp_path.iterdir()] == ["report.html"]
    assert path.read_text() == "old"
