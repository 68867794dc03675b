"""One writer at a time, or several readers: a lock over the folder, and who holds it."""

from __future__ import annotations

import fcntl
import os
import socket
import sys
import time
from collections.abc import Iterator
from contextlib import contextmanager
from pathlib import Path

from plandesk.errors import Fault, Refusal

STEP = 0.05
SAY_AFTER = 1.0


def patience() -> float:
    """For how many seconds a run waits for another one: PLANDESK_WAIT, else 10."""
    try:
        return max(0.0, float(os.environ.get("PLANDESK_WAIT", "10")))
    except ValueError:
        return 10.0


@contextmanager
def held(path: Path, *, alone: bool) -> Iterator[None]:
    """Holds the lock. The system drops it when the process ends, however it ends."""
    handle = _opened(path, alone)
    if handle is None:
        yield
        return
    try:
        _wait(handle, path, alone)
        if alone:
            _sign(handle)
        yield
    finally:
        os.close(handle)


def _opened(path: Path, alone: bool) -> int | None:
    """The file of the lock. None for a folder that can only be read: nobody changes it from here."""
    try:
        path.parent.mkdir(exist_ok=True)
        return os.open(path, os.O_RDWR | os.O_CREAT | os.O_CLOEXEC, 0o666)
    except OSError as error:
        if not alone:
            return None
        raise Fault(f"{path.parent.parent} can't be written: {error.strerror}") from None


def _wait(handle: int, path: Path, alone: bool) -> None:
    start, said = time.monotonic(), False
    while True:
        try:
            fcntl.flock(handle, (fcntl.LOCK_EX if alone else fcntl.LOCK_SH) | fcntl.LOCK_NB)
            return
        except BlockingIOError:
            waited = time.monotonic() - start
        if waited >= patience():
            folder = path.parent.parent
            raise Refusal(f"another plandesk is at work in {folder}{_holder(path)}", "wait for it to end")
        if waited >= SAY_AFTER and not said:
            print(f"plandesk: waits for another one{_holder(path)}", file=sys.stderr)
            said = True
        time.sleep(STEP)


def _sign(handle: int) -> None:
    """Notes who holds the lock. A disk that is full keeps nobody from working."""
    words = " ".join(["plandesk", *sys.argv[1:3]])
    text = f"{words}, process {os.getpid()} on {socket.gethostname()} since {time.strftime('%H:%M:%S')}\n"
    try:
        os.ftruncate(handle, 0)
        os.pwrite(handle, text.encode("utf-8", "replace"), 0)
    except OSError:
        pass


def _holder(path: Path) -> str:
    try:
        text = path.read_text("utf-8", "replace").strip()
    except OSError:
        return ""
    return f": {text}" if text else ""
