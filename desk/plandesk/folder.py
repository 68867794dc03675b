"""The files of a line, and a change of several files at once.

A change first writes NAME.new for each file, then `commit` with their names, and then renames. If the machine stops
before `commit` is there, the next command takes the .new files away. If it stops after that, it ends the change.
"""

from __future__ import annotations

import hashlib
import json
import os
from collections.abc import Iterator
from contextlib import contextmanager
from dataclasses import dataclass
from pathlib import Path

from plandesk import lock
from plandesk.errors import BadInput, Fault, Usage

BASE, JOURNAL, LINE, REVIEWS = "base.plan", "journal", "line.plan", "reviews"
FILES = (BASE, JOURNAL, LINE, REVIEWS)
PRIVATE, COMMIT, LOCK = ".plandesk", "commit", "lock"


def read_text(path: Path) -> str:
    """A file as the engine takes it: one character for each byte."""
    try:
        return path.read_bytes().decode("latin-1")
    except OSError as error:
        raise BadInput(f"{path} can't be read: {error.strerror}") from None


def checksum(text: str) -> str:
    return hashlib.sha256(text.encode("latin-1")).hexdigest()


@dataclass(frozen=True)
class Folder:
    path: Path

    @property
    def private(self) -> Path:
        return self.path / PRIVATE

    def read(self, name: str) -> str:
        return read_text(self.path / name)

    def has(self, name: str) -> bool:
        return (self.path / name).is_file()

    @contextmanager
    def locked(self, *, alone: bool) -> Iterator[None]:
        """Holds the lock: alone to write, with others to read. Ends an interrupted change first."""
        while True:
            if not alone and self._has_to_recover():
                with lock.held(self.private / LOCK, alone=True):
                    self._recover()
            with lock.held(self.private / LOCK, alone=alone):
                if alone:
                    self._recover()
                elif self._has_to_recover():
                    continue
                yield
                return

    def _has_to_recover(self) -> bool:
        return self._interrupted() and os.access(self.path, os.W_OK)

    def _interrupted(self) -> bool:
        return (self.private / COMMIT).exists() or any(self.private.glob("*.new"))

    def _recover(self) -> None:
        """Ends a change whose `commit` was written, and takes the rest of any other away."""
        if not self._interrupted():
            return
        try:
            self._end_change()
        except (OSError, ValueError) as error:
            raise Fault(f"{self.private}: an interrupted change can't be ended: {error}") from None

    def _end_change(self) -> None:
        commit = self.private / COMMIT
        if commit.exists():
            names: list[str] = json.loads(commit.read_text())
            for name in names:
                new = self.private / f"{name}.new"
                if name in FILES and new.exists():
                    os.replace(new, self.path / name)
            sync(self.path)
            os.unlink(commit)
            sync(self.private)
        for left in self.private.glob("*.new"):
            os.unlink(left)

    def write(self, texts: dict[str, str]) -> None:
        """Replaces all of these files, or none. The lock has to be held alone."""
        try:
            for name, text in texts.items():
                write_whole(self.private / f"{name}.new", text.encode("latin-1"))
            write_whole(self.private / f"{COMMIT}.new", json.dumps(list(texts)).encode())
            sync(self.private)
            os.replace(self.private / f"{COMMIT}.new", self.private / COMMIT)
        except OSError as error:
            self._drop(texts)
            raise Fault(f"{self.path}: {error.strerror}; nothing was changed") from None
        try:
            sync(self.private)
            self._end_change()
        except OSError as error:
            what = "the change is there, and the next command ends it"
            raise Fault(f"{self.path}: {error.strerror}; {what}") from None

    def _drop(self, texts: dict[str, str]) -> None:
        for name in [*texts, COMMIT]:
            try:
                os.unlink(self.private / f"{name}.new")
            except OSError:
                pass  # the next command does it


def write_whole(path: Path, data: bytes) -> None:
    """Writes a new file, and waits until the disk has it."""
    handle = os.open(path, os.O_WRONLY | os.O_CREAT | os.O_TRUNC | os.O_CLOEXEC, 0o666)
    try:
        done = 0
        while done < len(data):
            done += os.write(handle, data[done:])
        os.fsync(handle)
    finally:
        os.close(handle)


def sync(path: Path) -> None:
    handle = os.open(path, os.O_RDONLY)
    try:
        os.fsync(handle)
    finally:
        os.close(handle)


def write_file(path: Path, text: str) -> None:
    """Replaces one file that isn't the folder's, a report for example."""
    temporary = path.with_name(f".{path.name}.{os.getpid()}.new")
    try:
        write_whole(temporary, text.encode())
        os.replace(temporary, path)
    except OSError as error:
        temporary.unlink(missing_ok=True)
        raise Fault(f"{path} can't be written: {error.strerror}") from None


def find_folder(start: Path, given: bool) -> Folder:
    """The folder given, or the nearest one upwards from here, as git looks for its own."""
    for path in [start] if given else [start, *start.parents]:
        if (path / BASE).is_file() and (path / JOURNAL).is_file():
            return Folder(path)
        if (path / PRIVATE / COMMIT).is_file():
            return Folder(path)
    where = f"{start} has no" if given else "neither this folder nor one above it has a"
    raise Usage(f"{where} {BASE} and {JOURNAL}", "begin with `plandesk init PLAN` in the folder of the line")
