"""Runs of the engine. This is the only module that starts it."""

from __future__ import annotations

import os
import shlex
import shutil
from collections.abc import Iterable, Sequence
from dataclasses import dataclass, field
from functools import cached_property
from hashlib import sha256
from pathlib import Path

from plandesk.bad_input import bad_input
from plandesk.damage import damage_of
from plandesk.errors import BadInput, Fault, Usage
from plandesk.process import run_program
from plandesk.view import Groups

REVIEW = "review "
TOP = Path(__file__).resolve().parents[2]
"""The repository, where the package isn't installed."""
PROGRAM = TOP / "crates" / "baliseplan" / "out" / "baliseplan"
REFERENCE = TOP / "reference" / "baliseplan.py"
PYTHON = "/usr/bin/python3"


@dataclass(frozen=True)
class Reply:
    """The reply to one command, with the review lines of a turn."""

    text: str
    reviews: tuple[str, ...] = ()

    @property
    def refused(self) -> bool:
        return self.text.startswith("refused ")

    @property
    def number(self) -> int:
        """The serial that was done, undone, redone or struck; or the number of the refusal."""
        return int(self.text.split()[1])

    @property
    def depends(self) -> int | None:
        """The first later edit that depends on the one to strike, after a 26."""
        words = self.text.split()
        return int(words[3]) if words[:2] == ["refused", "26"] else None


@dataclass(frozen=True)
class Run:
    """What a run printed."""

    replies: tuple[Reply, ...]
    plan: str
    journal: str
    json: str = field(repr=False)

    @property
    def refused(self) -> bool:
        return any(reply.refused for reply in self.replies)

    @cached_property
    def groups(self) -> Groups:
        return Groups(self.json)


@dataclass(frozen=True)
class Engine:
    """A program with the interface of baliseplan."""

    words: tuple[str, ...]

    @property
    def name(self) -> str:
        return " ".join(self.words)

    @property
    def checksum(self) -> str:
        """The SHA-256 of the program. Empty where it can't be read, or has words of its own."""
        found = shutil.which(self.words[0]) if len(self.words) == 1 else None
        try:
            return sha256(Path(found).read_bytes()).hexdigest() if found else ""
        except OSError:
            return ""

    def run(
        self,
        base: str,
        journal: str = "",
        commands: Iterable[str] = (),
        *,
        view: bool = True,
        seconds: float | None = None,
        name: str = "the plan",
    ) -> Run:
        """Does the commands after the edits of the journal. BadInput, or Fault."""
        lines = list(commands)
        if any("\n" in command for command in lines):
            raise Usage("a command is one line")
        check_text(base, name)
        if journal:
            check_text(journal, "the journal")
        text = base + journal + "edits\n" + "".join(f"{command}\n" for command in lines)
        flags = ["--journal", "--json"] if view else ["--journal"]
        status, output, error = self.raw(text, flags, seconds)
        if status == 2:
            raise bad_input(self.words[-1], output, base, journal, name)
        if status not in (0, 1):
            raise Fault(f"{self.words[-1]} ended with status {status}: {error.strip() or 'no message'}")
        run = self._parts(output, len(lines), view)
        if run.refused != (status == 1):
            raise Fault(f"{self.name} ended with status {status}, which its replies don't go with")
        return run

    def _parts(self, output: str, commands: int, view: bool) -> Run:
        """The parts of an output. A program that isn't the engine is found here, or where its texts are compared."""
        try:
            run = split(output)
        except (ValueError, IndexError, KeyError):
            raise Fault(f"{self.name} isn't baliseplan: its output has no plan and journal") from None
        if len(run.replies) != commands:
            raise Fault(f"{self.name} answered {len(run.replies)} of {commands} commands")
        if view and len(run.groups) != run.plan.count("group\n"):
            raise Fault(f"{self.name} isn't baliseplan: its view hasn't the groups of its plan")
        return run

    def raw(self, text: str, flags: Sequence[str], seconds: float | None = None) -> tuple[int, str, str]:
        """Status, output and standard error of a run."""
        return run_program(self.words, flags, text, seconds, "set BALISEPLAN to the engine")


def check_text(text: str, what: str) -> None:
    """Refuses what would make another input of it, and what happened to a file on its way."""
    data = text.encode("latin-1")
    if "edits\n" in text and "edits" in text.split("\n"):
        raise BadInput(f"{what} has a line `edits`: commands are given apart")
    for damage in damage_of(data):
        if damage.kind in ("empty", "utf16", "mark", "returns", "cut"):
            raise BadInput(f"{what}: {damage.text}", "`plandesk verify` compares it without that")


def split(output: str) -> Run:
    """The parts of the output of a run with --journal and without --quiet."""
    begin = 0 if output.startswith("plan 1\n") else output.index("\nplan 1\n") + 1
    journal = output.index("\njournal ", begin) + 1
    view = output.find("\n{", journal) + 1 or len(output)
    replies: list[Reply] = []
    for line in output[:begin].splitlines():
        if line.startswith(REVIEW):
            replies[-1] = Reply(replies[-1].text, (*replies[-1].reviews, line.removeprefix(REVIEW)))
        else:
            replies.append(Reply(line))
    return Run(tuple(replies), output[begin:journal], output[journal:view], output[view:])


def find_engine() -> Engine:
    """What BALISEPLAN names, else baliseplan on the path, else the one that was built in the repository."""
    words = shlex.split(os.environ.get("BALISEPLAN", ""))
    if not words:
        found = shutil.which("baliseplan") or (str(PROGRAM) if PROGRAM.exists() else "")
        if not found:
            raise Fault("there is no engine: baliseplan isn't on the path", "set BALISEPLAN to the program")
        words = [found]
    return Engine(tuple(words))


def find_reference() -> Engine | None:
    """The reference program: what BALISEPLAN_REFERENCE names, else that of the repository."""
    words = shlex.split(os.environ.get("BALISEPLAN_REFERENCE", ""))
    if not words and REFERENCE.is_file():
        words = [str(REFERENCE)]
    if len(words) == 1 and words[0].endswith(".py"):
        if not Path(words[0]).is_file():
            return None
        words = [PYTHON if Path(PYTHON).exists() else "python3", "-B", words[0]]
    return Engine(tuple(words)) if words else None
