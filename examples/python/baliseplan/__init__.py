"""Edits ETCS balise plans in this process, by the C library.

    import baliseplan

    result = baliseplan.run(plan, ["set 5.100 0 0 NID_TSR 0 9"])
    result.plan, result.journal, result.replies
    baliseplan.facts(plan, ["turn 5.100"])[0].dependents
    baliseplan.explain("packet 33 42403e00").items[0].packets

Texts are `str` with one character for each byte, or `bytes`.
"""

from __future__ import annotations

import functools
import json
from dataclasses import dataclass
from typing import Any

from ._facts import ALL_EDITS, ONE_EDIT, TAGS, EditFacts, Tagged, facts, facts_bytes, tags
from ._library import call, strerror, version
from ._replies import Reply, replies_of
from ._texts import Lines, Text, session_of
from .errors import BadInput, Error, Fault, unless_bad, unless_fault
from .fields import Digits, Field, Fields, Item, Refusal, explain, explain_bytes, spell, spell_bytes

__all__ = [
    "BadInput", "Error", "Fault", "Reply", "Result", "QUIET", "STOP", "JOURNAL", "JSON",
    "call", "run", "run_bytes", "strerror", "version",
    "ALL_EDITS", "ONE_EDIT", "TAGS", "EditFacts", "Tagged", "facts", "facts_bytes", "tags",
    "Digits", "Field", "Fields", "Item", "Refusal", "explain", "explain_bytes", "spell", "spell_bytes",
]

QUIET, STOP, JOURNAL, JSON = 1, 2, 4, 8
FLAGS = QUIET | STOP | JOURNAL | JSON


@dataclass(frozen=True)
class Result:
    """What a run printed. Plan and journal can be given to `run` again, the journal with the plan first read."""

    replies: list[Reply]
    plan: str
    journal: str
    view: str | None = None
    """The lines of the JSON view, where it was asked for."""

    @property
    def refused(self) -> bool:
        """Whether a command was refused."""
        return any(reply.refused for reply in self.replies)

    @functools.cached_property
    def groups(self) -> list[dict[str, Any]]:
        """The groups as the JSON view has them."""
        if self.view is None:
            raise ValueError("there is no view: call run(.., view=True)")
        return [json.loads(line) for line in self.view.splitlines()]


def run(
    plan: Text,
    commands: Lines = (),
    journal: Text | None = None,
    *,
    stop: bool = False,
    view: bool = False,
) -> Result:
    """Does the commands on the plan, after the edits of the journal; with `stop` none after the first refused one.

    Commands are a list, or a text with one a line. `view` asks for the groups as the JSON view has them, which takes
    longer than all else. Raises BadInput, Fault, or ValueError where a command of a list has two lines.
    """
    data = session_of(plan, journal, commands)
    flags = JOURNAL | (STOP if stop else 0) | (JSON if view else 0)
    return split(unless_bad(*run_bytes(data, flags)), view)


def run_bytes(data: bytes, flags: int = 0) -> tuple[int, bytes]:
    """One run as the program does it: the status, 0 to 2, and the output.

    Raises Fault, or ValueError for a bit that is no flag.
    """
    if not 0 <= flags <= FLAGS:
        raise ValueError(f"{flags} has a bit that is no flag")
    return unless_fault(*call(data, flags))


def split(output: str, view: bool) -> Result:
    """The parts of the output of a run with the journal and without QUIET."""
    plan = 0 if output.startswith("plan 1\n") else output.index("\nplan 1\n") + 1
    journal = output.index("\njournal ", plan) + 1
    groups = output.find("\n{", journal) + 1 or len(output)
    seen = output[groups:] if view else None
    return Result(replies_of(output[:plan]), output[plan:journal], output[journal:groups], seen)
