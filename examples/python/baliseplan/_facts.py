"""Facts of a session: what each edit that stands changes and needs, which later edits depend on it, and tags.

    first, *later = baliseplan.facts(plan, commands, journal)
    first.changes, first.dependents
    [tagged.tag for tagged in baliseplan.tags(plan)]

docs/FORMATS.md of the repository has places and tags.
"""

from __future__ import annotations

from dataclasses import dataclass

from ._library import call_facts
from ._texts import Lines, Text, session_of
from .errors import unless_bad, unless_fault

ALL_EDITS, ONE_EDIT, TAGS = 0, 1, 2
LARGEST = 2**32 - 1
"""The largest serial that the library takes."""

HEAD = "facts 1\n"


@dataclass(frozen=True)
class EditFacts:
    """What is told of an edit that stands: places that it changes, those that it needs beside, and the serials of the
    later edits that depend on it."""

    serial: int
    changes: list[str]
    needs: list[str]
    dependents: list[int]


@dataclass(frozen=True)
class Tagged:
    """A group by its identity, one of its telegrams by its place from 0, or a packet of that, with the tag."""

    identity: str
    telegram: int | None
    packet: int | None
    tag: str


def facts(
    plan: Text, commands: Lines = (), journal: Text | None = None, *, edit: int | None = None
) -> list[EditFacts]:
    """The facts of each edit that stands after the commands, or of the one that `edit` is the serial of, if it stands.

    What is given, and what is raised, is as for `run`.
    """
    what = ALL_EDITS if edit is None else ONE_EDIT
    lines = lines_of(session_of(plan, journal, commands), what, edit or 0)
    told: list[EditFacts] = []
    for line in lines:
        word, value = line.split(" ")
        if word == "edit":
            told.append(EditFacts(int(value), [], [], []))
        elif word == "dependent":
            told[-1].dependents.append(int(value))
        else:
            (told[-1].changes if word == "changes" else told[-1].needs).append(value)
    return told


def tags(plan: Text, commands: Lines = (), journal: Text | None = None) -> list[Tagged]:
    """The tags of the plan that is held after the commands, each group before its telegrams, each of these before its
    packets."""
    found = []
    for line in lines_of(session_of(plan, journal, commands), TAGS, 0):
        _, identity, *places, tag = line.split(" ")
        telegram, packet = [*map(int, places), None, None][:2]
        found.append(Tagged(identity, telegram, packet, tag))
    return found


def facts_bytes(data: bytes, what: int = ALL_EDITS, serial: int = 0) -> tuple[int, bytes]:
    """One run as the program `balisefacts` does it: the status, 0 to 2, and the output.

    Raises Fault, or ValueError for a number that asks for nothing, or for a serial below 0 or above 2^32 - 1.
    """
    if what not in (ALL_EDITS, ONE_EDIT, TAGS) or not 0 <= serial <= LARGEST:
        raise ValueError(f"{what} of {serial} are no facts")
    return unless_fault(*call_facts(data, what, serial))


def lines_of(data: bytes, what: int, serial: int) -> list[str]:
    """The lines after the head. Refusals come before it."""
    return unless_bad(*facts_bytes(data, what, serial)).partition(HEAD)[2].splitlines()
