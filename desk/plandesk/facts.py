"""Runs of balisefacts: what depends on each edit, and where tags are. This is the only module that starts it.

docs/FORMATS.md has what it prints, in the section 'Facts'. It is taken line by line here, and no rule of it is known.
"""

from __future__ import annotations

import re
from collections.abc import Collection, Sequence
from dataclasses import dataclass, field
from functools import cached_property

from plandesk.errors import Fault
from plandesk.process import run_program
from plandesk.programs import find_program, hint_of

NAME = "balisefacts"
WHAT = "the program that says which edit depends on which, and where tags are"
FIRST_LINE = "facts 1"
SERIALS = ("edit", "dependent")
PACKET_TAG = re.compile(r"[bn](0|[1-9][0-9]*)")
TELEGRAM_TAG = re.compile(r"[0-7]")


@dataclass(frozen=True)
class EditFacts:
    """What an edit that stands changes and needs, by places, and the later edits that depend on it."""

    changes: list[str] = field(default_factory=list)
    needs: list[str] = field(default_factory=list)
    dependents: list[int] = field(default_factory=list)


Facts = dict[int, EditFacts]
"""The facts of the standing edits, by their serials."""


@dataclass(frozen=True)
class Shape:
    """The tags of a group's telegrams, in the order of N_PIG, each with those of its packets. Like groups share one."""

    telegrams: tuple[tuple[int, tuple[str, ...]], ...]

    @cached_property
    def pigs(self) -> dict[int, int]:
        return {telegram: pig for pig, (telegram, _) in enumerate(self.telegrams)}

    @cached_property
    def packets(self) -> dict[tuple[int, str], tuple[int, int]]:
        return {
            (telegram, tag): (pig, pkt)
            for pig, (telegram, tags) in enumerate(self.telegrams)
            for pkt, tag in enumerate(tags)
        }

    @cached_property
    def sizes(self) -> tuple[int, ...]:
        return tuple(len(tags) for _, tags in self.telegrams)

    @cached_property
    def lines(self) -> int:
        """How many lines it has in print."""
        return len(self.telegrams) + sum(self.sizes)


@dataclass(frozen=True)
class GroupTags:
    """A group of the plan: C.N, its tag, and those of its telegrams and packets."""

    name: str
    tag: str
    shape: Shape


@dataclass(frozen=True)
class FactProgram:
    """A program with the interface of balisefacts."""

    words: tuple[str, ...]

    @property
    def name(self) -> str:
        return " ".join(self.words)

    def edits(self, base: str, journal: str, standing: Sequence[int]) -> Facts:
        """The facts of the edits that stand after a journal, which have these serials."""
        output = self._run([], base, journal)
        try:
            facts = read_facts(output)
        except (ValueError, KeyError):
            raise self._no_format() from None
        if list(facts) != list(standing):
            raise self.other("it says that other edits stand")
        return facts

    def tags(self, base: str, journal: str, only: Collection[str] | None = None) -> list[GroupTags]:
        """The tags of the plan after a journal: those of all groups in its order, or of the ones with these identities."""
        output = self._run(["--tags"], base, journal)
        try:
            return read_tags(output, only)
        except ValueError:
            raise self._no_format() from None

    def _run(self, flags: Sequence[str], base: str, journal: str) -> str:
        status, output, error = run_program(self.words, flags, f"{base}{journal}edits\n", None, hint_of(NAME))
        if status != 0:
            raise Fault(f"{self.words[-1]} ended with status {status}: {(error or output).strip() or 'no message'}")
        return output

    def _no_format(self) -> Fault:
        return self.other("its output isn't as docs/FORMATS.md has it")

    def other(self, why: str) -> Fault:
        return Fault(f"{self.name} isn't the balisefacts of this engine: {why}", hint_of(NAME))


def read_facts(output: str) -> Facts:
    """The facts that were printed. ValueError or KeyError where these are none."""
    first, *lines = output.splitlines() or [""]
    if first != FIRST_LINE or not output.endswith("\n"):
        raise ValueError(first)
    facts: Facts = {}
    last = 0
    for line in lines:
        word, fact = line.split(" ")
        serial = int(fact) if word in SERIALS else 0
        if word == "edit":
            last = serial
            facts[serial] = EditFacts()
        elif word == "dependent":
            facts[last].dependents.append(serial)
        else:
            {"changes": facts[last].changes, "needs": facts[last].needs}[word].append(fact)
    for serial, each in facts.items():
        if not each.changes or any(later <= serial or later not in facts for later in each.dependents):
            raise ValueError(serial)
    return facts


def read_tags(output: str, only: Collection[str] | None = None) -> list[GroupTags]:
    """The tags that were printed, of all groups or of those with some identities. ValueError where these are none."""
    first, *texts = output.removesuffix("\n").split("\ngroup ")
    if first != FIRST_LINE or not output.endswith("\n"):
        raise ValueError(first[:60])
    seen: dict[str, Shape] = {}
    found = []
    for text in texts:
        name, _, rest = text.partition(" ")
        if only is None or name in only:
            tag, _, below = rest.partition("\n")
            found.append(GroupTags(name, tag, _shape(name, below, seen)))
    return found


def _shape(name: str, lines: str, seen: dict[str, Shape]) -> Shape:
    """The shape of a group with this name. Most are alike but for the name, and such lines are read once."""
    nameless = lines.replace(f" {name} ", " ")
    shape = seen.get(nameless)
    if shape is None:
        shape = seen[nameless] = _read_shape(nameless)
    if len(lines) - len(nameless) != shape.lines * (len(name) + 1):
        raise ValueError(name)
    return shape


def _read_shape(lines: str) -> Shape:
    telegrams: list[tuple[int, list[str]]] = []
    for line in lines.split("\n"):
        word, *places, tag = line.split(" ")
        if word == "telegram" and places == [str(len(telegrams))] and TELEGRAM_TAG.fullmatch(tag):
            telegrams.append((int(tag), []))
        elif word == "packet" and telegrams and PACKET_TAG.fullmatch(tag):
            packets = telegrams[-1][1]
            if places != [str(len(telegrams) - 1), str(len(packets))]:
                raise ValueError(line)
            packets.append(tag)
        else:
            raise ValueError(line)
    return Shape(tuple((telegram, tuple(packets)) for telegram, packets in telegrams))


def find_facts() -> FactProgram:
    """What BALISEFACTS names, else balisefacts beside the engine, on the path, or as it was built in the repository."""
    return FactProgram(find_program(NAME, WHAT))
