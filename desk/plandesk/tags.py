"""Where each tag is today, as balisefacts says it.

A journal goes by tags, people by today's identities. What is said has to fit the plan and the journal: if it doesn't,
the program is another one than the engine's, or it is wrong.
"""

from __future__ import annotations

from collections.abc import Collection, Sequence
from dataclasses import dataclass, field
from functools import cached_property

from plandesk.engine import Run
from plandesk.facts import FactProgram, GroupTags, Shape
from plandesk.identities import Identities
from plandesk.journal import Entry, Journal, read_journal
from plandesk.view import Groups

PacketPath = tuple[str, int, str]
PacketPlace = tuple[int, int, int]
IN_GROUP = frozenset({"insert", "delete", "move", "turn"})
"""Edits after which the tags of a group may be others, or stand in another order."""


@dataclass(frozen=True)
class Tags:
    """Where each tag is today: the place of its group in the plan, PIG and PKT. Counted from 0."""

    groups: dict[str, int]
    shapes: dict[int, Shape] = field(repr=False)
    """By the place of the group."""

    @cached_property
    def group_at(self) -> dict[int, str]:
        return {place: tag for tag, place in self.groups.items()}

    def telegram(self, group: str, telegram: int) -> tuple[int, int] | None:
        at = self.groups.get(group)
        pig = None if at is None else self.shapes[at].pigs.get(telegram)
        return None if at is None or pig is None else (at, pig)

    def packet(self, path: PacketPath) -> PacketPlace | None:
        group, telegram, packet = path
        at = self.groups.get(group)
        place = None if at is None else self.shapes[at].packets.get((telegram, packet))
        return None if at is None or place is None else (at, *place)

    def path(self, place: PacketPlace) -> PacketPath:
        """The tags of a place."""
        at, pig, pkt = place
        telegram, packets = self.shapes[at].telegrams[pig]
        return self.group_at[at], telegram, packets[pkt]


def first_shape(sizes: Sequence[int]) -> Shape:
    """The tags of a group as it comes into the plan: they are the places (docs/FORMATS.md, Tags)."""
    return Shape(tuple((pig, tuple(f"b{pkt}" for pkt in range(size))) for pig, size in enumerate(sizes)))


def tags_of_base(groups: Groups) -> Tags:
    """The tags of a plan first read."""
    seen: dict[tuple[int, ...], Shape] = {}
    shapes = {}
    for at in range(len(groups)):
        sizes = groups.sizes(at)
        shapes[at] = seen.get(sizes) or seen.setdefault(sizes, first_shape(sizes))
    return Tags({f"b{at}": at for at in shapes}, shapes)


def tags_of(program: FactProgram, base: str, run: Run, only: Collection[str] | None = None) -> Tags:
    """The tags of the plan that a run printed with its view, or of the groups with some identities."""
    found = program.tags(base, run.journal, only)
    groups = run.groups
    names = groups.names if only is None else [name for name in groups.names if name in only]
    if [each.name for each in found] != names:
        raise program.other("the groups of its tags aren't those of the plan")
    fit = _Fit(Identities(base, read_journal(run.journal)))
    by_place = dict(zip(range(len(groups)) if only is None else map(groups.places.__getitem__, names), found, strict=True))
    for at, each in by_place.items():
        if not fit.fits(each, groups.sizes(at)):
            raise program.other(f"its tags of {each.name} don't fit the plan and the journal")
    return Tags({each.tag: at for at, each in by_place.items()}, {at: each.shape for at, each in by_place.items()})


class _Fit:
    """Whether tags fit a plan and its journal. Each tag is there that has to be; the order is the program's word."""

    def __init__(self, identities: Identities) -> None:
        self._identities = identities
        self._edits = _edits_in_groups(identities.journal)
        self._dropped = {entry.group for entry in identities.journal.standing if entry.kind == "drop"}
        self._first: dict[tuple[int, ...], Shape] = {}

    def fits(self, found: GroupTags, sizes: tuple[int, ...]) -> bool:
        """Whether a group of the plan with so many packets in its telegrams may have these tags."""
        if not self._is_group(found) or found.shape.sizes != sizes:
            return False
        edits = self._edits.get(found.tag)
        if edits is None:
            first = self._first.get(sizes) or self._first.setdefault(sizes, first_shape(sizes))
            return found.shape == first
        telegrams = [telegram for telegram, _ in found.shape.telegrams]
        rising = list(range(len(telegrams)))
        return telegrams in (rising, rising[::-1]) and all(
            sorted(packets) == sorted(_packets_due(edits, telegram, len(packets)))
            for telegram, packets in found.shape.telegrams
        )

    def _is_group(self, found: GroupTags) -> bool:
        """Whether the tag is that of a group that stands and has this identity."""
        kind, number = found.tag[:1], found.tag[1:]
        if kind not in ("b", "n") or not number.isdecimal() or str(int(number)) != number or found.tag in self._dropped:
            return False
        journal = self._identities.journal
        entry = journal.by_serial.get(int(number)) if kind == "n" else None
        if kind == "n" and (entry is None or entry.kind != "add" or entry.serial in journal.gone):
            return False
        try:
            return self._identities.last(found.tag) == found.name
        except IndexError:
            return False


def _edits_in_groups(journal: Journal) -> dict[str, list[Entry]]:
    found: dict[str, list[Entry]] = {}
    for entry in journal.standing:
        if entry.kind in IN_GROUP:
            found.setdefault(entry.group, []).append(entry)
    return found


def _packets_due(edits: Sequence[Entry], telegram: int, size: int) -> set[str]:
    """The tags of a telegram that has so many packets now: those that came with it, and what edits put in and took out."""
    here = [entry for entry in edits if entry.telegram == telegram]
    put_in = {entry.tag for entry in here if entry.kind == "insert"}
    taken_out = {entry.packet for entry in here if entry.kind == "delete"}
    came = size - len(put_in) + len(taken_out)
    return ({f"b{at}" for at in range(came)} | put_in) - taken_out
