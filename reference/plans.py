"""Balise groups, the plan, and which group a link names (SUBSET-026, 3.4)."""

from collections.abc import Iterator
from dataclasses import dataclass, replace
from functools import cached_property

from packets import NO_GROUP, Packet
from refusals import Refusal, Refused
from telegrams import Telegram, with_item

MOST_TELEGRAMS = 8
AGREED = ("N_PIG", "N_TOTAL", "NID_C", "NID_BG")

Identity = tuple[int, int]
"""NID_C and NID_BG (3.4)."""


@dataclass(frozen=True)
class BaliseGroup:
    """A balise group, a value: one to eight telegrams, in the order of N_PIG (3.4.2)."""

    tag: str
    telegrams: tuple[Telegram, ...]

    @cached_property
    def identity(self) -> Identity:
        header = self.telegrams[0].header
        return header["NID_C"], header["NID_BG"]

    def packets(self) -> Iterator[tuple[int, int, Packet]]:
        """Each packet with its N_PIG and place."""
        for pig, telegram in enumerate(self.telegrams):
            for place, packet in enumerate(telegram.packets):
                yield pig, place, packet

    @cached_property
    def names(self) -> tuple[Identity, ...]:
        """The identities that its links and infill location references name (3.4)."""
        country = self.identity[0]
        found = (identities(packet, country) for _, _, packet in self.packets())
        return tuple(name for names in found for name in names)

    def with_telegram(self, pig: int, telegram: Telegram) -> "BaliseGroup":
        return replace(self, telegrams=with_item(self.telegrams, pig, telegram))


@dataclass(frozen=True)
class Plan:
    """The groups of a line, in order: a value, so an edit makes another plan."""

    groups: tuple[BaliseGroup, ...] = ()

    def has(self, identity: Identity) -> bool:
        return any(group.identity == identity for group in self.groups)

    def is_named(self, identity: Identity) -> bool:
        return any(identity in group.names for group in self.groups)

    def find(self, identity: Identity) -> BaliseGroup:
        """The group with an identity, or 14."""
        for group in self.groups:
            if group.identity == identity:
                return group
        raise Refused(Refusal.NoSuchGroup)

    def with_group(self, place: int, group: BaliseGroup) -> "Plan":
        return Plan(with_item(self.groups, place, group))


def named_by(packet: Packet, country: int) -> list[Identity]:
    """What the elements of packet 5 or 136 name, with the NID_C in force at each (3.4).

    16383 is in the list too, so that element k is the one of NID_BG k.
    """
    names: list[Identity] = []
    for variable, value in packet.fields:
        if variable == "NID_C":
            country = value
        elif variable == "NID_BG":
            names.append((country, value))
    return names


def identities(packet: Packet, country: int) -> list[Identity]:
    """The identities that a packet names; 16383 names nothing."""
    return [name for name in named_by(packet, country) if name[1] != NO_GROUP]


def make_group(tag: str, telegrams: tuple[Telegram, ...]) -> BaliseGroup:
    """A group of telegrams that agree (8.4.2, 3.4.2), or 10, 11 or 12."""
    if not 1 <= len(telegrams) <= MOST_TELEGRAMS:
        raise Refused(Refusal.GroupSize)
    group = BaliseGroup(tag, telegrams)
    for place, telegram in enumerate(telegrams):
        agreed = (place, len(telegrams) - 1, *group.identity)
        if tuple(telegram.header[name] for name in AGREED) != agreed:
            raise Refused(Refusal.HeaderDisagrees)
    if group.identity[1] == NO_GROUP:
        raise Refused(Refusal.NumberReserved)
    return group
