"""The JSON view of a plan as values, and the bits of its telegrams. Nothing here changes a plan."""

from __future__ import annotations

import json
import re
from collections.abc import Container, Iterator, Sequence
from dataclasses import dataclass
from functools import cached_property
from typing import Any, NamedTuple, overload

from plandesk.vocabulary import metres_of_step

HEADER_BITS = 50
NO_GROUP = 16383
HEADER = ("M_VERSION", "M_DUP", "M_MCOUNT", "Q_LINK")
IDENTITY = re.compile(r'\{"country":(\d+),"number":(\d+),')
NAMES_A_GROUP = '["NID_BG",'
KEPT = '"known":false'
PACKETS, PACKET = '"packets":', '"known":'
"""What each telegram has once in a view, and each packet."""


class Field(NamedTuple):
    """A variable of a packet: K says which of its occurrences."""

    name: str
    k: int
    value: int


class Packet:
    """A packet; its fields are read when they are asked for."""

    def __init__(self, data: dict[str, Any]) -> None:
        self._pairs: list[tuple[str, int]] = data["fields"]
        self.known: bool = data["known"]

    @cached_property
    def fields(self) -> tuple[Field, ...]:
        seen: dict[str, int] = {}
        fields = []
        for name, value in self._pairs:
            k = seen[name] = seen.get(name, -1) + 1
            fields.append(Field(name, k, value))
        return tuple(fields)

    @property
    def number(self) -> int:
        return self._pairs[0][1]

    @property
    def direction(self) -> int:
        return self._pairs[1][1]

    @property
    def bits(self) -> int:
        return self._pairs[2][1]

    @cached_property
    def by_name(self) -> dict[tuple[str, int], int]:
        return {(field.name, field.k): field.value for field in self.fields}

    def value(self, name: str, k: int = 0) -> int | None:
        return self.by_name.get((name, k))

    @property
    def scale(self) -> int | None:
        return self.value("Q_SCALE")


class Telegram:
    def __init__(self, data: dict[str, Any]) -> None:
        self._data = data
        self.bits: int = data["bits"]
        self.used: int = data["used"]
        self.packets = tuple(Packet(each) for each in data["packets"])

    @property
    def header(self) -> tuple[tuple[str, int], ...]:
        return tuple((name, int(self._data[name.lower()])) for name in HEADER)

    def starts(self) -> list[int]:
        """Where each packet begins, and at last where packet 255 does."""
        places = [HEADER_BITS]
        for packet in self.packets:
            places.append(places[-1] + packet.bits)
        return places


class Group:
    def __init__(self, data: dict[str, Any]) -> None:
        self._telegrams: list[dict[str, Any]] = data["telegrams"]
        self.country: int = data["country"]
        self.number: int = data["number"]
        self.name = f"{self.country}.{self.number}"

    @cached_property
    def telegrams(self) -> tuple[Telegram, ...]:
        return tuple(Telegram(each) for each in self._telegrams)


@dataclass(frozen=True)
class Link:
    """A link or infill reference that names a group. `metres` counts from the group of the link."""

    source: str
    pig: int
    pkt: int
    k: int
    target: str
    infill: bool
    nominal: bool | None
    direction: int
    metres: float | None
    missing: bool


class Groups(Sequence[Group]):
    """The groups of a view. A group is decoded when it is asked for; identities come from the texts alone."""

    def __init__(self, text: str) -> None:
        self.lines = text.splitlines()
        self._made: dict[int, Group] = {}

    def __len__(self) -> int:
        return len(self.lines)

    @overload
    def __getitem__(self, at: int) -> Group: ...

    @overload
    def __getitem__(self, at: slice) -> Sequence[Group]: ...

    def __getitem__(self, at: int | slice) -> Group | Sequence[Group]:
        if isinstance(at, slice):
            return [self[i] for i in range(*at.indices(len(self)))]
        made = self._made.get(at)
        if made is None:
            made = self._made[at] = Group(json.loads(self.lines[at]))
        return made

    @cached_property
    def names(self) -> list[str]:
        """The identities C.N, in the order of the plan."""
        return [self._name(line) for line in self.lines]

    @staticmethod
    def _name(line: str) -> str:
        found = IDENTITY.match(line)
        if found is None:
            raise ValueError(line[:60])
        return f"{found[1]}.{found[2]}"

    def sizes(self, at: int) -> tuple[int, ...]:
        """How many packets each telegram of a group has, by the text alone."""
        return tuple(telegram.count(PACKET) for telegram in self.lines[at].split(PACKETS)[1:])

    @cached_property
    def places(self) -> dict[str, int]:
        """The place of each identity."""
        return {name: at for at, name in enumerate(self.names)}

    def named(self, name: str) -> Group | None:
        at = self.places.get(name)
        return None if at is None else self[at]


def links_of(groups: Groups) -> Iterator[Link]:
    """All links of the plan, in its order. A link without NID_C has the country of the link before it."""
    for at, line in enumerate(groups.lines):
        if NAMES_A_GROUP not in line:
            continue
        group = groups[at]
        for pig, telegram in enumerate(group.telegrams):
            for pkt, packet in enumerate(telegram.packets):
                if packet.known and packet.number in (5, 136):
                    yield from packet_links(group, pig, pkt, groups.places)


def packet_links(group: Group, pig: int, pkt: int, here: Container[str]) -> Iterator[Link]:
    """The links of one packet 5 or 136. `here` has the identities of the plan."""
    packet = group.telegrams[pig].packets[pkt]
    country, total = group.country, 0
    step = metres_of_step(packet.scale)
    for field in packet.fields:
        if field.name == "D_LINK":
            total += field.value
        elif field.name == "NID_C":
            country = field.value
        elif field.name == "NID_BG" and field.value != NO_GROUP:
            target = f"{country}.{field.value}"
            orientation = packet.value("Q_LINKORIENTATION", field.k)
            infill = packet.number == 136
            metres = None if step is None or infill else float(total * step)
            nominal = None if orientation is None else orientation == 1
            missing = target not in here
            yield Link(group.name, pig, pkt, field.k, target, infill, nominal, packet.direction, metres, missing)


def kept_packets(groups: Groups) -> Iterator[tuple[str, Packet]]:
    """The packets that the engine doesn't know, with their places in the words of a command."""
    for at, line in enumerate(groups.lines):
        if KEPT not in line:
            continue
        for pig, telegram in enumerate(groups[at].telegrams):
            for pkt, packet in enumerate(telegram.packets):
                if not packet.known:
                    yield f"{groups[at].name} {pig} {pkt}", packet


def telegrams_of(plan: str) -> tuple[tuple[str, ...], ...]:
    """The digits of each group's telegrams, as the plan has them."""
    groups: list[list[str]] = []
    for line in plan.splitlines()[1:]:
        if line == "group":
            groups.append([])
        else:
            groups[-1].append(line)
    return tuple(tuple(group) for group in groups)


def identity_of(digits: str) -> tuple[int, int]:
    """NID_C and NID_BG of a telegram: its bits 25 to 48."""
    bits = int(digits[6:13], 16)
    return bits >> 17 & 1023, bits >> 3 & 16383


def bits_of(digits: str, length: int) -> str:
    return "".join(f"{int(digit, 16):04b}" for digit in digits)[:length]


def digits_of(bits: str) -> str:
    """Bits in digits; zeros fill the last byte, as in `insert`."""
    whole = bits + "0" * (-len(bits) % 8)
    return f"{int(whole, 2):0{len(whole) // 4}x}"
