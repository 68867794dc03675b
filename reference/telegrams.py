"""A balise telegram in user bits (SUBSET-026, 8.4.2), and places in lists by tag."""

from collections.abc import Sequence
from dataclasses import dataclass, replace
from typing import Any, Protocol, TypeVar

from packets import END_OF_INFORMATION, Packet, bits_of, length_at, read_fields, read_packet
from refusals import Refusal, Refused

HEADER = "Q_UPDOWN M_VERSION Q_MEDIA N_PIG N_TOTAL M_DUP M_MCOUNT NID_C NID_BG Q_LINK".split()
"""The fields of the header in order (8.4.2)."""
FREE_IN_HEADER = ("M_DUP", "M_MCOUNT", "Q_LINK")
HEADER_BITS = 50
END_BITS = 8
LENGTHS = (210, 830)
START = "^"
END = "$"

Item = TypeVar("Item")


class Tagged(Protocol):
    """A packet, a telegram or a group, under the tag that it keeps."""

    @property
    def tag(self) -> Any: ...


def place_of(items: Sequence[Tagged], tag: Any, absent: Refusal) -> int:
    """Where the item with a tag is now, or a refusal."""
    for place, item in enumerate(items):
        if item.tag == tag:
            return place
    raise Refused(absent)


def place_after(items: Sequence[Tagged], anchor: str, absent: Refusal) -> int:
    """The place directly after an anchor, or a refusal."""
    return 0 if anchor == START else place_of(items, anchor, absent) + 1


def anchor_at(items: Sequence[Tagged], place: int) -> str:
    """The tag directly before a place, or the start."""
    return str(items[place - 1].tag) if place > 0 else START


def tag_at(items: Sequence[Tagged], place: int) -> str:
    """The tag at a place, or the end."""
    return str(items[place].tag) if place < len(items) else END


def with_item(items: tuple[Item, ...], place: int, item: Item) -> tuple[Item, ...]:
    """The items with another one at a place."""
    return (*items[:place], item, *items[place + 1 :])


def with_new(items: tuple[Item, ...], place: int, item: Item) -> tuple[Item, ...]:
    """The items with one more, put in at a place."""
    return (*items[:place], item, *items[place:])


def without_item(items: tuple[Item, ...], place: int) -> tuple[Item, ...]:
    """The items without the one at a place."""
    return (*items[:place], *items[place + 1 :])


@dataclass(frozen=True)
class Telegram:
    """The telegram of one balise, a value. Its tag is the N_PIG with which it came in."""

    tag: int
    header: dict[str, int]
    packets: tuple[Packet, ...]
    ground: str

    def front(self) -> str:
        """The bits of header, packets and packet 255."""
        header = "".join(bits_of(name, self.header[name]) for name in HEADER)
        return header + "".join(packet.bits() for packet in self.packets) + "1" * END_BITS

    def bits(self) -> str:
        """All bits: the front, and the ground from there on."""
        front = self.front()
        return front + self.ground[len(front) :]

    def room(self) -> int:
        return len(self.ground) - len(self.front())

    def with_packets(self, packets: tuple[Packet, ...]) -> "Telegram":
        return replace(self, packets=packets)

    def with_header(self, name: str, value: int) -> "Telegram":
        return replace(self, header=self.header | {name: value})


def read_telegram(bits: str, tag: int) -> Telegram:
    """A telegram from its bits, or its first refusal (8.4.2)."""
    if len(bits) not in LENGTHS:
        raise Refused(Refusal.BadLength)
    header = dict(read_fields(" ".join(HEADER), bits)[0])
    if header["Q_UPDOWN"] != 1 or header["Q_MEDIA"] != 0:
        raise Refused(Refusal.NotABalise)
    packets: list[Packet] = []
    place = HEADER_BITS
    while True:
        if len(bits) - place < END_BITS:
            raise Refused(Refusal.NoEnd)
        number = int(bits[place : place + 8], 2)
        if number == END_OF_INFORMATION:
            end = place + END_BITS
            return Telegram(tag, header, tuple(packets), "1" * end + bits[end:])
        if number == 0:
            raise Refused(Refusal.PacketZero)
        end = place + length_at(bits, place)
        packets.append(read_packet(bits[place:end], header["M_VERSION"], f"b{len(packets)}"))
        place = end
