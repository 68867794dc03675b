"""Random plans by seed: groups, telegrams and packets."""

import random
from dataclasses import dataclass

from packets import NO_GROUP, PACKETS, WIDTHS, bits_of, read_packet, walk
from refusals import Refused
from telegrams import HEADER
from texts import digits_of_bits

COUNTRIES = (5, 6, 0, 1023)
OPAQUE = (1, 3, 27, 41, 42, 44, 68, 254)
LAYOUT_AND_OPAQUE = (5, 5, 5, 21, 27, 27, 41, 65, 66, 66, 136, 136, 0, 0)
VERSIONS = (16, 17, 32, 33, 33, 33, 47, 127)


@dataclass(frozen=True)
class Size:
    groups: int
    telegrams: int
    packets: int
    commands: int


SIZES = {"small": Size(4, 3, 4, 18), "medium": Size(12, 8, 8, 120)}


class PlanMaker:
    """Makes the plan of one seed."""

    def __init__(self, seed: int, size: Size) -> None:
        self.random = random.Random(seed)
        self.size = size
        self.countries = self.random.sample(COUNTRIES, self.random.choice((1, 1, 2, 2, 3)))
        self.numbers = [self.random.randrange(NO_GROUP) for _ in range(size.groups + 3)]

    def chance(self, percent: int) -> bool:
        return self.random.randrange(100) < percent

    def number(self) -> int:
        """An NID_BG: most are in use, some dangle, some name nothing."""
        return NO_GROUP if self.chance(4) else self.random.choice(self.numbers)

    def value(self, name: str) -> int:
        if name == "NID_C":
            return self.random.choice(self.countries)
        if name == "NID_BG":
            return self.number()
        if name == "N_ITER":
            return self.random.choice((0, 0, 1, 1, 2, 3, self.random.randrange(19)))
        if name == "Q_DIFF":
            return self.random.choice((0, 0, 1, 1, 2, 2, 2, 3)) if self.chance(5) else 0
        if name == "Q_NEWCOUNTRY":
            return int(self.chance(35))
        if name == "M_LEVELTR" and self.chance(40):
            return 1
        if name == "Q_DIR":
            return self.random.choice((0, 0, 0, 1, 1, 1, 2, 3))
        return self.random.choice((0, 1, self.random.randrange(1 << WIDTHS[name])))

    def bits(self, count: int) -> str:
        return "".join(self.random.choice("01") for _ in range(count))

    def packet(self, room: int) -> str | None:
        """The bits of a packet that fits into a room, or none."""
        number = self.random.choice(LAYOUT_AND_OPAQUE)
        body: list[str] = []

        def take(name: str) -> int:
            value = self.value(name)
            body.append(bits_of(name, value))
            return value

        try:
            if number == 0:
                number = self.random.choice(OPAQUE)
                body.append(self.bits(self.random.choice((0, 1, 8, 9, 30, 60))))
            else:
                walk(PACKETS[number], take)
        except Refused:
            return None
        return self.opened(number, "".join(body), room)

    def opened(self, number: int, body: str, room: int) -> str | None:
        if 23 + len(body) > room:
            return None
        opening = (("NID_PACKET", number), ("Q_DIR", self.value("Q_DIR")))
        bits = "".join(bits_of(*field) for field in opening)
        return bits + bits_of("L_PACKET", 23 + len(body)) + body

    def filling(self, room: int) -> str | None:
        """A packet that leaves no room: opaque, or many links."""
        if room >= 69 and self.chance(50):
            count = min(18, (room - 69) // 39)
            links = [bits_of("Q_SCALE", 1), self.link(), bits_of("N_ITER", count)]
            links += [self.link() for _ in range(count)]
            return self.opened(5, "".join(links), room)
        return self.opened(44, self.bits(room - 23), room) if room >= 23 else None

    def link(self) -> str:
        names = ("D_LINK", "NID_BG", "Q_LINKORIENTATION", "Q_LINKREACTION", "Q_LOCACC")
        fields = [bits_of(name, self.value(name)) for name in names]
        return "".join([fields[0], "0", *fields[1:]])

    def telegram(self, place: int, count: int, identity: tuple[int, int], few: bool) -> str:
        header = {name: self.value(name) for name in HEADER}
        header.update(Q_UPDOWN=1, Q_MEDIA=0, N_PIG=place, N_TOTAL=count - 1)
        header.update(NID_C=identity[0], NID_BG=identity[1])
        header["M_VERSION"] = self.random.choice(VERSIONS)
        bits = "".join(bits_of(name, header[name]) for name in HEADER)
        length = 830 if self.chance(35) else 210
        for _ in range(self.random.randint(0, 2 if few else self.size.packets)):
            packet = self.packet(length - 8 - len(bits))
            if packet and self.is_read(packet, header["M_VERSION"]):
                bits += packet
        if self.chance(12):
            bits += self.filling(length - 8 - len(bits)) or ""
        bits += "1" * 8
        left = length - len(bits)
        return bits + self.random.choice(("1" * left, "1" * left, "0" * left, self.bits(left)))

    @staticmethod
    def is_read(packet: str, version: int) -> bool:
        try:
            read_packet(packet, version, "b0")
        except Refused:
            return False
        return True

    def group(self, identity: tuple[int, int]) -> list[str]:
        count = self.random.choice((1, 1, 1, 2, 2, 3, 8 if self.chance(20) else 2))
        count = min(count, 8 if self.chance(30) else self.size.telegrams)
        few = count > 3
        return [
            digits_of_bits(self.telegram(place, count, identity, few)) for place in range(count)
        ]

    def identity(self) -> tuple[int, int]:
        return self.random.choice(self.countries), self.random.choice(self.numbers)

    def plan(self) -> list[str]:
        lines = ["plan 1"]
        seen: set[tuple[int, int]] = set()
        for _ in range(self.random.randint(0 if self.chance(10) else 1, self.size.groups)):
            identity = self.identity()
            if identity not in seen or self.chance(2):
                lines += ["group", *self.group(identity)]
            seen.add(identity)
        return lines
