#!/usr/bin/env python3
"""Random telegrams and packets by seed, as digits: sound ones, and ones that are damaged.

usage: random_fields.py SEED [--damaged] [--spell]

Prints the lines of the item of a seed: digits, or fields with --spell.
"""

import argparse
import random
import sys
from dataclasses import dataclass

from packets import END_OF_INFORMATION, ONLY_IN_VERSION_2, OPENING_BITS, PACKETS, WIDTHS
from packets import bits_of, body_of, walk
from random_spelling import FieldsMaker
from telegrams import END_BITS, HEADER, LENGTHS
from texts import digits_of_bits

VERSIONS = (16, 32, 32, 33, 33, 33)
OTHER_VERSIONS = (127, 128, 160, 161, 255, 256, 288, 65568, 4294967295)
"""Numbers at the edges of what a version by itself may be; the seven bits of M_VERSION hold the first."""
LONGEST_PACKET = (1 << WIDTHS["L_PACKET"]) - 1
NO_DIGITS = "gGxZ -.\r\t\0\x7f\xe9\xff"
OTHER_LINES = ("", "edits", "group ", "plan 2", "journal 2 1", "packet", "packet 33", "telegram 8")
OTHER_PACKETS = ("packet 4294967296 {}", "packet 033 {}", "packet  33 {}", "packet 33 {} ", "packet -1 {}")

Piece = tuple[str, str]
"""A variable and its bits, or bits without a name."""


@dataclass(frozen=True)
class Item:
    """The lines of an item, or of a plan of some, and whether nothing in them is damaged."""

    lines: tuple[str, ...]
    sound: bool


def bits_of_pieces(pieces: list[Piece]) -> str:
    return "".join(bits for _, bits in pieces)


class DigitsMaker:
    """Makes the item of one seed."""

    def __init__(self, seed: int) -> None:
        self.random = random.Random(seed)

    def chance(self, percent: int) -> bool:
        return self.random.randrange(100) < percent

    def version(self) -> int:
        return self.random.choice(VERSIONS) if self.chance(85) else self.random.randrange(128)

    def bits(self, count: int) -> str:
        return format(self.random.getrandbits(count), f"0{count}b") if count else ""

    def value(self, name: str, most_parts: int) -> int:
        greatest = (1 << WIDTHS[name]) - 1
        if name == "N_ITER":
            return min(self.random.choice((0, 1, 2, 31, self.random.randrange(32))), most_parts)
        if name == "Q_DIFF":
            return self.random.randrange(3)
        if name == "M_LEVELTR" and self.chance(40):
            return 1
        return self.random.choice((0, 1, greatest, *[self.random.randint(0, greatest)] * 3))

    def pieces_of(self, layout: str, most_parts: int) -> list[Piece]:
        """Random fields of a layout."""
        pieces: list[Piece] = []

        def take(name: str) -> int:
            value = self.value(name, most_parts)
            pieces.append((name, bits_of(name, value)))
            return value

        walk(layout, take)
        return pieces

    def packet(self, version: int, room: int) -> list[Piece]:
        """A packet that fits into a room of 23 bits at least: known, or any other."""
        known = self.chance(75)
        number = self.random.choice([*PACKETS] if known else range(1, END_OF_INFORMATION))
        layout = body_of(number, version)
        body: list[Piece] = []
        if layout is not None:
            for most_parts in (31, 12, 4, 1, 0):
                body = self.pieces_of(layout, most_parts)
                if OPENING_BITS + len(bits_of_pieces(body)) <= room:
                    break
            else:
                number, layout = self.random.choice((1, 44, 254)), None
        if layout is None:
            most = room - OPENING_BITS
            count = self.random.choice((0, 1, 3, 8, 30, 100, most, self.random.randint(0, most)))
            body = [("", self.bits(min(count, most)))]
        length = OPENING_BITS + len(bits_of_pieces(body))
        opening = {"NID_PACKET": number, "Q_DIR": self.random.randrange(4), "L_PACKET": length}
        return [*((name, bits_of(name, value)) for name, value in opening.items()), *body]

    def telegram(self) -> list[Piece]:
        """A sound telegram, with as many packets as chance and its length allow."""
        length = self.random.choice(LENGTHS)
        version = self.version()
        given = {"Q_UPDOWN": 1, "M_VERSION": version, "Q_MEDIA": 0}
        pieces = [(name, bits_of(name, given.get(name, self.value(name, 0)))) for name in HEADER]
        for _ in range(self.random.choice((0, 1, 2, 3, 5, 8, 30))):
            room = length - END_BITS - len(bits_of_pieces(pieces))
            if room >= OPENING_BITS:
                pieces += self.packet(version, room)
        pieces.append(("end", "1" * END_BITS))
        left = length - len(bits_of_pieces(pieces))
        padding = self.random.choice(("1" * left, "1" * left, "0" * left, self.bits(left)))
        return [*pieces, ("padding", padding)]

    def packet_alone(self) -> tuple[int, list[Piece]]:
        version = self.random.choice(OTHER_VERSIONS) if self.chance(5) else self.version()
        room = LONGEST_PACKET if self.chance(12) else self.random.choice((100, 400, 1000))
        return version, self.packet(version, room)

    def line(self, damaged: bool) -> str:
        """A line of digits: most are telegrams."""
        if self.chance(70):
            pieces, start = self.telegram(), ""
        else:
            version, pieces = self.packet_alone()
            start = f"packet {version} "
        if damaged and self.chance(60):
            pieces = self.damaged_pieces(pieces)
            damaged = self.chance(15)
        digits = digits_of_bits(bits_of_pieces(pieces))
        if damaged:
            return self.damaged_line(start, digits)
        return start + (digits.upper() if self.chance(5) else digits)

    def damaged_pieces(self, pieces: list[Piece]) -> list[Piece]:
        """The pieces with a value that doesn't fit the others, or without some bits."""
        names = [name for name, _ in pieces]
        values = {
            "L_PACKET": (self.random.randrange(24), self.random.randrange(1 << 13)),
            "NID_PACKET": (0, 0, 255, self.random.randrange(256), *ONLY_IN_VERSION_2),
            "Q_DIFF": (3, 3, self.random.randrange(4)),
            "Q_UPDOWN": (0,),
            "Q_MEDIA": (1,),
            "N_ITER": (self.random.randrange(32),),
            "M_LEVELTR": (1, self.random.randrange(8)),
            "Q_NEWCOUNTRY": (0, 1),
            "M_VERSION": (16, 32, self.random.randrange(128)),
        }
        if "end" in names and self.chance(20):
            return self.without_end(pieces)
        wanted = self.random.choice(("Q_DIFF", "L_PACKET", "L_PACKET", "NID_PACKET", *values))
        where = [place for place, name in enumerate(names) if name == wanted]
        where = where or [place for place, name in enumerate(names) if name in values]
        place = self.random.choice(where)
        name, bits = pieces[place]
        value = self.random.choice(values[name])
        if name == "L_PACKET" and self.chance(50):
            value = (int(bits, 2) + self.random.choice((-8, -1, 1, 2, 8, 40))) % (1 << 13)
        return [*pieces[:place], (name, bits_of(name, value)), *pieces[place + 1 :]]

    def without_end(self, pieces: list[Piece]) -> list[Piece]:
        """The pieces of a telegram, in which packet 255 gives way to other bits."""
        (_, end), (_, padding) = pieces[-2:]
        left = len(end + padding)
        count = left - self.random.randrange(24)
        if count >= OPENING_BITS:
            opening = bits_of("NID_PACKET", 44) + "01" + bits_of("L_PACKET", count)
            return [*pieces[:-2], ("", opening.ljust(count, "1")), ("", self.bits(left - count))]
        return [*pieces[:-2], ("", self.bits(left))]

    def damaged_line(self, start: str, digits: str) -> str:
        """A line of digits in which digits are wrong, or which is another line."""
        place = self.random.randrange(len(digits))
        roll = self.random.randrange(8)
        if roll == 0:
            turned = format(int(digits[place], 16) ^ self.random.choice((1, 2, 4, 8)), "x")
            digits = digits[:place] + turned + digits[place + 1 :]
        elif roll == 1:
            count = self.random.choice((1, 2, 4, place))
            digits = digits[:-count] if self.chance(70) and count else digits[count:]
        elif roll == 2:
            digits += self.random.choice(("0", "00", "ff", "1", digits[:20]))
        elif roll <= 4:
            wrong = self.random.choice(NO_DIGITS)
            digits = digits[:place] + wrong + digits[place + self.random.randrange(2) :]
        elif roll <= 6:
            digits = digits[:-1] + format(int(digits[-1], 16) | self.random.choice((1, 2, 3)), "x")
        elif start:
            return self.random.choice(OTHER_PACKETS).format(digits)
        else:
            return self.random.choice(OTHER_LINES)
        return start + digits


def make_digits(seed: int, damaged: bool = False) -> Item:
    """The item of a seed: a line of digits, or a plan."""
    maker = DigitsMaker(seed)
    if not maker.chance(4):
        return Item((maker.line(damaged),), not damaged)
    lines = ["plan 1"]
    for _ in range(maker.random.randrange(4)):
        lines += ["group", *(maker.line(damaged and maker.chance(20)) for _ in range(2))]
    return Item(tuple(lines), not damaged)


def make_fields(seed: int, damaged: bool = False) -> Item:
    """An item as fields: a sound one of digits, given with liberties, and perhaps damaged."""
    maker = FieldsMaker(seed)
    return Item(maker.item(make_digits(seed).lines, damaged), not damaged)


def main() -> None:
    parser = argparse.ArgumentParser(description="Prints the random item of a seed.")
    parser.add_argument("seed", type=int)
    parser.add_argument("--damaged", action="store_true")
    parser.add_argument("--spell", action="store_true", help="an item as fields")
    asked = parser.parse_args()
    item = (make_fields if asked.spell else make_digits)(asked.seed, asked.damaged)
    sys.stdout.write("".join(line + "\n" for line in item.lines))


if __name__ == "__main__":
    main()
