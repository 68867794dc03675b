"""Fields to digits: items of fields, as they are printed or with liberties, judged step by step.

The first step in which something is wrong decides: the forms of all lines, their digits, their
names; the header; each packet, its fields and then its length; the end, and the telegram.
"""

import re
from collections.abc import Iterator
from dataclasses import dataclass, field

from fields import LINES_OF_A_PLAN, OF_A_BALISE
from packets import END_OF_INFORMATION, OPENING_BITS, WIDTHS, bits_of, body_of, walk
from refusals import Refused
from run import Lines
from telegrams import END_BITS, HEADER, LENGTHS
from texts import digits_of_bits, number, words_of

GREATEST_LENGTH = (1 << WIDTHS["L_PACKET"]) - 1
WORDS_OF_ITEMS = ("telegram", "packet", "rest", "end", "padding", "fault", "plan", "group")
"""The words that begin a line which is no field."""
AFTER: dict[str, dict[str, str]] = {
    "nothing": {"telegram": "header", "alone": "alone"},
    "header": {"field": "header", "packet": "packet", "end": "end"},
    "packet": {"field": "packet", "rest": "rest", "packet": "packet", "end": "end"},
    "rest": {"packet": "packet", "end": "end"},
    "end": {"padding": "padding"},
    "padding": {},
    "alone": {"field": "alone", "rest": "rest alone"},
    "rest alone": {},
}
"""Which kinds of lines may follow in each place of an item, and to which place they lead."""


class Bad(Exception):
    """An item is refused: the line that stands in its place."""

    def __init__(self, line: int, name: str, due: str | int = "") -> None:
        super().__init__(f"bad {line} {name} {due}".rstrip())
        self.name = name


@dataclass(frozen=True)
class Line:
    """A line of an item: what it is, and its name, number and digits, as far as it has them."""

    at: int
    kind: str
    name: str = ""
    value: int = 0
    digits: str = ""

    def bits(self) -> str:
        """The bits that its digits show, or BadHex."""
        digits = self.digits
        if re.fullmatch("[0-9a-fA-F]*", digits) and len(digits) == (self.value + 3) // 4:
            bits = "".join(format(int(digit, 16), "04b") for digit in digits)
            if "1" not in bits[self.value :]:
                return bits[: self.value]
        raise Bad(self.at, "BadHex")


def read_line(at: int, text: str) -> Line:
    """A line by its form, or 1."""
    match words_of(text):
        case ["telegram", length] if length in map(str, LENGTHS):
            return Line(at, "telegram", value=int(length))
        case ["packet"]:
            return Line(at, "packet")
        case ["packet", version]:
            return Line(at, "alone", value=number(version))
        case ["end"]:
            return Line(at, "end")
        case [("rest" | "padding") as kind, length, digits]:
            return Line(at, kind, value=number(length), digits=digits)
        case [first, *_] if first in WORDS_OF_ITEMS:
            raise Bad(at, "BadLine")
        case [name, value]:
            return Line(at, "field", name, number(value))
        case [name, occurrence, value]:
            number(occurrence)
            return Line(at, "field", name, number(value))
        case [place, width, name, occurrence, value]:
            for word in (place, width, occurrence):
                number(word)
            return Line(at, "field", name, number(value))
    raise Bad(at, "BadLine")


def read_lines(start: int, texts: list[str]) -> list[Line]:
    """The lines of an item, each in a place where it is allowed, or BadLine."""
    lines, place = [], "nothing"
    for at, text in enumerate(texts, start):
        try:
            line = read_line(at, text)
        except Refused:
            raise Bad(at, "BadLine") from None
        if line.kind not in AFTER[place]:
            raise Bad(at, "BadLine")
        place = AFTER[place][line.kind]
        lines.append(line)
    return lines


@dataclass
class Section:
    """A header or a packet as it is given: its first line, its fields and what is left of it."""

    head: Line
    fields: list[Line] = field(default_factory=list)
    rest: Line | None = None
    values: dict[str, int] = field(default_factory=dict)
    """What was given last for each variable."""
    bits: str = ""
    """The fields that were taken, but for L_PACKET."""
    taken: int = 0

    def next_is(self, name: str) -> bool:
        return self.taken < len(self.fields) and self.fields[self.taken].name == name

    def take(self, name: str) -> int:
        """Takes the next field, which has to be of a variable."""
        if self.taken == len(self.fields):
            raise Bad(self.head.at + 1 + self.taken, "Missing", name)
        line = self.fields[self.taken]
        if line.name != name:
            raise Bad(line.at, "NotDue", name)
        # L_PACKET is compared with the length, whatever it is.
        if line.value >= 1 << WIDTHS[name] and name != "L_PACKET":
            raise Bad(line.at, "TooWide")
        if (name, line.value) == ("Q_DIFF", 3):
            raise Bad(line.at, "Spare")
        if name == "NID_PACKET" and line.value in (0, END_OF_INFORMATION):
            raise Bad(line.at, "NoFields")
        self.values[name] = line.value
        self.taken += 1
        if name != "L_PACKET":
            self.bits += bits_of(name, line.value)
        return line.value

    def take_header(self) -> None:
        for name in HEADER:
            self.take(name)
        self.check_end()

    def take_packet(self, version: int) -> None:
        nid_packet = self.take("NID_PACKET")
        self.take("Q_DIR")
        if self.next_is("L_PACKET"):
            self.take("L_PACKET")
        layout = body_of(nid_packet, version)
        walk(layout or "", self.take)
        self.check_end()
        self.check_length(known=layout is not None)

    def check_end(self) -> None:
        if self.taken < len(self.fields):
            raise Bad(self.fields[self.taken].at, "TooMany")

    def check_length(self, known: bool) -> None:
        if self.length() > GREATEST_LENGTH:
            raise Bad(self.head.at, "TooLong")
        if self.rest and known:
            raise Bad(self.rest.at, "BitsLeft")
        if self.values.get("L_PACKET", self.length()) != self.length():
            raise Bad(self.head.at, "OtherLength", self.length())

    def length(self) -> int:
        """The length of the packet, by its fields and its rest."""
        rest = self.rest.value if self.rest else 0
        return WIDTHS["L_PACKET"] + len(self.bits) + rest

    def packet_bits(self) -> str:
        front = OPENING_BITS - WIDTHS["L_PACKET"]
        rest = self.rest.bits() if self.rest else ""
        return self.bits[:front] + bits_of("L_PACKET", self.length()) + self.bits[front:] + rest


def sections_of(lines: list[Line]) -> tuple[list[Section], Line | None, bool]:
    """The header and the packets of an item, the padding if it is there, and whether `end` is."""
    sections: list[Section] = []
    padding, ended = None, False
    for line in lines:
        if line.kind in ("telegram", "packet", "alone"):
            sections.append(Section(line))
        elif line.kind == "field":
            sections[-1].fields.append(line)
        elif line.kind == "rest":
            sections[-1].rest = line
        elif line.kind == "padding":
            padding = line
        else:
            ended = True
    return sections, padding, ended


def check_words(lines: list[Line]) -> None:
    """The digits of all lines, and then the names of all fields."""
    for line in lines:
        if line.kind in ("rest", "padding"):
            line.bits()
    for line in lines:
        if line.kind == "field" and line.name not in WIDTHS:
            raise Bad(line.at, "UnknownName")


def spell_telegram(lines: list[Line]) -> str:
    """The digits of a telegram, or the first reason why it has none."""
    (header, *packets), padding, ended = sections_of(lines)
    header.take_header()
    version = header.values["M_VERSION"]
    for packet in packets:
        packet.take_packet(version)
    if not ended:
        raise Bad(lines[-1].at + 1, "Missing", "end")
    bits = header.bits + "".join(packet.packet_bits() for packet in packets) + "1" * END_BITS
    due = header.head.value
    bits = bits + padding.bits() if padding else bits.ljust(due, "1")
    if len(bits) != due:
        raise Bad(header.head.at, "BadLength", len(bits))
    if any(header.values[name] != value for name, value in OF_A_BALISE.items()):
        raise Bad(header.head.at, "NotABalise")
    return digits_of_bits(bits)


def spell_packet(lines: list[Line]) -> str:
    """The digits of a packet that stands by itself, or the first reason why it has none."""
    packet = sections_of(lines)[0][0]
    version = packet.head.value
    packet.take_packet(version)
    return f"packet {version} {digits_of_bits(packet.packet_bits())}"


def spell_item(start: int, texts: list[str]) -> tuple[str, str]:
    """The line that an item is turned into, and the name of the reason if it is refused."""
    try:
        lines = read_lines(start, texts)
        check_words(lines)
        of_telegram = lines[0].kind == "telegram"
        return (spell_telegram if of_telegram else spell_packet)(lines), ""
    except Bad as bad:
        return str(bad), bad.name


def begins_item(text: str) -> bool:
    """Whether a line begins an item, even where it is refused."""
    first, *others = text.split(" ")
    if first == "fault":
        return others[:1] in (["2"], ["3"], ["4"])
    return first == "telegram" or (first == "packet" and others != [])


def items(lines: Lines) -> Iterator[tuple[int, list[str]]]:
    """The items with the numbers of their first lines; a line of a plan stands by itself, at once."""
    start, item = 1, list[str]()
    while (text := lines.next()) is not None:
        if item and (text in LINES_OF_A_PLAN or begins_item(text)):
            yield start, item
            item = []
        if text in LINES_OF_A_PLAN:
            yield lines.number, [text]
            continue
        if not item:
            start = lines.number
        item.append(text)
    if item:
        yield start, item


def spell(lines: Lines, out: list[str]) -> int:
    """Turns all items into digits: 1 where some item is refused."""
    refused = False
    for start, item in items(lines):
        if item[0] in LINES_OF_A_PLAN:
            out += item
            continue
        line, reason = spell_item(start, item)
        out.append(line)
        refused = refused or bool(reason)
    return int(refused)
