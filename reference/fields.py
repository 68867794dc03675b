"""Digits to fields: telegrams and packets, field by field, up to the first fault."""

from collections import Counter
from string import hexdigits

from packets import END_OF_INFORMATION, OPENING_BITS, WIDTHS, body_of, walk
from refusals import Refusal, Refused
from run import Lines
from telegrams import END_BITS, HEADER, LENGTHS
from texts import bits_of_digits, number, words_of

LINES_OF_A_PLAN = ("plan 1", "group")
OF_A_BALISE = {"Q_UPDOWN": 1, "Q_MEDIA": 0}
OF_DIGITS = (Refusal.BadHex, Refusal.BadLength, Refusal.SpareBits)
"""The refusals of digits. They stand alone, without a field."""


class Stop(Exception):
    """Digits are refused: the line that takes the place of what is left of the item."""

    def __init__(self, refusal: Refusal, packet: int | None, bit: int, due: str) -> None:
        place = "-" if packet is None else packet
        super().__init__(f"fault {refusal.value} {refusal.name} {place} {bit} {due}")
        self.refusal = refusal


def digits_of(bits: str) -> str:
    """Bits in digits; zeros fill the last digit."""
    filled = bits + "0" * (-len(bits) % 4)
    return "".join(format(int(filled[i : i + 4], 2), "x") for i in range(0, len(bits), 4))


def bits_of_item(digits: str) -> str:
    """The bits of the digits of an item, or the first digit that isn't one."""
    for place, digit in enumerate(digits):
        if digit not in hexdigits:
            raise Stop(Refusal.BadHex, None, 4 * place, "digit")
    if len(digits) % 2:
        raise Stop(Refusal.BadHex, None, 4 * len(digits), "digit")
    return bits_of_digits(digits)


def without_filling(bits: str, length: int) -> str:
    """The first bits of whole bytes, where the others only fill up the last byte; or 3 or 4."""
    if len(bits) != (length + 7) // 8 * 8:
        raise Stop(Refusal.BadLength, None, len(bits), "length")
    if "1" in bits[length:]:
        raise Stop(Refusal.SpareBits, None, bits.index("1", length), "zero")
    return bits[:length]


class Reader:
    """Takes the fields of an item one after another, each with the line that shows it."""

    def __init__(self, bits: str) -> None:
        self.bits = bits
        self.place = 0
        self.packet: int | None = None
        self.lines: list[str] = []
        self._taken: Counter[str] = Counter()

    def begin(self, line: str) -> None:
        """Begins a header or a packet: occurrences are counted anew."""
        self.lines.append(line)
        self._taken.clear()

    def stop(self, refusal: Refusal, due: str) -> Stop:
        return Stop(refusal, self.packet, self.place, due)

    def field(self, name: str, end: int, refusal: Refusal) -> int:
        """Takes a field that ends before a place, or stops at it."""
        width = WIDTHS[name]
        after = self.place + width
        if after > end:
            raise self.stop(refusal, name)
        value = int(self.bits[self.place : after], 2)
        if OF_A_BALISE.get(name, value) != value:
            raise self.stop(Refusal.NotABalise, name)
        self.lines.append(f"{self.place} {width} {name} {self._taken[name]} {value}")
        self._taken[name] += 1
        self.place = after
        return value

    def header(self) -> None:
        self.begin(f"telegram {len(self.bits)}")
        for name in HEADER:
            self.field(name, len(self.bits), Refusal.BadLength)

    def opening(self, alone: bool = False) -> tuple[int, int]:
        """Takes the fields that open a packet: its number, and where it ends by L_PACKET."""
        start, most = self.place, len(self.bits)
        nid_packet = self.field("NID_PACKET", most, Refusal.PacketCut)
        if nid_packet == 0:
            raise self.stop(Refusal.PacketZero, "another")
        if alone and nid_packet == END_OF_INFORMATION:
            raise self.stop(Refusal.LayoutMismatch, "another")
        self.field("Q_DIR", most, Refusal.PacketCut)
        length = self.field("L_PACKET", most, Refusal.PacketCut)
        if length < OPENING_BITS or start + length > most:
            raise self.stop(Refusal.PacketCut, "another")
        return nid_packet, start + length

    def body(self, nid_packet: int, version: int, end: int) -> None:
        """Takes what is in a packet after the fields that open it."""
        layout = body_of(nid_packet, version)
        if layout is None:
            self.remaining("rest", end)
            return
        try:
            walk(layout, lambda name: self.field(name, end, Refusal.LayoutMismatch))
        except Refused:  # Q_DIFF 3
            raise self.stop(Refusal.LayoutMismatch, "another") from None
        if self.place < end:
            raise self.stop(Refusal.LayoutMismatch, "end")

    def remaining(self, word: str, end: int) -> None:
        """Takes the bits up to a place, if there are any."""
        bits = self.bits[self.place : end]
        if bits:
            self.lines.append(f"{word} {len(bits)} {digits_of(bits)}")
        self.place = end


def take_telegram(reader: Reader) -> None:
    """Takes a telegram (8.4.2), or stops at its first fault."""
    short, long = LENGTHS
    reader.bits = without_filling(reader.bits, short if len(reader.bits) < long else long)
    reader.header()
    version = int(reader.bits[1:8], 2)
    packets = 0
    while True:
        reader.packet = packets
        ahead = reader.bits[reader.place : reader.place + END_BITS]
        if len(ahead) < END_BITS:
            raise reader.stop(Refusal.NoEnd, "NID_PACKET")
        if ahead == "1" * END_BITS:
            break
        reader.begin("packet")
        nid_packet, end = reader.opening()
        reader.body(nid_packet, version, end)
        packets += 1
    reader.lines.append("end")
    reader.place += END_BITS
    reader.remaining("padding", len(reader.bits))


def take_packet(reader: Reader, version: int) -> None:
    """Takes a packet that stands by itself, or stops at its first fault."""
    reader.packet = 0
    reader.begin(f"packet {version}")
    nid_packet, end = reader.opening(alone=True)
    reader.bits = without_filling(reader.bits, end)
    reader.body(nid_packet, version, end)


def packet_words(line: str) -> tuple[int, str] | None:
    """The version and the digits of a packet that stands by itself, or none."""
    try:
        first, *others = words_of(line)
        if first == "packet" and len(others) == 2:
            return number(others[0]), others[1]
    except Refused:
        pass
    return None


def explain_item(line: str) -> tuple[list[str], Refusal | None]:
    """The lines that a line of digits is turned into, and why it is refused if it is."""
    reader = Reader("")
    try:
        alone = packet_words(line)
        if alone is None:
            reader.bits = bits_of_item(line)
            take_telegram(reader)
        else:
            reader.bits = bits_of_item(alone[1])
            take_packet(reader, alone[0])
    except Stop as stop:
        shown = [] if stop.refusal in OF_DIGITS else reader.lines
        return [*shown, str(stop)], stop.refusal
    return reader.lines, None


def explain(lines: Lines, out: list[str]) -> int:
    """Turns all lines of digits into fields: 1 where some item is refused."""
    refused = False
    while (line := lines.next()) is not None:
        if line in LINES_OF_A_PLAN:
            out.append(line)
            continue
        shown, refusal = explain_item(line)
        out += shown
        refused = refused or refusal is not None
    return int(refused)
