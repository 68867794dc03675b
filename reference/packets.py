"""Variables and packets from track to train (SUBSET-026, 7.4.2 and 7.5.1).

Bits are strings of "0" and "1", in the order of the telegram.
"""

from collections.abc import Callable
from dataclasses import dataclass, replace

from refusals import Refusal, Refused

WIDTHS: dict[str, int] = {
    name: width
    for width, names in {
        1: "Q_LINKORIENTATION Q_GDIR Q_FRONT Q_LINK Q_NEWCOUNTRY Q_UPDOWN Q_MEDIA",
        2: "Q_DIR Q_SCALE Q_LINKREACTION M_DUP Q_DIFF",
        3: "M_LEVELTR N_PIG N_TOTAL",
        4: "NC_CDDIFF NC_DIFF",
        5: "N_ITER",
        6: "Q_LOCACC",
        7: "V_STATIC V_DIFF V_TSR M_VERSION",
        8: "G_A NID_NTC NID_TSR M_MCOUNT NID_PACKET",
        10: "NID_C",
        13: "L_PACKET",
        14: "NID_BG",
        15: "D_LINK D_GRADIENT D_STATIC D_LEVELTR L_ACKLEVELTR D_TSR L_TSR",
    }.items()
    for name in names.split()
}
"""The width of each variable in bits (7.5.1)."""
STEERING = "NID_PACKET L_PACKET Q_NEWCOUNTRY NID_C N_ITER M_LEVELTR Q_DIFF".split()
"""The variables of packets that no edit sets in place."""
NO_GROUP = 16383
"""The NID_BG that names no group (7.5.1)."""

OPENING = "NID_PACKET Q_DIR L_PACKET"
"""The fields that open each packet but 0 and 255 (7.4.2)."""
OPENING_BITS = 23
END_OF_INFORMATION = 255
PACKETS: dict[int, str] = {
    5: "Q_SCALE LINK n*LINK",
    21: "Q_SCALE GRADIENT n*GRADIENT",
    27: "Q_SCALE SECTION n*SECTION",
    41: "Q_SCALE D_LEVELTR LEVEL n*LEVEL",
    65: "Q_SCALE NID_TSR D_TSR L_TSR Q_FRONT V_TSR",
    66: "NID_TSR",
    136: "Q_NEWCOUNTRY NID_BG",
}
"""The packets that are known, after the fields that open them (7.4.2)."""
PARTS: dict[str, str] = {
    "LINK": "D_LINK Q_NEWCOUNTRY NID_BG Q_LINKORIENTATION Q_LINKREACTION Q_LOCACC",
    "GRADIENT": "D_GRADIENT Q_GDIR G_A",
    "SECTION": "D_STATIC V_STATIC Q_FRONT n*DIFFERENCE",
    "DIFFERENCE": "Q_DIFF V_DIFF",
    "LEVEL": "M_LEVELTR L_ACKLEVELTR",
}
FOLLOWS: dict[tuple[str, int], str] = {
    ("Q_NEWCOUNTRY", 1): "NID_C",
    ("M_LEVELTR", 1): "NID_NTC",
    ("Q_DIFF", 0): "NC_CDDIFF",
    ("Q_DIFF", 1): "NC_DIFF",
    ("Q_DIFF", 2): "NC_DIFF",
}
"""The variable that follows where another one has a value (7.4.2)."""
ONLY_IN_VERSION_2 = (27, 41)

Fields = tuple[tuple[str, int], ...]


def walk(layout: str, take: Callable[[str], int]) -> None:
    """Takes the variables of a layout in turn; `n*` repeats a part N_ITER times."""
    for word in layout.split():
        if word.startswith("n*"):
            for _ in range(take("N_ITER")):
                walk(PARTS[word[2:]], take)
        elif word in PARTS:
            walk(PARTS[word], take)
        else:
            value = take(word)
            if (word, value) == ("Q_DIFF", 3):
                raise Refused(Refusal.LayoutMismatch)
            if (word, value) in FOLLOWS:
                take(FOLLOWS[word, value])


def bits_of(name: str, value: int) -> str:
    """A variable's value in its width, the most significant bit first (7.5.1)."""
    return format(value, f"0{WIDTHS[name]}b")


def read_fields(layout: str, bits: str) -> tuple[Fields, str]:
    """The fields of a layout at the front of bits, and the bits after them; or 8."""
    fields: list[tuple[str, int]] = []
    place = 0

    def take(name: str) -> int:
        nonlocal place
        start, place = place, place + WIDTHS[name]
        if place > len(bits):
            raise Refused(Refusal.LayoutMismatch)
        fields.append((name, int(bits[start:place], 2)))
        return fields[-1][1]

    walk(layout, take)
    return tuple(fields), bits[place:]


@dataclass(frozen=True)
class Packet:
    """A packet under its tag: its fields and, where it is opaque, the rest of its bits."""

    tag: str
    fields: Fields
    rest: str
    known: bool

    def bits(self) -> str:
        return "".join(bits_of(name, value) for name, value in self.fields) + self.rest

    def place(self, name: str, occurrence: int) -> int | None:
        """Where among the fields an occurrence of a variable is."""
        places = [i for i, field in enumerate(self.fields) if field[0] == name]
        return places[occurrence] if occurrence < len(places) else None

    def with_value(self, place: int, value: int) -> "Packet":
        changed = (self.fields[place][0], value)
        return replace(self, fields=(*self.fields[:place], changed, *self.fields[place + 1 :]))


def length_at(bits: str, place: int) -> int:
    """L_PACKET of the packet that begins at a place, or 7."""
    if len(bits) - place >= OPENING_BITS:
        length = int(bits[place + 10 : place + OPENING_BITS], 2)
        if length >= OPENING_BITS and place + length <= len(bits):
            return length
    raise Refused(Refusal.PacketCut)


def body_of(number: int, version: int) -> str | None:
    """The layout of a packet after the fields that open it, or none where it isn't known."""
    if number in ONLY_IN_VERSION_2 and version >> 4 != 2:
        return None
    return PACKETS.get(number)


def read_packet(bits: str, version: int, tag: str) -> Packet:
    """A packet from its bits (7.4.2), or 8 where its fields don't end with them."""
    body = body_of(int(bits[:8], 2), version)
    if body is None:
        return Packet(tag, *read_fields(OPENING, bits), known=False)
    fields, rest = read_fields(f"{OPENING} {body}", bits)
    if rest:
        raise Refused(Refusal.LayoutMismatch)
    return Packet(tag, fields, rest, known=True)


def read_packet_in_bytes(bits: str, version: int, tag: str) -> Packet:
    """A packet in whole bytes, as `insert` has it, or its first refusal."""
    number = int(bits[:8], 2)
    if number == 0:
        raise Refused(Refusal.PacketZero)
    if number == END_OF_INFORMATION:
        raise Refused(Refusal.LayoutMismatch)
    length = length_at(bits, 0)
    if len(bits) != (length + 7) // 8 * 8:
        raise Refused(Refusal.BadLength)
    if "1" in bits[length:]:
        raise Refused(Refusal.SpareBits)
    return read_packet(bits[:length], version, tag)
