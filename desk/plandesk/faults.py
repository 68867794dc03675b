"""Where digits are wrong, in words: what balisefields says of a telegram or a packet that the engine refuses."""

from __future__ import annotations

from collections.abc import Container, Sequence
from dataclasses import dataclass

from plandesk.errors import Fault
from plandesk.fields import LINES_OF_A_PLAN, find_fields
from plandesk.vocabulary import packet_name

OF_DIGITS = range(2, 10)
"""The refusals of digits: BadHex to PacketZero."""
MOST_BEFORE = 3
SECONDS = 60.0
PACKET = "packet"
LEAST_LENGTH = 23
"""The least L_PACKET that a packet has."""
ANOTHER = "another"
"""What is due where a field has a value that no packet has."""
UNKNOWN = "where they are wrong isn't known"


@dataclass(frozen=True)
class Found:
    """A fault as balisefields prints it, with the fields before it in the same packet or header."""

    number: int
    packet: int | None
    bit: int
    due: str
    fields: tuple[tuple[str, int], ...]
    alone: bool
    """Whether the digits are a packet by itself."""

    @property
    def before(self) -> tuple[tuple[str, int], ...]:
        """The fields that are right."""
        return self.fields[:-1] if self.due == ANOTHER else self.fields


def telegram_fault(digits: str, number: int) -> str:
    """Where a telegram's digits are wrong, which the engine refused with this number. Empty where a packet stands there."""
    return "" if digits.startswith(f"{PACKET} ") else _looked([digits], number)[1]


def packet_fault(version: int, digits: str, number: int) -> str:
    """The same for a packet in a telegram of this M_VERSION."""
    return _looked([f"{PACKET} {version} {digits}"], number)[1]


def telegrams_fault(digits: Sequence[str], number: int) -> str:
    """The same for the telegrams of a group, of which one is refused."""
    at, words = _looked(digits, number)
    return words if at is None or len(digits) == 1 else f"telegram {at}: {words}"


def any_fault(lines: Sequence[str]) -> str:
    """Where some digits are wrong, if they are. Empty too where there is no program to ask."""
    try:
        found = first_fault(lines, OF_DIGITS)
    except Fault:
        return ""
    if found is None:
        return ""
    words = words_of(found[1], lines[found[0]])
    return f"telegram {found[0]}: {words}" if len(lines) > 1 else words


def first_fault(lines: Sequence[str], numbers: Container[int]) -> tuple[int, Found] | None:
    """The first of some lines of digits in which balisefields finds a fault of these numbers, and this."""
    program = find_fields()
    try:
        found = [found_in(item, line) for item, line in zip(program.explain(lines, SECONDS), lines, strict=True)]
    except ValueError:
        raise Fault(f"{program.name} isn't balisefields") from None
    return next(((at, each) for at, each in enumerate(found) if each is not None and each.number in numbers), None)


def _looked(lines: Sequence[str], number: int) -> tuple[int | None, str]:
    """Which of the lines the engine refused with this number, and where it is wrong. No line where that isn't known."""
    for at, line in enumerate(lines):
        if line in LINES_OF_A_PLAN:
            return at, f"`{line}` stands where digits are due"
    try:
        found = first_fault(lines, (number,))
    except Fault as fault:
        return None, f"{UNKNOWN}: {fault.message}"
    if found is None:
        return None, f"{UNKNOWN}: {find_fields().name} doesn't find this fault, so it doesn't belong to the engine"
    return found[0], words_of(found[1], lines[found[0]])


def found_in(item: Sequence[str], line: str) -> Found | None:
    """The fault of an item that was printed. ValueError where the item isn't balisefields'."""
    if not item[-1].startswith("fault "):
        return None
    words = item[-1].split(" ")
    if len(words) != 6:
        raise ValueError(item[-1])
    fields: list[tuple[str, int]] = []
    for each in item[:-1]:
        parts = each.split(" ")
        if parts[0] == PACKET:
            fields = []
        elif len(parts) == 5:
            fields.append((parts[2], int(parts[4])))
    packet = None if words[3] == "-" else int(words[3])
    return Found(int(words[1]), packet, int(words[4]), words[5], tuple(fields), line.startswith(f"{PACKET} "))


def words_of(found: Found, line: str) -> str:
    """A fault in a sentence, as the page has it, and then the fields before it."""
    digits = line.split(" ", 2)[2] if found.alone else line
    if found.number < 5:
        return _of_the_whole(found, digits)
    if found.number == 5:
        return f"bit {found.bit}, {found.due}, has to be {1 if found.due == 'Q_UPDOWN' else 0}"
    if found.number == 6:
        count = f"{found.packet} packet{'' if found.packet == 1 else 's'}"
        return f"packet 255 is due at bit {found.bit}, after {count}, and too few bits are left"
    before = ", ".join(f"{name} {value}" for name, value in found.before[-MOST_BEFORE:])
    return f"in {_which(found)}, at bit {found.bit}, {_in_packet(found)}" + (f"; before it: {before}" if before else "")


def _of_the_whole(found: Found, digits: str) -> str:
    """A fault of the digits as a whole."""
    if found.number == 2:
        at = found.bit // 4
        if at >= len(digits):
            return f"there are {len(digits)} digits, an odd number: one is missing at the end"
        return f"character {at + 1}, `{digits[at]}`, isn't a hexadecimal digit"
    if found.number == 3:
        packet = "L_PACKET says how many a packet takes, filled up to a whole byte"
        telegram = "a telegram takes 54 digits for its 210 bits, or 208 for 830"
        return f"there are {found.bit} bits in {len(digits)} digits; {packet if found.alone else telegram}"
    return f"bit {found.bit} isn't zero, and stands after the last one"


def _which(found: Found) -> str:
    """The packet, with its number where that was read."""
    number = next((value for name, value in found.before if name == "NID_PACKET"), None)
    name = "" if number is None else f" ({number} {packet_name(number)})"
    return f"the packet{name}" if found.alone else f"packet {found.packet} of the telegram{name}"


def _in_packet(found: Found) -> str:
    if found.due == "end":
        return "the last field ends, and L_PACKET leaves more bits"
    if found.due == ANOTHER:
        name, value = found.fields[-1] if found.fields else ("", 0)
        past = name == "L_PACKET" and value >= LEAST_LENGTH
        return f"L_PACKET {value} leads past the end" if past else f"no packet has {name} {value}"
    return f"{found.due} is due, and too few bits are left for it"
