"""The digits of telegrams and packets as fields, and fields as digits.

    fields = baliseplan.explain(digits)
    [field.value for field in fields.items[0].header]
    baliseplan.spell(fields.text).lines

docs/FIELDS.md of the repository has both forms.
"""

from __future__ import annotations

import functools
from dataclasses import dataclass

from ._library import call_explain, call_spell
from ._texts import BYTES, Lines, joined
from .errors import unless_fault

ALONE = ("fault 2 ", "fault 3 ", "fault 4 ")
"""How a line begins that stands for refused digits, with no field of them."""


@dataclass(frozen=True)
class Field:
    """A field of a header or packet: its first bit is `at`, from 0, and it is the variable's occurrence `k` there."""

    at: int
    width: int
    name: str
    k: int
    value: int


@dataclass(frozen=True)
class Refusal:
    """Why digits were refused: the bit where the fault stands, what was due there, and the place of its packet."""

    number: int
    name: str
    packet: int | None
    bit: int
    due: str


@dataclass(frozen=True)
class Item:
    """What one line of digits is explained as. A packet by itself has no header, and is the one in `packets`.

    `lines` has all of it, also the bits without fields: `rest` and `padding`.
    """

    lines: list[str]

    @property
    def header(self) -> list[Field]:
        return self._parts[0]

    @property
    def packets(self) -> list[list[Field]]:
        """The fields of each packet."""
        return self._parts[1:]

    @property
    def refusal(self) -> Refusal | None:
        words = self.lines[-1].split(" ")
        if words[0] != "fault":
            return None
        number, name, packet, bit, due = words[1:]
        return Refusal(int(number), name, None if packet == "-" else int(packet), int(bit), due)

    @property
    def _parts(self) -> list[list[Field]]:
        """The fields of the header, and of each packet."""
        parts: list[list[Field]] = [[]]
        for line in self.lines:
            words = line.split(" ")
            if words[0] == "packet":
                parts.append([])
            elif words[0].isdigit():
                at, width, name, k, value = words
                parts[-1].append(Field(int(at), int(width), name, int(k), int(value)))
        return parts


@dataclass(frozen=True)
class Printed:
    """What was printed, and whether something was refused."""

    text: str
    refused: bool

    @property
    def lines(self) -> list[str]:
        return self.text.splitlines()


@dataclass(frozen=True)
class Fields(Printed):
    """What digits are explained as."""

    @functools.cached_property
    def items(self) -> list[Item]:
        """An item for each line of the digits; a line `plan 1` or `group` is its own."""
        items: list[Item] = []
        for line in self.lines:
            words = line.split(" ")
            begins = words[0] in ("telegram", "plan", "group") or (words[0] == "packet" and len(words) > 1)
            if begins or line.startswith(ALONE):
                items.append(Item([]))
            items[-1].lines.append(line)
        return items


@dataclass(frozen=True)
class Digits(Printed):
    """The digits of fields, a line for each item; `bad LINE NAME [DUE]` stands for one that is refused."""


def explain(digits: Lines) -> Fields:
    """The fields of telegrams and packets, each a line of digits. Raises Fault."""
    status, output = explain_bytes(joined(digits))
    return Fields(output.decode(BYTES), status == 1)


def spell(fields: Lines) -> Digits:
    """The way back: the digits of telegrams and packets that are given as lines of fields. Raises Fault."""
    status, output = spell_bytes(joined(fields))
    return Digits(output.decode(BYTES), status == 1)


def explain_bytes(data: bytes) -> tuple[int, bytes]:
    """What `balisefields` does: the status, 0 or 1, and the output. Raises Fault."""
    return unless_fault(*call_explain(data))


def spell_bytes(data: bytes) -> tuple[int, bytes]:
    """What `balisefields --spell` does: the status, 0 or 1, and the output. Raises Fault."""
    return unless_fault(*call_spell(data))
