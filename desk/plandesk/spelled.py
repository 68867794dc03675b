"""Digits given as fields: `@FILE` in an insert or an add. balisefields makes the digits, and the engine reads them again.

FILE has items of docs/FIELDS.md: one packet, or a telegram for each balise. A value may have its unit, and `#` begins a
comment. The file is only read here.
"""

from __future__ import annotations

import difflib
from collections.abc import Sequence
from dataclasses import dataclass
from pathlib import Path

from plandesk.amounts import NoAmount, has_unit, raw_value
from plandesk.bad_input import shortened
from plandesk.command_lines import Line, split_lines
from plandesk.engine import Engine
from plandesk.errors import Fault, Refusal
from plandesk.fields import LINES_OF_A_PLAN, FieldProgram, find_fields, split_items
from plandesk.folder import read_text
from plandesk.items import plain, same
from plandesk.spare import read_packet, read_telegrams
from plandesk.vocabulary import variable, variables

MARK = "@"
DIGITS = frozenset("0123456789abcdef")


@dataclass(frozen=True)
class FieldFile:
    """A file of fields: its name, and its lines by their numbers."""

    name: str
    lines: tuple[Line, ...]

    def refused(self, at: int, what: str) -> Refusal:
        """A refusal at one of the lines, or after the last."""
        if at >= len(self.lines):
            return Refusal(f"{self.name} ends after line {self.lines[-1].number}: {what}")
        line = self.lines[at]
        return Refusal(f"{self.name}, line {line.number}, `{shortened(line.text)}`: {what}")


def read_fields(name: str) -> FieldFile:
    lines = tuple(split_lines(read_text(Path(name))))
    if not lines:
        raise Refusal(f"{name} has no fields")
    return FieldFile(name, lines)


def raw_texts(file: FieldFile) -> list[str]:
    """The lines, a value with its unit as its number: a distance by Q_SCALE before it."""
    texts: list[str] = []
    scale: int | None = None
    for at, line in enumerate(file.lines):
        words = line.text.split(" ")
        variable_name = named(words)
        if words[0] in ("packet", "telegram"):
            scale = None
        elif variable_name == "Q_SCALE" and words[-1].isdigit():
            scale = int(words[-1])
        elif variable(variable_name) and has_unit(words[-1]):
            try:
                words[-1] = str(raw_value(variable_name, words[-1], scale))
            except NoAmount as reason:
                raise file.refused(at, str(reason)) from None
        texts.append(" ".join(words))
    return texts


def named(words: Sequence[str]) -> str:
    """The variable of a line that is a field."""
    return words[2] if len(words) == 5 else words[0]


def packet_digits(engine: Engine, name: str, version: int) -> str:
    """The digits of the one packet of a file, for a telegram of this M_VERSION."""
    file = read_fields(name)
    texts = raw_texts(file)
    head = f"packet {version}"
    first = texts[0].split(" ")
    if first[0] == "telegram":
        raise file.refused(0, "a packet is due here, and no telegram")
    if first[0] == "packet" and len(first) == 2 and first[1] != str(version):
        raise file.refused(0, f"the telegram has M_VERSION {version}. Leave the number out, and that is taken")
    added = first[0] != "packet"
    texts = [head, *texts] if added else [head if len(first) < 3 else texts[0], *texts[1:]]
    (digits,) = spelled(file, texts, head, int(added))
    read = read_packet(engine, version, digits)
    check(texts, None if read is None else [read], file)
    return digits


def telegram_digits(engine: Engine, name: str) -> list[str]:
    """The digits of the telegrams of a file."""
    file = read_fields(name)
    texts = raw_texts(file)
    if texts[0].split(" ")[0] != "telegram":
        raise file.refused(0, "a telegram is due here: `telegram 210` or `telegram 830`, and then its fields")
    found = spelled(file, texts, "", 0)
    check(texts, read_telegrams(engine, found), file)
    return found


def spelled(file: FieldFile, texts: Sequence[str], head: str, added: int) -> list[str]:
    """The digits of each item, or a refusal. `head` stands before those of a packet; `added` lines aren't the file's."""
    for at, text in enumerate(texts):
        if text in LINES_OF_A_PLAN:
            raise file.refused(at - added, "no line of a plan may stand here")
    program, items = find_fields(), split_items(texts)
    starts = [sum(map(len, items[:at])) - added for at in range(len(items))]
    found: list[str] = []
    for answer in program.spell(texts):
        before, _, digits = answer.rpartition(" ")
        if before.startswith("bad ") or before == "bad":
            raise _bad(file, answer.split(" "), texts, added, program)
        if not digits or not set(digits) <= DIGITS or len(found) == len(items):
            raise _other(program, answer)
        if len(before.split(" ")) != len(head.split(" ")):
            raise file.refused(starts[len(found)], "a telegram is due here, and no packet")
        found.append(digits)
    if len(found) != len(items):
        raise _other(program, "too little")
    if head and len(items) > 1:
        raise file.refused(starts[1], "one packet may stand here, and no more")
    return found


def _other(program: FieldProgram, answer: str) -> Fault:
    return Fault(f"{program.name} isn't balisefields: it answered `{shortened(answer)}`; nothing was changed")


def check(texts: Sequence[str], read: Sequence[list[str]] | None, file: FieldFile) -> None:
    """The engine reads in the digits what the file has. Digits that it refuses (None) are left to the command."""
    given = [plain(item) for item in split_items(texts)]
    if read is not None and (len(given) != len(read) or not all(map(same, given, read))):
        raise Fault(
            f"{find_fields().name} made digits of {file.name} that the engine reads otherwise; nothing was changed",
            "this is a fault of balisefields, or it doesn't belong to the engine",
        )


def _bad(file: FieldFile, words: list[str], texts: Sequence[str], added: int, program: FieldProgram) -> Refusal:
    """`bad LINE NAME [DUE]` in words, with the line of the file."""
    if len(words) not in (3, 4) or not words[1].isdigit():
        raise _other(program, " ".join(words))
    at, due = int(words[1]) - 1, words[3] if len(words) == 4 else ""
    text = texts[at] if at < len(texts) else ""
    return file.refused(max(at - added, 0), f"{_reason(words[2], due, text)} ({words[2]})")


def _reason(name: str, due: str, text: str) -> str:
    variable_name = named(text.split(" "))
    if name == "UnknownName":
        return REASONS[name] + _or(variable_name)
    if name == "TooWide":
        return REASONS[name] + _most(variable_name)
    if name == "Missing":
        return f"{due.replace('end', '`end`')} is due {'before it' if text else 'there'}"
    return REASONS.get(name, "it is refused").format(due=due)


def _or(name: str) -> str:
    near = difflib.get_close_matches(name, variables(), 2, 0.5)
    return f"; did you mean {' or '.join(near)}?" if near else ""


def _most(name: str) -> str:
    width = variable(name).get("bits")
    return f": {name} is at most {(1 << int(width)) - 1}, in {width} bits" if width else ""


REASONS = {
    "BadLine": "no line of this form may stand here",
    "BadHex": "its digits aren't as many as its bits need, or aren't digits, or have a 1 after the last bit",
    "UnknownName": "no variable has this name",
    "NotDue": "{due} is due here",
    "TooWide": "the value doesn't fit",
    "Spare": "the value is spare, so nothing is due after it",
    "NoFields": "no packet has this number",
    "TooMany": "the fields end before it",
    "TooLong": "the packet is longer than L_PACKET can say",
    "BitsLeft": "a packet that is known has no bits after its fields",
    "OtherLength": "L_PACKET isn't the packet's length, {due}: leave its line out, and it is worked out",
    "BadLength": "the telegram would have {due} bits; a line `padding` may be left out, and ones are put there",
    "NotABalise": "the telegram isn't one from a balise to a train: Q_UPDOWN is 0, or Q_MEDIA is 1",
}
"""Refusals of `--spell` (docs/FIELDS.md); `{due}` is their last word."""
