"""Words, digits, commands and journal entries as texts."""

import re
from typing import Any

from edits import Edit, Note
from packets import WIDTHS
from plans import Plan
from refusals import Refusal, Refused
from session import Entry
from telegrams import END, LENGTHS, START, anchor_at

GREATEST_NUMBER = 4294967295

COMMANDS: dict[str, str] = {
    "set": "country.nid_bg pig place variable occurrence value",
    "seth": "country.nid_bg pig variable value",
    "insert": "country.nid_bg pig at digits",
    "delete": "country.nid_bg pig place",
    "move": "country.nid_bg pig place at",
    "add": "at telegrams",
    "drop": "country.nid_bg",
    "turn": "country.nid_bg",
    "renumber": "country.nid_bg value",
    "undo": "",
    "redo": "",
    "strike": "serial",
}
"""The words of each command after the first."""
ENTRIES: dict[str, str] = {
    "set": "group/telegram/packet variable occurrence value old",
    "seth": "group/telegram variable value old",
    "insert": "group/telegram after digits",
    "delete": "group/telegram/packet before",
    "move": "group/telegram/packet after before",
    "turn": "group",
    "add": "after telegrams",
    "drop": "group before",
    "renumber": "group value old",
}
"""The words of each journal entry after its serial and its kind."""
IN_EDITS = ("variable", "occurrence", "value", "bits")
"""What an edit has as its command has it."""
TAGS = {"group": "", "packet": "", "after": START, "before": END}
"""The words that are tags, and the mark that may stand in place of one."""

Values = dict[str, Any]
"""What the words of a line say, by the names that its grammar has for them."""


def words_of(line: str) -> list[str]:
    """The words of a line, one space between two, or 1."""
    words = line.split(" ")
    if "" in words:
        raise Refused(Refusal.BadLine)
    return words


def number(word: str) -> int:
    """A decimal number up to 4294967295, or 1."""
    if not re.fullmatch("0|[1-9][0-9]{0,9}", word) or int(word) > GREATEST_NUMBER:
        raise Refused(Refusal.BadLine)
    return int(word)


def bits_of_digits(word: str) -> str:
    """The bits of hexadecimal digits in whole bytes, or 2."""
    if not re.fullmatch("([0-9a-fA-F]{2})*", word):
        raise Refused(Refusal.BadHex)
    return "".join(format(int(digit, 16), "04b") for digit in word)


def digits_of_bits(bits: str) -> str:
    """Bits in digits; zeros fill the last byte."""
    bits += "0" * (-len(bits) % 8)
    return "".join(format(int(bits[i : i + 4], 2), "x") for i in range(0, len(bits), 4))


def telegram_bits(word: str) -> str:
    """The 210 or 830 bits of a telegram's digits, or 2, 3 or 4."""
    bits = bits_of_digits(word)
    for length in LENGTHS:
        if len(bits) == (length + 7) // 8 * 8:
            if "1" in bits[length:]:
                raise Refused(Refusal.SpareBits)
            return bits[:length]
    raise Refused(Refusal.BadLength)


def _read_word(what: str, word: str, values: Values) -> None:
    """Notes what a word says, or 1."""
    for mark in "/.":
        if mark in what:
            names, parts = what.split(mark), word.split(mark)
            if len(names) != len(parts):
                raise Refused(Refusal.BadLine)
            for name, part in zip(names, parts, strict=True):
                _read_word(name, part, values)
            return
    values[what] = word
    if what == "variable":
        if word not in WIDTHS:
            raise Refused(Refusal.BadLine)
    elif what not in TAGS:
        values[what] = number(word)
    elif not word or word != TAGS[what]:
        if word[:1] not in ("b", "n"):
            raise Refused(Refusal.BadLine)
        number(word[1:])


def _read_words(grammar: str, words: list[str]) -> Values:
    """Words by a grammar: 1 for all of them first, then 2, 3 or 4 for their digits."""
    names, digits = grammar.split(), []
    in_bits = {"digits": bits_of_digits, "telegrams": telegram_bits}.get((names or [""])[-1])
    if in_bits is not None:
        words, digits = words[: len(names) - 1], words[len(names) - 1 :]
        if not digits or (names.pop() == "digits" and len(digits) > 1):
            raise Refused(Refusal.BadLine)
    if len(words) != len(names):
        raise Refused(Refusal.BadLine)
    values: Values = {}
    for what, word in zip(names, words, strict=True):
        _read_word(what, word, values)
    if in_bits is not None:
        values["bits"] = tuple(in_bits(word) for word in digits)
    return values


def command(line: str) -> tuple[str, Values]:
    """The kind of a command and what it says, or 1 for its grammar, and then 2, 3 or 4."""
    kind, *words = words_of(line)
    if kind not in COMMANDS:
        raise Refused(Refusal.BadLine)
    return kind, _read_words(COMMANDS[kind], words)


def edit_of(plan: Plan, kind: str, asked: Values) -> Edit:
    """The edit by tags that a command asks for, or 14, 15 or 16."""
    at, place = asked.get("at"), asked.get("place")
    if kind == "add":
        if asked["at"] > len(plan.groups):
            raise Refused(Refusal.NoSuchGroup)
        return Edit(kind, after=anchor_at(plan.groups, asked["at"]), bits=asked["bits"])
    group = plan.find((asked["country"], asked["nid_bg"]))
    words = {name: asked[name] for name in asked if name in IN_EDITS}
    words["group"] = group.tag
    if "pig" not in asked:
        return Edit(kind, **words)
    if asked["pig"] >= len(group.telegrams):
        raise Refused(Refusal.NoSuchTelegram)
    telegram = group.telegrams[asked["pig"]]
    packets = telegram.packets
    words["telegram"] = telegram.tag
    if place is not None:
        if place >= len(packets):
            raise Refused(Refusal.NoSuchPacket)
        words["packet"] = packets[place].tag
    if at is not None:
        if at >= len(packets) + (kind == "insert"):
            raise Refused(Refusal.NoSuchPacket)
        rest = [packet for packet in packets if packet.tag != words.get("packet")]
        words["after"] = words["packet"] if at == place else anchor_at(rest, at)
    return Edit(kind, **words)


def journal_entry(line: str) -> Entry:
    """The entry that a line is, or 1 for its grammar, and then 2, 3 or 4.

    A line has no identities, so its note has none.
    """
    words = words_of(line)
    if len(words) < 2 or words[1] not in ENTRIES:
        raise Refused(Refusal.BadLine)
    serial, kind = number(words[0]), words[1]
    values = _read_words(ENTRIES[kind], words[2:])
    note = Note(values.pop("old", None), values.pop("before", None))
    return Entry(serial, Edit(kind, **values), note)


def entry_line(entry: Entry) -> str:
    """A line of the journal."""
    digits = " ".join(digits_of_bits(bits) for bits in entry.edit.bits)
    values = {**vars(entry.edit), **vars(entry.note), "digits": digits, "telegrams": digits}
    words = re.sub("[a-z]+", lambda found: str(values[found[0]]), ENTRIES[entry.edit.kind])
    return f"{entry.serial} {entry.edit.kind} {words}"
