"""Edits in words: the same words as the page has (data/examples/edits.json)."""

from __future__ import annotations

from dataclasses import dataclass

from plandesk.journal import Entry
from plandesk.naming import Names
from plandesk.reviews import Review
from plandesk.vocabulary import meaning, packet_name, words_of


@dataclass(frozen=True)
class Sentence:
    """An edit by today's identities."""

    group: str
    """C.N of its group as it is now, or as it was."""
    place: str
    """Where it is now in the words of a command, as `5.250 1 0`; the group alone where it is gone."""
    what: str
    detail: str
    """Balise and packet in words."""
    packet: str = ""
    """The packet's number and name."""

    def __str__(self) -> str:
        return " ".join(part for part in (self.place, self.what) if part)


def sentence(entry: Entry, names: Names) -> Sentence:
    group, number = _group(entry, names), _packet_number(entry, names)
    packet = "" if number is None else f"{number} {packet_name(number)}"
    return Sentence(group, _place(entry, names) or group, _what(entry, names, number), _detail(entry, names), packet)


def _group(entry: Entry, names: Names) -> str:
    return names.group(entry.tag if entry.kind == "add" else entry.group)


def _packet_tag(entry: Entry) -> str:
    return entry.tag if entry.kind == "insert" else entry.packet


def _packet_number(entry: Entry, names: Names) -> int | None:
    if entry.telegram is None or not _packet_tag(entry):
        return None
    return names.packet_number(entry.group, entry.telegram, _packet_tag(entry))


def _place(entry: Entry, names: Names) -> str:
    if entry.telegram is None:
        return ""
    return names.place(entry.group, entry.telegram, _packet_tag(entry)) or names.place(entry.group, entry.telegram)


def _what(entry: Entry, names: Names, number: int | None) -> str:
    if entry.kind == "set":
        k = f" ({entry.k})" if entry.k else ""
        return f"{entry.variable}{k} {_change(entry, names.scale(entry))}"
    if entry.kind == "seth":
        return f"{entry.variable} {_change(entry, None)}"
    return {
        "insert": f"put in packet {number}",
        "delete": f"took out packet {number}",
        "move": f"moved packet {number}",
        "turn": "turned round",
        "add": f"added a group of {len(entry.digits)}",
        "drop": "took the group out",
        "renumber": f"renumbered {entry.old} → {entry.value}",
    }[entry.kind]


def _change(entry: Entry, scale: int | None) -> str:
    old, value = (meaning(entry.variable, each, scale) for each in (entry.old, entry.value))
    raw = f"{entry.old} → {entry.value}"
    return f"{raw} ({old or entry.old} → {value or entry.value})" if old or value else raw


def _detail(entry: Entry, names: Names) -> str:
    if entry.telegram is None:
        return ""
    tag = _packet_tag(entry)
    telegram = names.tags.telegram(entry.group, entry.telegram)
    packet = names.tags.packet((entry.group, entry.telegram, tag)) if tag else None
    gone = telegram is None or bool(tag) and packet is None
    where = f"telegram {entry.telegram}" if gone or telegram is None else f"balise {telegram[1]}"
    if tag:
        number = names.packet_number(entry.group, entry.telegram, tag)
        where += f", packet {packet[2] if packet else tag} ({number} {packet_name(number)})"
    return f"{where} (not in the plan now)" if gone else where


@dataclass(frozen=True)
class ReviewWords:
    place: str
    what: str
    then: str
    now: str

    @property
    def changed(self) -> bool:
        return bool(self.now) and self.now != self.then


def review_words(review: Review, names: Names) -> ReviewWords:
    """A review by today's place and value."""
    group, telegram, packet = review.path
    at = names.tags.packet(review.path)
    place = names.place(group, telegram, packet) or names.group(group)
    if review.opaque:
        what = f"{review.value} {packet_name(review.value)}: look at it by hand"
        return ReviewWords(place, what, "", "" if at else "gone")
    if at is None:
        return ReviewWords(place, review.variable, str(review.value), "gone")
    now = names.today[at[0]].telegrams[at[1]].packets[at[2]]
    value = now.value(review.variable, review.k)
    k = f" ({review.k})" if review.k else ""
    target = names.link_target(at, review.k) if review.variable == "D_LINK" else ""
    what = f"{review.variable}{k} of {now.number} {packet_name(now.number)}" + (f", to {target}" if target else "")
    then = words_of(review.variable, review.value, now.scale)
    return ReviewWords(place, what, then, "gone" if value is None else words_of(review.variable, value, now.scale))
