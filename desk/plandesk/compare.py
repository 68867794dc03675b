"""What differs between two plans: field by field, and bit by bit where fields can't say it."""

from __future__ import annotations

from collections.abc import Iterator, Sequence
from dataclasses import dataclass
from functools import cached_property

from plandesk.matching import GroupPair, Pair, TelegramPair, align, join_moves
from plandesk.view import HEADER_BITS, Groups, Packet, Telegram, bits_of, telegrams_of
from plandesk.vocabulary import packet_name, words_of

IMPLIED = frozenset({"NID_PACKET", "L_PACKET", "N_ITER", "Q_NEWCOUNTRY"})
"""Fields that follow from the others, so that they say nothing beside them."""
NUMBERS = (("NID_C", 25, 35), ("NID_BG", 35, 49), ("N_PIG", 9, 12), ("N_TOTAL", 12, 15))
"""The numbers of a header that aren't in the view of a telegram, with their bits."""


@dataclass(frozen=True)
class Plan:
    """A plan as the engine printed it, with its view."""

    groups: Groups
    digits: tuple[tuple[str, ...], ...]

    @classmethod
    def of(cls, text: str, groups: Groups) -> Plan:
        return cls(groups, telegrams_of(text))

    def bits(self, group: int, pig: int) -> str:
        return bits_of(self.digits[group][pig], self.groups[group].telegrams[pig].bits)


@dataclass(frozen=True)
class FieldChange:
    """A variable before and after; None where the packet isn't there."""

    name: str
    k: int
    before: int | None
    after: int | None
    scale: int | None = None

    def words(self, value: int | None) -> str:
        return "" if value is None else words_of(self.name, value, self.scale)

    @property
    def says_more(self) -> bool:
        """Whether the words aren't just the numbers."""
        return any(value is not None and self.words(value) != str(value) for value in (self.before, self.after))


@dataclass(frozen=True)
class Part:
    """A stretch of a telegram: its header, a packet, or what follows packet 255."""

    kind: str
    """`header`, `packet`, `end`."""
    before: str | None
    """Its bits."""
    after: str | None
    place_before: int | None = None
    place_after: int | None = None
    changes: tuple[FieldChange, ...] = ()
    number: int = 0
    content: bool = False
    """Whether bits differ that no field shows: of an opaque packet, or padding."""
    moved: bool = False

    @property
    def changed(self) -> bool:
        return self.content or self.moved or bool(self.shown) or self.before is None or self.after is None

    @cached_property
    def shown(self) -> tuple[FieldChange, ...]:
        """The changes that are shown: a field that follows from others isn't."""
        if self.kind != "packet":
            return self.changes
        return tuple(change for change in self.changes if change.name not in IMPLIED)

    @property
    def name(self) -> str:
        if self.kind == "header":
            return "header"
        return f"{self.number} {packet_name(self.number)}" if self.kind == "packet" else "padding"

    @property
    def place(self) -> str:
        return f"packet {arrow(self.place_before, self.place_after)}" if self.kind == "packet" else self.name

    @property
    def note(self) -> str:
        """What happened to it as a whole; empty where its fields say it."""
        if self.kind == "packet":
            did = "put in" if self.before is None else "taken out" if self.after is None else "moved"
            if self.before is None or self.after is None or self.moved:
                return f"{self.name}: {did}"
            return f"content of {self.name}" if self.content else ""
        return "padding" if self.content else ""


@dataclass(frozen=True)
class TelegramDiff:
    before: int | None
    after: int | None
    parts: tuple[Part, ...]

    @property
    def changed(self) -> bool:
        return any(part.changed for part in self.parts)

    @property
    def place(self) -> str:
        return f"balise {arrow(self.before, self.after)}"


def arrow(before: int | None, after: int | None) -> str:
    """A place, or two of them where it changed."""
    if before is not None and after is not None and before != after:
        return f"{before} → {after}"
    return str(before if after is None else after)


@dataclass(frozen=True)
class GroupDiff:
    """A group that differs. `before` and `after` are its places in the plans."""

    before: int | None
    after: int | None
    name_before: str
    name_after: str
    turned: bool
    telegrams: tuple[TelegramDiff, ...]

    @property
    def kind(self) -> str:
        return "added" if self.before is None else "taken out" if self.after is None else "changed"

    @property
    def name(self) -> str:
        return self.name_after or self.name_before

    @property
    def renumbered(self) -> bool:
        return bool(self.name_before and self.name_after) and self.name_before != self.name_after

    @property
    def title(self) -> str:
        return f"{self.name_before} → {self.name_after}" if self.renumbered else self.name

    @cached_property
    def words(self) -> list[str]:
        """What happened to it as a whole."""
        words = [self.kind] if self.kind != "changed" else []
        words += ["renumbered"] if self.renumbered else []
        words += ["turned round"] if self.turned else []
        return words or ["changed"]

    @cached_property
    def count(self) -> int:
        """The number of fields that differ."""
        return sum(len(part.shown) for telegram in self.telegrams for part in telegram.parts)


def compare(pairs: Sequence[GroupPair], a: Plan, b: Plan) -> Iterator[GroupDiff]:
    """The groups that differ in a bit, in today's order. The same ones are left out."""
    for pair in pairs:
        old = a.digits[pair.before] if pair.before is not None else None
        new = b.digits[pair.after] if pair.after is not None else None
        if old == new:
            continue
        was = a.groups.names[pair.before] if pair.before is not None else ""
        now = b.groups.names[pair.after] if pair.after is not None else ""
        telegrams = tuple(_telegram(each, pair, a, b) for each in pair.telegrams)
        yield GroupDiff(pair.before, pair.after, was, now, pair.turned, telegrams)


def order_differs(pairs: Sequence[GroupPair]) -> bool:
    """Whether the groups that both plans have stand in another order."""
    places = [pair.before for pair in pairs if pair.before is not None and pair.after is not None]
    return places != sorted(places)


@dataclass(frozen=True)
class Side:
    """A telegram of one of the plans."""

    telegram: Telegram
    bits: str

    @cached_property
    def packets(self) -> list[str]:
        """The bits of each packet."""
        starts = self.telegram.starts()
        return [self.bits[start:end] for start, end in zip(starts, starts[1:], strict=False)]


def _side(plan: Plan, group: int | None, pig: int | None) -> Side | None:
    if group is None or pig is None:
        return None
    return Side(plan.groups[group].telegrams[pig], plan.bits(group, pig))


def _telegram(pair: TelegramPair, group: GroupPair, a: Plan, b: Plan) -> TelegramDiff:
    old, new = _side(a, group.before, pair.before), _side(b, group.after, pair.after)
    packets, moved = _packet_pairs(old, new)
    parts = [_header(old, new)]
    parts += [_packet(p, q, old, new, (p, q) in moved) for p, q in packets]
    parts.append(_end(old, new))
    return TelegramDiff(pair.before, pair.after, tuple(parts))


def _packet_pairs(old: Side | None, new: Side | None) -> tuple[list[Pair], set[Pair]]:
    if old and new:
        aligned = align(old.telegram, new.telegram, old.packets, new.packets)
        return join_moves(aligned, old.packets, new.packets)
    found: list[Pair] = [(at, None) for at in range(len(old.packets))] if old else []
    found += [(None, at) for at in range(len(new.packets))] if new else []
    return found, set()


def _header(old: Side | None, new: Side | None) -> Part:
    changes = []
    if old and new:
        values = [(name, int(old.bits[i:j], 2), int(new.bits[i:j], 2)) for name, i, j in NUMBERS]
        both = zip(old.telegram.header, new.telegram.header, strict=True)
        values += [(name, was, now) for (name, was), (_, now) in both]
        changes = [FieldChange(name, 0, was, now) for name, was, now in values if was != now]
    before, after = (side.bits[:HEADER_BITS] if side else None for side in (old, new))
    return Part("header", before, after, changes=tuple(changes))


def _packet(p: int | None, q: int | None, old: Side | None, new: Side | None, moved: bool) -> Part:
    was = old.telegram.packets[p] if old and p is not None else None
    now = new.telegram.packets[q] if new and q is not None else None
    before = old.packets[p] if old and p is not None else None
    after = new.packets[q] if new and q is not None else None
    one = now or was
    assert one is not None
    opaque = not one.known and before is not None and after is not None and before[23:] != after[23:]
    return Part("packet", before, after, p, q, tuple(_fields(was, now)), one.number, opaque, moved)


def _fields(was: Packet | None, now: Packet | None) -> Iterator[FieldChange]:
    """The fields that differ; of a packet that came or went, all."""
    one = now or was
    old, new = was.by_name if was else {}, now.by_name if now else {}
    for name, k, _ in one.fields if one else ():
        before, after = old.get((name, k)), new.get((name, k))
        if before != after:
            yield FieldChange(name, k, before, after, one.scale if one else None)


def _end(old: Side | None, new: Side | None) -> Part:
    """Packet 255 and the padding. Padding counts as changed only where both telegrams have padding."""
    content = False
    if old and new:
        both = max(old.telegram.used, new.telegram.used)
        content = len(old.bits) != len(new.bits) or old.bits[both:] != new.bits[both:]
    before, after = (side.bits[side.telegram.used - 8 :] if side else None for side in (old, new))
    return Part("end", before, after, content=content)
