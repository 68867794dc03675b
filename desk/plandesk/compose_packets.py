"""Commands that make one telegram of another: of its header, and of its packets."""

from __future__ import annotations

from collections.abc import Iterator

from plandesk.compare import Side
from plandesk.matching import align, join_moves, shape
from plandesk.view import Packet, Telegram, digits_of
from plandesk.vocabulary import HEADER_SET, is_steering


class Inexact(Exception):
    """No command says this; the group has to be added anew."""


def header_commands(here: str, was: Telegram, now: Telegram) -> Iterator[str]:
    for (name, before), (_, after) in zip(was.header, now.header, strict=True):
        if before != after and name not in HEADER_SET:
            raise Inexact(f"telegram {here.split(' ')[1]} has another {name}")
        if before != after:
            yield f"seth {here} {name} {after}"


def packet_commands(here: str, old: Side, new: Side) -> Iterator[str]:
    """First deletes, then inserts and moves in the order of the new packets, then the values."""
    aligned = align(old.telegram, new.telegram, old.packets, new.packets)
    known = [pair if _settable(old, new, *pair) else None for pair in aligned]
    loose: list[tuple[int | None, int | None]] = []
    for pair, fits in zip(aligned, known, strict=True):
        loose += [pair] if fits or None in pair else [(pair[0], None), (None, pair[1])]
    joined, _ = join_moves(loose, old.packets, new.packets)
    back = {q: p for p, q in joined if p is not None and q is not None}
    here_now = [p for p in range(len(old.packets)) if p in back.values()]
    for p in reversed(range(len(old.packets))):
        if p not in here_now:
            yield f"delete {here} {p}"
    for q, bits in enumerate(new.packets):
        if q not in back:
            yield f"insert {here} {q} {digits_of(bits)}"
            here_now.insert(q, -1 - q)
        elif here_now[q] != back[q]:
            place = here_now.index(back[q])
            yield f"move {here} {place} {q}"
            here_now.insert(q, here_now.pop(place))
    for q, p in sorted(back.items()):
        yield from _sets(f"{here} {q}", old.telegram.packets[p], new.telegram.packets[q])


def _sets(here: str, was: Packet, now: Packet) -> Iterator[str]:
    for one, other in zip(was.fields, now.fields, strict=True):
        if one.value != other.value:
            yield f"set {here} {other.name} {other.k} {other.value}"


def _settable(old: Side, new: Side, p: int | None, q: int | None) -> bool:
    """Whether `set` makes one packet of the other."""
    if p is None or q is None:
        return False
    one, other = old.telegram.packets[p], new.telegram.packets[q]
    if shape(one) != shape(other):
        return False
    if not one.known:
        return old.packets[p][23:] == new.packets[q][23:]
    both = zip(one.fields, other.fields, strict=True)
    return all(x.value == y.value for x, y in both if is_steering(x.name))
