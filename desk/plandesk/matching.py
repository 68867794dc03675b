"""Which group, telegram and packet of one plan is which of another."""

from __future__ import annotations

import bisect
from collections.abc import Iterator, Sequence
from dataclasses import dataclass
from difflib import SequenceMatcher

from plandesk.tags import Tags
from plandesk.view import Group, Packet, Telegram

Pair = tuple[int | None, int | None]


@dataclass(frozen=True)
class TelegramPair:
    before: int | None
    after: int | None


@dataclass(frozen=True)
class GroupPair:
    before: int | None
    after: int | None
    telegrams: tuple[TelegramPair, ...] = ()
    turned: bool = False


def by_tags(before: Tags, after: Tags) -> list[GroupPair]:
    """The pairs of two states of one session: exact, since a tag never changes."""
    pairs = []
    for tag in in_order(before.groups, after.groups):
        a, b = before.groups.get(tag), after.groups.get(tag)
        old = before.shapes[a].pigs if a is not None else {}
        new = after.shapes[b].pigs if b is not None else {}
        telegrams = [TelegramPair(old.get(number), new.get(number)) for number in range(max(len(old), len(new)))]
        telegrams.sort(key=lambda pair: (pair.after if pair.after is not None else pair.before) or 0)
        pairs.append(_with_turn(GroupPair(a, b, tuple(telegrams))))
    return pairs


def in_order(before: dict[str, int], after: dict[str, int]) -> list[str]:
    """All tags in today's order; one that is gone stands where it stood, after what came before it."""
    order = sorted(after, key=after.__getitem__)
    gone = [tag for tag in sorted(before, key=before.__getitem__) if tag not in after]
    if not gone:
        return order
    old = sorted(before, key=before.__getitem__)
    place = {tag: at for at, tag in enumerate(old)}
    follow: dict[str | None, list[str]] = {}
    for tag in gone:
        at = place[tag] - 1
        while at >= 0 and old[at] not in after:
            at -= 1
        follow.setdefault(old[at] if at >= 0 else None, []).append(tag)
    result = list(follow.get(None, []))
    for tag in order:
        result += [tag, *follow.get(tag, [])]
    return result


def _with_turn(pair: GroupPair) -> GroupPair:
    """Notes a turn: more than one telegram, in the other order."""
    both = [t for t in pair.telegrams if t.before is not None and t.after is not None]
    turned = len(both) > 1 and all(t.before == len(both) - 1 - (t.after or 0) for t in both)
    return GroupPair(pair.before, pair.after, pair.telegrams, turned)


def by_content(first: Sequence[Group], second: Sequence[Group]) -> list[GroupPair]:
    """The pairs of two plans that share no session: by identity, and then by likeness."""
    places = {group.name: at for at, group in enumerate(second)}
    here = {group.name for group in first}
    found = {at: places[group.name] for at, group in enumerate(first) if group.name in places}
    lost = [at for at, group in enumerate(first) if group.name not in places]
    new = [at for at, group in enumerate(second) if group.name not in here]
    found |= _renumbered(first, second, lost, new)
    back = {b: a for a, b in found.items()}
    before = {str(at if at not in found else f"p{found[at]}"): at for at in range(len(first))}
    after = {f"p{at}" if at in back else f"q{at}": at for at in range(len(second))}
    return [_pair(first, second, before.get(tag), after.get(tag)) for tag in in_order(before, after)]


def _renumbered(first: Sequence[Group], second: Sequence[Group], lost: list[int], new: list[int]) -> dict[int, int]:
    """Groups that are there under another number: alike, and of the same country."""
    likely = []
    for a in lost:
        for b in new:
            if first[a].country == second[b].country and len(first[a].telegrams) == len(second[b].telegrams):
                likeness = max(_likeness(first[a], second[b], False), _likeness(first[a], second[b], True))
                if likeness >= 0.5:
                    likely.append((-likeness, abs(a - b), a, b))
    found: dict[int, int] = {}
    for _, _, a, b in sorted(likely):
        if a not in found and b not in found.values():
            found[a] = b
    return found


def _likeness(a: Group, b: Group, turned: bool) -> float:
    """From 0 to 1: how many of the fields are the same, but for numbers of groups."""
    same = total = 0
    others = reversed(b.telegrams) if turned else b.telegrams
    for one, other in zip(a.telegrams, others, strict=False):
        left, right = _values(one, turned), _values(other, False)
        matcher = SequenceMatcher(None, left, right, autojunk=False)
        same += 2 * sum(block.size for block in matcher.get_matching_blocks())
        total += len(left) + len(right)
    return same / total if total else 1.0


def _values(telegram: Telegram, turned: bool) -> list[tuple[str, int]]:
    values = []
    for packet in telegram.packets:
        for field in packet.fields:
            value = field.value
            if field.name == "NID_BG":
                continue
            if turned and field.name == "Q_DIR" and value < 2:
                value = 1 - value
            values.append((field.name, value))
    return values


def _pair(first: Sequence[Group], second: Sequence[Group], a: int | None, b: int | None) -> GroupPair:
    if a is None or b is None:
        count = len((second[b] if b is not None else first[a or 0]).telegrams)
        sides = [(pig if a is not None else None, pig if b is not None else None) for pig in range(count)]
        return GroupPair(a, b, tuple(TelegramPair(x, y) for x, y in sides))
    old, new = first[a], second[b]
    turned = len(old.telegrams) == len(new.telegrams) and _likeness(old, new, True) > _likeness(old, new, False)
    most = max(len(old.telegrams), len(new.telegrams))
    telegrams = []
    for pig in range(most):
        was = len(old.telegrams) - 1 - pig if turned else pig
        if was >= len(old.telegrams) or pig >= len(new.telegrams):
            telegrams.append(TelegramPair(was if was < len(old.telegrams) else None, pig if pig < len(new.telegrams) else None))
        else:
            telegrams.append(TelegramPair(was, pig))
    return GroupPair(a, b, tuple(telegrams), turned)


def shape(packet: Packet) -> tuple[object, ...]:
    """What `set` can't change: the names of the fields and the values of those that steer."""
    return packet.number, packet.known, packet.bits, tuple(field.name for field in packet.fields)


def align(old: Telegram, new: Telegram, old_bits: Sequence[str], new_bits: Sequence[str]) -> list[Pair]:
    """The packets of two telegrams side by side, so that as much as possible is alike."""

    def likeness(i: int, j: int) -> float:
        if old_bits[i] == new_bits[j]:
            return 10.0
        x, y = old.packets[i], new.packets[j]
        if x.number != y.number or [f.name for f in x.fields] != [f.name for f in y.fields]:
            return 0.0
        return 1 + 8 * sum(f.value == g.value for f, g in zip(x.fields, y.fields, strict=True)) / len(x.fields)

    n, m = len(old.packets), len(new.packets)
    like = [[likeness(i, j) for j in range(m)] for i in range(n)]
    best = [[0.0] * (m + 1) for _ in range(n + 1)]
    for i in reversed(range(n)):
        for j in reversed(range(m)):
            both = like[i][j] + best[i + 1][j + 1] if like[i][j] else 0.0
            best[i][j] = max(best[i + 1][j], best[i][j + 1], both)
    return list(_path(like, best))


def _path(like: Sequence[Sequence[float]], best: Sequence[Sequence[float]]) -> Iterator[Pair]:
    n, m = len(best) - 1, len(best[0]) - 1
    i = j = 0
    while i < n and j < m:
        if like[i][j] and best[i][j] == like[i][j] + best[i + 1][j + 1]:
            yield i, j
            i, j = i + 1, j + 1
        elif best[i][j] == best[i + 1][j]:
            yield i, None
            i += 1
        else:
            yield None, j
            j += 1
    yield from ((at, None) for at in range(i, n))
    yield from ((None, at) for at in range(j, m))


def join_moves(
    pairs: list[Pair], old_bits: Sequence[str], new_bits: Sequence[str]
) -> tuple[list[Pair], set[Pair]]:
    """A packet taken out and put in elsewhere with the same bits was moved: the pairs, and those that moved."""
    found, moved = list(pairs), set[Pair]()
    for out in [i for i, j in pairs if i is not None and j is None]:
        same = next((j for i, j in found if i is None and j is not None and new_bits[j] == old_bits[out]), None)
        if same is not None:
            found.remove((out, None))
            found[found.index((None, same))] = (out, same)
            moved.add((out, same))
    return found, moved


def rising(places: Sequence[int]) -> set[int]:
    """A longest run of places that rise: these stayed where they were, and the others moved."""
    tails: list[int] = []
    ends: list[int] = []
    back: list[int] = []
    for i, place in enumerate(places):
        at = bisect.bisect_left(tails, place)
        back.append(ends[at - 1] if at else -1)
        if at == len(tails):
            tails.append(place)
            ends.append(i)
        else:
            tails[at], ends[at] = place, i
    result, i = set(), ends[-1] if ends else -1
    while i >= 0:
        result.add(places[i])
        i = back[i]
    return result
