"""Which edit depends on which, by what balisefacts says of each.

A later edit f that depends on e is an arrow from e to f. Before e all is struck that arrows reach from e, the last one
first. A strike may bring up an arrow that wasn't there: an edit that was anchored on what the struck one put in is then
anchored where that was, and so it changes another place. If an earlier edit that goes too changes that place, it has to
go as well.
"""

from __future__ import annotations

from collections.abc import Collection, Iterable, Iterator
from dataclasses import dataclass
from functools import cached_property

from plandesk.facts import Facts

AFTER = ".after"
FRONT = ".front"


@dataclass(frozen=True)
class Dependents:
    """What has to be struck before standing edits, and what each of them needs."""

    facts: Facts

    def all_of(self, *serials: int) -> list[int]:
        """All that has to be struck before some edits or between them, the last one first. None where they don't stand."""
        found = self._reached(serial for serial in serials if serial in self.facts)
        while more := {each for each, _, _ in self._moved(found)} - found:
            found |= self._reached(more)
        return sorted(found.difference(serials), reverse=True)

    def needed_by(self, serial: int) -> list[int]:
        """The earlier edits that it depends on, without those that follow from these."""
        return self._needs.get(serial, [])

    def reason(self, serial: int, struck: Collection[int]) -> tuple[int, str]:
        """The first of some earlier edits on which it depends, and the place where they meet.

        No place: one is an insert and the other a delete.
        """
        earlier = next((each for each in sorted(struck) if serial in self.facts[each].dependents), None)
        if earlier is not None:
            return earlier, self._meeting(earlier, serial)
        return next((at, place) for each, at, place in self._moved(struck) if each == serial)

    def _reached(self, serials: Iterable[int]) -> set[int]:
        seen = set(serials)
        waiting = list(seen)
        while waiting:
            for later in self.facts[waiting.pop()].dependents:
                if later not in seen:
                    seen.add(later)
                    waiting.append(later)
        return seen

    def _moved(self, struck: Collection[int]) -> Iterator[tuple[int, int, str]]:
        """Edits that would be anchored at a place that an earlier struck one changes: both, and the place."""
        for each in sorted(struck):
            for later in self._anchored.get(each, ()):
                yield from ((later, at, place) for at, place in self._met(each, struck))

    def _met(self, gone: int | None, struck: Collection[int]) -> Iterator[tuple[int, str]]:
        """Struck edits that change a place after which `gone` stood, or that it gets when its own anchor goes."""
        while gone is not None and gone in struck:
            place = _anchor(self.facts[gone].changes)
            yield from ((at, place) for at in self._changing[place] if at < gone and at in struck)
            gone = self._put_in.get(place.removesuffix(AFTER))

    @cached_property
    def _put_in(self) -> dict[str, int]:
        """The edits that put something in, by its place."""
        found = {}
        for serial, each in self.facts.items():
            if _anchor(each.changes) and not each.changes[0].endswith(FRONT):
                found[each.changes[0]] = serial
        return found

    @cached_property
    def _anchored(self) -> dict[int, list[int]]:
        """The edits that are anchored on what an edit put in."""
        found: dict[int, list[int]] = {}
        for serial, each in self.facts.items():
            on = self._put_in.get(_anchor(each.changes).removesuffix(AFTER))
            if on is not None:
                found.setdefault(on, []).append(serial)
        return found

    @cached_property
    def _changing(self) -> dict[str, list[int]]:
        """The edits that change what comes after something."""
        found: dict[str, list[int]] = {}
        for serial, each in self.facts.items():
            for place in each.changes:
                if place.endswith(AFTER):
                    found.setdefault(place, []).append(serial)
        return found

    @cached_property
    def _needs(self) -> dict[int, list[int]]:
        found: dict[int, list[int]] = {}
        for serial, each in self.facts.items():
            seen: set[int] = set()
            for later in each.dependents:
                if later not in seen:
                    found.setdefault(later, []).append(serial)
                    seen |= self._reached([later])
        return found

    def _meeting(self, earlier: int, later: int) -> str:
        """The place where two edits meet, the longer one."""
        one, other = self.facts[earlier], self.facts[later]
        pairs = [(p, q) for p in one.changes for q in (*other.changes, *other.needs)]
        pairs += [(p, q) for p in one.needs for q in other.changes]
        return next((max(p, q, key=len) for p, q in pairs if _overlap(p, q)), "")


def _anchor(changes: list[str]) -> str:
    """The place after which an edit puts something; empty where it doesn't."""
    return next((place for place in reversed(changes) if place.endswith(AFTER)), "")


def _overlap(place: str, other: str) -> bool:
    """Whether all steps of one place are the first steps of the other (docs/FORMATS.md, Places)."""
    shorter, longer = sorted((place, other), key=len)
    return longer.startswith(shorter) and longer[len(shorter) :][:1] in ("", "/", ".")
