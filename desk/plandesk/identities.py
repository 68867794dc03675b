"""The identities of groups by the plan first read and the journal alone: also of those that are gone."""

from __future__ import annotations

from dataclasses import dataclass, field
from functools import cached_property

from plandesk.journal import Entry, Journal
from plandesk.view import identity_of


@dataclass(frozen=True)
class Identities:
    """C.N by tags. KeyError or IndexError where base plan and journal have no such group."""

    base: str = field(repr=False)
    journal: Journal

    def last(self, tag: str) -> str:
        """As the group came, and by the renumberings that stand."""
        country, number = identity_of(self._first_telegram(tag))
        for entry in self._renumberings.get(tag, ()):
            if entry.serial not in self.journal.gone:
                number = entry.value
        return f"{country}.{number}"

    def balises(self, tag: str) -> int:
        """How many balises a group has. No edit changes that."""
        number = int(tag[1:])
        return self._came[number].count("\n") + 1 if tag[0] == "b" else len(self.journal.by_serial[number].digits)

    def _first_telegram(self, tag: str) -> str:
        number = int(tag[1:])
        return self._came[number] if tag[0] == "b" else self.journal.by_serial[number].digits[0]

    @cached_property
    def _came(self) -> list[str]:
        """The groups of the plan first read, as their lines."""
        return self.base.removesuffix("\n").split("\ngroup\n")[1:]

    @cached_property
    def _renumberings(self) -> dict[str, list[Entry]]:
        found: dict[str, list[Entry]] = {}
        for entry in self.journal.entries:
            if entry.kind == "renumber":
                found.setdefault(entry.group, []).append(entry)
        return found
