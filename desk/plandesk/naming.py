"""Today's names of what a tag stands for.

The identity of a group that is gone, and the number of a packet that is, come from the plan first read and from the words
of the journal alone. Places (PIG and PKT) are what balisefacts says (tags.py).
"""

from __future__ import annotations

from collections.abc import Callable
from dataclasses import dataclass, field
from functools import cached_property

from plandesk.identities import Identities
from plandesk.journal import Entry, Journal
from plandesk.tags import Tags
from plandesk.view import Groups, bits_of, packet_links


@dataclass(frozen=True)
class Names:
    """`tags` may be those of some groups alone, where only these are named."""

    base_of: Callable[[], Groups]
    today: Groups
    identities: Identities
    tags: Tags = field(repr=False)

    @property
    def journal(self) -> Journal:
        return self.identities.journal

    @cached_property
    def base(self) -> Groups:
        """The plan first read; few sentences need it."""
        return self.base_of()

    def group(self, tag: str) -> str:
        """C.N as it is today, or as it was last."""
        at = self.tags.groups.get(tag)
        return self.today.names[at] if at is not None else self.identities.last(tag)

    def group_gone(self, tag: str) -> bool:
        return tag not in self.tags.groups

    def packet_number(self, group: str, telegram: int, packet: str) -> int:
        """NID_PACKET, which no edit changes."""
        at = self.tags.packet((group, telegram, packet))
        if at is not None:
            return self.today[at[0]].telegrams[at[1]].packets[at[2]].number
        place = int(packet[1:])
        if packet[0] == "n":
            return int(self.journal.by_serial[place].digits[0][:2], 16)
        if group[0] == "b":
            return self.base[int(group[1:])].telegrams[telegram].packets[place].number
        return self._number_in(self.journal.by_serial[int(group[1:])].digits[telegram], place)

    @staticmethod
    def _number_in(digits: str, place: int) -> int:
        bits, at = bits_of(digits, 4 * len(digits)), 50
        for _ in range(place):
            at += int(bits[at + 10 : at + 23], 2)
        return int(bits[at : at + 8], 2)

    def scale(self, entry: Entry) -> int | None:
        """Q_SCALE of the packet when the edit was made: by the edits of it, else as it is today or was first."""
        after: int | None = None
        last: int | None = None
        for other in self._scalings.get(entry.packet_path, ()):
            if other.serial < entry.serial:
                last = other.value
            elif after is None:
                after = other.old
        if last is not None or after is not None:
            return last if last is not None else after
        assert entry.telegram is not None
        at = self.tags.packet((entry.group, entry.telegram, entry.packet))
        if at is not None:
            return self.today[at[0]].telegrams[at[1]].packets[at[2]].scale
        if entry.packet[0] == "b" and entry.group[0] == "b":
            packet = self.base[int(entry.group[1:])].telegrams[entry.telegram].packets[int(entry.packet[1:])]
            return packet.scale
        return None

    @cached_property
    def _scalings(self) -> dict[str, list[Entry]]:
        found: dict[str, list[Entry]] = {}
        for entry in self.journal.entries:
            if entry.variable == "Q_SCALE":
                found.setdefault(entry.packet_path, []).append(entry)
        return found

    def place(self, group: str, telegram: int, packet: str = "") -> str:
        """The words that a command takes: `5.250 1 0`."""
        if packet:
            at = self.tags.packet((group, telegram, packet))
            return f"{self.group(group)} {at[1]} {at[2]}" if at else ""
        there = self.tags.telegram(group, telegram)
        return f"{self.group(group)} {there[1]}" if there else ""

    def link_target(self, at: tuple[int, int, int], k: int) -> str:
        """The group that link K of a packet names today; empty where it names nothing."""
        group = self.today[at[0]]
        found = (link.target for link in packet_links(group, at[1], at[2], ()) if link.k == k)
        return next(found, "")
