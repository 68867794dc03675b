"""Which edits a changed group comes from: its own, and those that reached it through links."""

from __future__ import annotations

from collections.abc import Iterable, Sequence
from dataclasses import dataclass

from plandesk.compare import GroupDiff
from plandesk.errors import Usage
from plandesk.journal import Entry
from plandesk.naming import Names
from plandesk.out import listed
from plandesk.view import Groups, links_of


@dataclass(frozen=True)
class Cause:
    own: tuple[int, ...]
    through: tuple[Entry, ...]
    """Turns and renumberings of groups that its links name."""

    def words(self, names: Names) -> str:
        parts = [f"edit{'s' * (len(self.own) > 1)} {listed(self.own)}"] if self.own else []
        for entry in self.through:
            what = "turn" if entry.kind == "turn" else "renumbering"
            parts.append(f"{what} of {names.group(entry.group)} (edit {entry.serial})")
        return ", ".join(parts)


def causes(diffs: Sequence[GroupDiff], names: Names) -> list[Cause]:
    """In the order of the differences."""
    own: dict[str, list[int]] = {}
    whole: dict[str, list[Entry]] = {}
    for entry in names.journal.standing:
        tag = entry.tag if entry.kind == "add" else entry.group
        own.setdefault(tag, []).append(entry.serial)
        if entry.kind in ("turn", "renumber"):
            whole.setdefault(tag, []).append(entry)
    by_name = {names.group(tag): tag for tag in whole}
    by_old = {names.base[int(tag[1:])].name: tag for tag in whole if tag[0] == "b"}
    targets = _targets(names.today, by_name)
    old_targets = _targets(names.base, by_old)
    found = []
    for diff in diffs:
        tag = names.tags.group_at[diff.after] if diff.after is not None else f"b{diff.before}"
        tags: set[str] = set(targets.get(diff.name_after, ())) | set(old_targets.get(diff.name_before, ()))
        through = [e for other in tags - {tag} for e in whole[other] if _reached(e, diff)]
        found.append(Cause(tuple(own.get(tag, ())), tuple(sorted(through, key=lambda e: e.serial))))
    return found


def _targets(groups: Groups, wanted: dict[str, str]) -> dict[str, set[str]]:
    found: dict[str, set[str]] = {}
    for link in links_of(groups):
        if link.target in wanted:
            found.setdefault(link.source, set()).add(wanted[link.target])
    return found


def _reached(entry: Entry, diff: GroupDiff) -> bool:
    """Whether a field that such an edit changes in links is among the differences."""
    name = "Q_LINKORIENTATION" if entry.kind == "turn" else "NID_BG"
    return any(
        c.name == name for t in diff.telegrams for p in t.parts if p.kind == "packet" for c in p.changes
    )


@dataclass(frozen=True)
class Request:
    """The groups that a change request names."""

    names: tuple[str, ...]

    def beyond(self, diffs: Iterable[GroupDiff]) -> list[GroupDiff]:
        """The groups that differ and that it doesn't name, by neither number."""
        return [d for d in diffs if not {d.name_before, d.name_after} & set(self.names)]

    def idle(self, diffs: Iterable[GroupDiff]) -> list[str]:
        """The groups that it names and that don't differ."""
        changed = {name for d in diffs for name in (d.name_before, d.name_after)}
        return [name for name in self.names if name not in changed]


def read_request(text: str) -> Request:
    """Groups C.N, apart by blanks, commas or lines; # begins a comment."""
    words = [word for line in text.splitlines() for word in line.split("#")[0].replace(",", " ").split()]
    for word in words:
        country, dot, number = word.partition(".")
        if not (dot and country.isdigit() and number.isdigit()):
            raise Usage(f"{word!r} in the request is no group C.N")
    return Request(tuple(dict.fromkeys(words)))
