"""Differences as rows, in the words of the page (data/examples/differences.json)."""

from __future__ import annotations

from collections.abc import Iterator
from dataclasses import dataclass

from plandesk.compare import FieldChange, GroupDiff, Part, TelegramDiff


@dataclass(frozen=True)
class Row:
    """A line of a difference: a note, or a variable with its value before and after."""

    place: str
    note: str = ""
    change: FieldChange | None = None


def notes_of(diff: GroupDiff) -> list[str]:
    """What stands beside the title."""
    return [word for word in diff.words if word not in ("changed", "renumbered")]


def rows_of(diff: GroupDiff) -> Iterator[Row]:
    """The rows of a group that both plans have. One that came or went has none."""
    for telegram in diff.telegrams if diff.kind == "changed" else ():
        if telegram.changed or telegram.before != telegram.after:
            yield from _telegram_rows(telegram)


def _telegram_rows(telegram: TelegramDiff) -> Iterator[Row]:
    if telegram.before is None or telegram.after is None:
        yield Row(telegram.place, "put in" if telegram.before is None else "taken out")
        return
    for part in telegram.parts:
        if part.changed and part.kind != "end":
            yield from _part_rows(f"{telegram.place}, {part.place}", part)
    if telegram.parts[-1].content:
        yield Row(telegram.place, "padding")


def _part_rows(place: str, part: Part) -> Iterator[Row]:
    if part.note:
        yield Row(place, part.note)
    for change in part.shown:
        yield Row(place, change=change)


def brief(diff: GroupDiff, most: int = 3) -> str:
    """The first few changes, those with a unit before numbers of groups."""
    found: list[tuple[int, str]] = []
    for row in rows_of(diff):
        if row.change is not None and row.change.before is not None and row.change.after is not None:
            change = row.change
            rank = 2 if change.name in ("NID_BG", "N_PIG", "Q_LINKORIENTATION", "Q_DIR", "M_DUP") else 1
            found.append((rank, f"{change.name} {change.words(change.before)} → {change.words(change.after)}"))
        elif row.note and diff.kind == "changed":
            found.append((0, row.note))
    words = list(dict.fromkeys(word for _, word in sorted(found, key=lambda each: each[0])))
    return ", ".join(words[:most]) + (f" and {len(words) - most} more" if len(words) > most else "")
