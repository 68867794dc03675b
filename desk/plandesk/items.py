"""Items of docs/FIELDS.md: lines of fields. As a person edits them, and for comparing."""

from __future__ import annotations

from collections.abc import Iterable, Iterator

from plandesk.spare import OWN_LENGTH
from plandesk.view import bits_of

WORDS = ("telegram", "packet", "rest", "end", "padding")
"""The words that begin a line which is no field."""


def to_edit(lines: Iterable[str]) -> Iterator[str]:
    """An item without what balisefields works out itself: places and widths, L_PACKET, and padding of ones."""
    for line in lines:
        words = line.split(" ")
        if words[0] not in WORDS:
            if words[2] != OWN_LENGTH:
                yield " ".join(words[2:])
        elif words[0] != "padding" or "0" in bits_of(words[2], int(words[1])):
            yield line


def plain(lines: Iterable[str]) -> list[str]:
    """An item for comparing, as `telegram_item` has it. ValueError or IndexError where it is none."""
    found = []
    for line in lines:
        words = line.split(" ")
        if words[0] in ("rest", "padding"):
            found.append(f"{words[0]} {bits_of(words[2], int(words[1]))}")
        elif words[0] in WORDS:
            found.append(line)
        else:
            name = words[2] if len(words) == 5 else words[0]
            found += [f"{name} {int(words[-1])}"] if name != OWN_LENGTH else []
    return found


def same(given: list[str], read: list[str]) -> bool:
    """Whether two plain items are the same. One without padding has ones there."""
    if read and read[-1].startswith("padding ") and given[-1:] == ["end"] and "0" not in read[-1].split(" ")[1]:
        return given == read[:-1]
    return given == read
