"""Places of docs/FORMATS.md in words, by today's identities."""

from __future__ import annotations

from plandesk.journal import END, START, Entry
from plandesk.naming import Names

SIDES = {"after": ("what comes after", "what comes first in"), "front": ("what comes before", "what comes last in")}
"""A side of a packet or a group in words, and of the start or the end of a list."""
OF_GROUP = {"turn": "orientation", "name": "number"}


def place_words(place: str, names: Names) -> str:
    """A place as balisefacts prints it."""
    if place[0] == "#":
        return f"identity {place[1:]}"
    path, *fields = place.split(".")
    group, *below = path.split("/")
    if fields and fields[0] in SIDES:
        beside, at_end = SIDES[fields[0]]
        *above, last = [group, *below]
        if last in (START, END):
            return f"{at_end} {_item(above, names) if above else 'the plan'}"
        return f"{beside} {_item([group, *below], names)}"
    if fields and not below:
        return f"{OF_GROUP[fields[0]]} of {names.group(group)}"
    if below[1:] == ["head"]:
        return f"{fields[0]} of {_item([group, below[0]], names)}"
    what = _item([group, *below], names)
    return f"{fields[0]} {fields[1]} of {what}" if fields else f"{'packet' if below else 'group'} {what}"


def room_words(entry: Entry, names: Names) -> str:
    """The room of the telegram that an edit changes."""
    return f"room in {_item([entry.group, str(entry.telegram)], names)}"


def _item(tags: list[str], names: Names) -> str:
    """A group, a telegram or a packet in the words of a command; by its tag where it is gone."""
    group, *below = tags
    if not below:
        return names.group(group)
    telegram = names.place(group, int(below[0])) or f"{names.group(group)} (telegram {below[0]})"
    return telegram if len(below) == 1 else names.place(group, int(below[0]), below[1]) or f"{below[1]} in {telegram}"
