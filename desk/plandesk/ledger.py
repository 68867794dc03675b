"""Which edits a journal has to have after a run, by its replies alone: what finds an engine that loses one."""

from __future__ import annotations

from collections.abc import Iterable

from plandesk.engine import Reply
from plandesk.journal import Journal


def due(before: Journal, replies: Iterable[Reply]) -> tuple[set[int], list[int]]:
    """The serials of all entries, and the stack of the undone ones, the bottom first."""
    serials = {entry.serial for entry in before.entries}
    stack = list(before.undone)
    for reply in replies:
        word = reply.text.split(" ", 1)[0]
        if word == "ok":
            serials -= set(stack)
            serials.add(reply.number)
            stack = []
        elif word in ("undone", "struck"):
            stack.append(reply.number)
        elif word == "redone":
            stack.remove(reply.number)
    return serials, stack


def agrees(before: Journal, replies: Iterable[Reply], after: Journal) -> bool:
    serials, stack = due(before, replies)
    found = [entry.serial for entry in after.entries]
    return len(found) == len(serials) and set(found) == serials and list(after.undone) == stack
