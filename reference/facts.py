"""Facts of the session that stands: what edits change and need, what depends on them, and tags."""

from collections.abc import Iterator
from dataclasses import dataclass

from plans import Plan
from session import Session, changes, dependents, needs


@dataclass(frozen=True)
class Asked:
    """Which facts: of all standing edits, of the one with a serial, or the tags of the plan."""

    serial: int | None = None
    tags: bool = False


def fact_lines(session: Session, asked: Asked) -> Iterator[str]:
    yield "facts 1"
    yield from tag_lines(session.plan) if asked.tags else edit_lines(session, asked.serial)


def edit_lines(session: Session, only: int | None) -> Iterator[str]:
    """What each standing edit changes and needs, and the later ones that depend on it."""
    standing = session.standing
    for at, entry in enumerate(standing):
        if only not in (None, entry.serial):
            continue
        yield f"edit {entry.serial}"
        yield from (f"changes {place}" for place in changes(entry))
        yield from (f"needs {place}" for place in needs(entry))
        yield from (f"dependent {serial}" for serial in dependents(entry, standing[at + 1 :]))


def tag_lines(plan: Plan) -> Iterator[str]:
    """The tags of each group, its telegrams and their packets, as they stand."""
    for group in plan.groups:
        country, number = group.identity
        name = f"{country}.{number}"
        yield f"group {name} {group.tag}"
        for pig, telegram in enumerate(group.telegrams):
            yield f"telegram {name} {pig} {telegram.tag}"
            for place, packet in enumerate(telegram.packets):
                yield f"packet {name} {pig} {place} {packet.tag}"
