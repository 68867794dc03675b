"""What a turn leaves for a person to look at. A line stays until it is ticked off.

The file `reviews` is text, one line each, after the line `reviews 1`:

    N STATE SERIAL G/T/P VAR K VALUE        a distance, and its value after the turn
    N STATE SERIAL G/T/P opaque NID_PACKET  a packet that the engine doesn't know

STATE is `open` or `done`. Places are tags, so that they outlive the next turn and renumbering.
"""

from __future__ import annotations

from collections.abc import Sequence
from dataclasses import dataclass, replace
from typing import Self

from plandesk.engine import Engine, Run
from plandesk.errors import BadInput, Usage
from plandesk.facts import find_facts
from plandesk.tags import PacketPath, tags_of


@dataclass(frozen=True)
class Review:
    number: int
    done: bool
    serial: int
    path: PacketPath
    variable: str
    """`opaque` for a packet to look at by hand."""
    k: int
    value: int
    """The value after the turn, or NID_PACKET."""

    @property
    def opaque(self) -> bool:
        return self.variable == "opaque"

    def line(self) -> str:
        group, telegram, packet = self.path
        what = f"opaque {self.value}" if self.opaque else f"{self.variable} {self.k} {self.value}"
        return f"{self.number} {'done' if self.done else 'open'} {self.serial} {group}/{telegram}/{packet} {what}"


@dataclass(frozen=True)
class Reviews:
    items: tuple[Review, ...] = ()

    @classmethod
    def read(cls, text: str) -> Self:
        lines = text.splitlines()
        if not lines or lines[0] != "reviews 1":
            raise BadInput("the file reviews doesn't begin with `reviews 1`")
        try:
            return cls(tuple(_review(line) for line in lines[1:]))
        except (ValueError, IndexError):
            raise BadInput("the file reviews has a line that can't be read") from None

    def text(self) -> str:
        return "".join(f"{line}\n" for line in ["reviews 1", *(item.line() for item in self.items)])

    def plus(self, others: Reviews) -> Reviews:
        return Reviews((*self.items, *others.items))

    def open(self, standing: frozenset[int]) -> list[Review]:
        """Those to work through: not ticked off, and their turn stands."""
        return [item for item in self.items if not item.done and item.serial in standing]

    def marked(self, numbers: Sequence[int], done: bool) -> Reviews:
        known = {item.number for item in self.items}
        for number in numbers:
            if number not in known:
                raise Usage(f"there is no review {number}", "`plandesk reviews --all` lists them")
        return Reviews(tuple(replace(i, done=done) if i.number in numbers else i for i in self.items))


def _review(line: str) -> Review:
    number, state, serial, path, what, *rest = line.split(" ")
    group, telegram, packet = path.split("/")
    if state not in ("open", "done"):
        raise ValueError(state)
    k, value = (0, rest[0]) if what == "opaque" else (int(rest[0]), rest[1])
    return Review(int(number), state == "done", int(serial), (group, int(telegram), packet), what, k, int(value))


def new_reviews(
    engine: Engine, base: str, journal: str, commands: Sequence[str], run: Run, old: Reviews
) -> Reviews:
    """The review lines of a run, by tags. The tags are those right after each turn."""
    number = max((item.number for item in old.items), default=0)
    found: list[Review] = []
    for at, reply in enumerate(run.replies):
        lines = list(dict.fromkeys(reply.reviews))
        if not lines:
            continue
        then = run if at + 1 == len(commands) else engine.run(base, journal, commands[: at + 1])
        tags = tags_of(find_facts(), base, then, {line.split(" ")[0] for line in lines})
        for line in lines:
            number += 1
            name, pig, pkt, what, *rest = line.split(" ")
            path = tags.path((then.groups.places[name], int(pig), int(pkt)))
            k, value = (0, rest[0]) if what == "opaque" else (int(rest[0]), rest[1])
            found.append(Review(number, False, reply.number, path, what, k, int(value)))
    return Reviews(tuple(found))
