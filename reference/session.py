"""Independent edits, and a session: undo, redo and strike.

Each state of the plan is kept. Nothing is ever changed back: an undo goes to the state before, and
a strike does the later edits again on the state before the struck one.
"""

import re
from collections.abc import Iterable
from dataclasses import dataclass, replace
from functools import lru_cache

from edits import Edit, Note, do
from plans import Identity, Plan
from refusals import Broken, Refusal, Refused

CHANGES: dict[str, str] = {
    "set": "g/t/p.VAR.k",
    "seth": "g/t/head.VAR",
    "insert": "g/t/n g/t/a.after",
    "delete": "g/t/p g/t/b.front",
    "move": "g/t/p.front g/t/p.after g/t/b.front g/t/a.after",
    "add": "n a.after",
    "drop": "g b.front",
    "renumber": "g.name",
    "turn": "g.turn",
}
"""The places that an edit changes, besides its own identities.

g, t, p: what it edits; VAR, k: the variable; a: the tag after which it puts something in; n: the
tag of that; b: what came next.
"""


@dataclass(frozen=True)
class Entry:
    """An edit that was done, with its serial and what it noted."""

    serial: int
    edit: Edit
    note: Note

    @property
    def new(self) -> str:
        """The tag of what the edit puts in."""
        return f"n{self.serial}"

    def place(self, pattern: str) -> str:
        """A place as it is written in CHANGES, with the words of this edit."""
        edit = self.edit
        names = {"g": edit.group, "t": str(edit.telegram), "p": edit.packet, "VAR": edit.variable}
        names |= {"k": str(edit.occurrence), "a": edit.after, "n": self.new}
        names["b"] = str(self.note.before)
        steps = (names.get(step, step) for step in re.split("([/.])", pattern))
        return "".join(steps)


def _identity_places(names: tuple[Identity, ...]) -> list[str]:
    return [f"#{country}.{number}" for country, number in names]


def changes(entry: Entry) -> list[str]:
    """The places that an edit changes."""
    places = [entry.place(pattern) for pattern in CHANGES[entry.edit.kind].split()]
    return places + _identity_places(entry.note.own)


def needs(entry: Entry) -> list[str]:
    """The places that an edit needs, besides those that it changes."""
    edit, places = entry.edit, []
    if edit.kind in ("insert", "delete") or edit.variable in ("Q_DIR", "M_DUP"):
        places.append(entry.place("g.turn"))
    if edit.variable == "Q_LINKORIENTATION":
        places.append(entry.place("g/t/p.NID_BG.k"))
    return places + _identity_places(entry.note.names)


@lru_cache(1 << 16)
def _steps(place: str) -> tuple[str, ...]:
    """The steps of a place; an identity is one step."""
    return (place,) if place[0] == "#" else tuple(re.split("[/.]", place))


def _overlap(some: Iterable[str], others: Iterable[str]) -> bool:
    """Whether all steps of a place are the first steps of one of the others."""
    of_others = [_steps(other) for other in others]
    return any(
        all(x == y for x, y in zip(_steps(one), other, strict=False))
        for one in some
        for other in of_others
    )


def _insert_and_delete(e: Edit, f: Edit) -> bool:
    same = (e.group, e.telegram) == (f.group, f.telegram)
    return same and {e.kind, f.kind} == {"insert", "delete"}


def are_apart(e: Entry, f: Entry, but: str = "") -> bool:
    """Whether neither edit changes what the other one changes or needs.

    The place `but` is left out of what f changes.
    """
    of_e, of_f = changes(e), [place for place in changes(f) if place != but]
    return not (
        _overlap(of_e, of_f + needs(f))
        or _overlap(of_f, needs(e))
        or _insert_and_delete(e.edit, f.edit)
    )


def stands_after(e: Entry, f: Entry) -> bool:
    """Whether a later edit f is anchored on what e put in, and else apart from e."""
    if f.edit.after != e.new:
        return False
    if (e.edit.kind, f.edit.kind) == ("add", "add"):
        return are_apart(e, f, e.place("n.after"))
    if e.edit.kind != "insert" or f.edit.kind not in ("insert", "move"):
        return False
    same = (e.edit.group, e.edit.telegram) == (f.edit.group, f.edit.telegram)
    return same and are_apart(e, f, e.place("g/t/n.after"))


def dependents(entry: Entry, later: Iterable[Entry]) -> list[int]:
    """The serials of the later edits that aren't independent of an edit."""
    return [f.serial for f in later if not (are_apart(entry, f) or stands_after(entry, f))]


def kept(struck: Entry, later: list[Entry]) -> list[Entry]:
    """The later entries once an edit is struck, or 26.

    One that stands after it is anchored where it was.
    """
    found: list[Entry] = []
    for entry in later:
        if not are_apart(struck, entry):
            if not stands_after(struck, entry):
                raise Refused(Refusal.DependsOn, entry.serial)
            entry = replace(entry, edit=replace(entry.edit, after=struck.edit.after))
        found.append(entry)
    return found


@dataclass(frozen=True, eq=False)
class State:
    """A plan, and the standing edits that made it: the last one, and the state before it."""

    plan: Plan
    last: tuple[Entry, "State"] | None = None

    def entries(self) -> list[Entry]:
        """The standing edits, the first one first."""
        found: list[Entry] = []
        state = self
        while state.last is not None:
            entry, state = state.last
            found.append(entry)
        return found[::-1]

    def after(self, serial: int, edit: Edit) -> "State":
        """The state after one more edit, or the edit's refusal."""
        plan, note = do(self.plan, serial, edit)
        return State(plan, (Entry(serial, edit, note), self))

    def after_again(self, entry: Entry) -> "State":
        """The same for an edit that was done before, which has to note the same again."""
        try:
            state = self.after(entry.serial, entry.edit)
        except Refused as refused:
            raise Broken(f"edit {entry.serial} is refused when done again: {refused}") from None
        if state.last is None or state.last[0] != entry:
            raise Broken(f"edit {entry.serial} notes something else when done again")
        return state

    def without(self, serial: int) -> "State":
        """The state that is left once an edit is struck, or 25 or 26.

        The later ones are done again on the plan before it.
        """
        later: list[Entry] = []
        state = self
        while state.last is not None:
            entry, state = state.last
            if entry.serial == serial:
                for each in kept(entry, later[::-1]):
                    state = state.after_again(each)
                return state
            later.append(entry)
        raise Refused(Refusal.NoSuchEdit)


class Session:
    """A plan first read, and what was done on it.

    `undone` has the serials of the edits taken back, the last one at its end. `levels` has the
    state if all of these were done again, and then the one that each of them left when it was
    struck. So an undo and a redo go to a state that is kept.
    """

    def __init__(self, first: Plan, next_serial: int = 1) -> None:
        self.first = first
        self.next_serial = next_serial
        self.undone: list[int] = []
        self.levels = [State(first)]

    @property
    def plan(self) -> Plan:
        """What the standing edits make of the plan first read."""
        return self.levels[-1].plan

    @property
    def entries(self) -> list[Entry]:
        """The entries of the journal."""
        return self.levels[0].entries()

    @property
    def standing(self) -> list[Entry]:
        return self.levels[-1].entries()

    def accept(self, serial: int, edit: Edit) -> Note:
        """Does an edit as the last one. What was undone is gone for good."""
        state = self.levels[-1].after(serial, edit)
        self.levels, self.undone = [state], []
        assert state.last is not None
        return state.last[0].note

    def edit(self, edit: Edit) -> int:
        """Does an edit under the next serial."""
        serial = self.next_serial
        self.accept(serial, edit)
        self.next_serial += 1
        return serial

    def can_strike(self, serial: int) -> bool:
        """Whether a strike of this edit is accepted."""
        try:
            self.levels[-1].without(serial)
        except Refused:
            return False
        return True

    def strike(self, serial: int) -> int:
        """Takes back one edit and keeps the later ones, or 25 or 26."""
        self.levels.append(self.levels[-1].without(serial))
        self.undone.append(serial)
        return serial

    def undo(self) -> int:
        """Takes back the last standing edit, or 23."""
        last = self.levels[-1].last
        if last is None:
            raise Refused(Refusal.NothingToUndo)
        return self.strike(last[0].serial)

    def redo(self) -> int:
        """Does again what was taken back last, at the place of its serial, or 24."""
        if not self.undone:
            raise Refused(Refusal.NothingToRedo)
        self.levels.pop()
        return self.undone.pop()
