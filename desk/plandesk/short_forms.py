"""Short forms of commands, written out in the engine's own words before it sees them.

- `set 5.200 1 0 V_TSR 0 30km/h` and `.. L_TSR 0 450m`: a value with its unit, by Q_SCALE of the packet at that moment.
- `add after 5.200 HEX ..`: the place by the group before it.
- `put 65 5.200 1 1 NID_TSR=6 D_TSR=700m V_TSR=60km/h`: one insert; the engine makes the digits.
- `insert .. @FILE` and `add .. @FILE`: the digits as fields in a file (spelled.py).
- `replace 5.200 1 0 @FILE`: a delete and an insert at the same place, which are kept together or not at all.

What was written out is shown, and only that is run and kept.
"""

from __future__ import annotations

from collections.abc import Sequence
from dataclasses import dataclass

from plandesk.amounts import NoAmount, has_unit, raw_value
from plandesk.engine import Engine, Reply
from plandesk.errors import Refusal
from plandesk.explain import explain, version_of
from plandesk.spare import SPARE, spare_plan
from plandesk.spelled import MARK, packet_digits, telegram_digits
from plandesk.view import Groups, bits_of, digits_of, telegrams_of
from plandesk.vocabulary import is_distance, is_steering, packet_name, variable

EMPTY = {
    5: "05408a000000000000",
    21: "15406c00000000",
    27: "1b40740000000000",
    41: "29407e0000000000",
    65: "41408e000000000000",
    66: "42403e00",
    136: "88404c0000",
}
"""The shortest form of each known packet with all values 0 (docs/FORMATS.md, Packets)."""
PUT = "put PACKET C.N PIG AT VAR=VALUE .."
KEEPS_TELEGRAMS = frozenset({"set", "seth", "insert", "delete", "move"})
"""Commands after which each telegram stands where it was, with the M_VERSION that it had."""
REPLACE = "replace C.N PIG PKT HEX"


@dataclass(frozen=True)
class Written:
    """The commands, and for each the place of the line that it comes from."""

    commands: tuple[str, ...]
    origins: tuple[int, ...]


class Writer:
    """Writes lines out one after another; a line is read in the plan that it meets."""

    def __init__(self, engine: Engine, base: str, journal: str) -> None:
        self.engine, self.base, self.journal = engine, base, journal
        self.done: list[str] = []
        self._met: Groups | None = None
        self._telegrams: Groups | None = None

    def write_out(self, lines: Sequence[str]) -> Written:
        origins: list[int] = []
        for at, line in enumerate(lines):
            commands = self._commands(line)
            if not all(map(_keeps_places, commands)):
                self._met = None
            if not all(command.split(" ")[0] in KEEPS_TELEGRAMS for command in commands):
                self._telegrams = None
            self.done += commands
            origins += [at] * len(commands)
        return Written(tuple(self.done), tuple(origins))

    def _commands(self, line: str) -> list[str]:
        words = line.split(" ")
        if words[0] == "replace":
            if len(words) != 5:
                raise Refusal(f"`{line}`: the form is `{REPLACE}`")
            return [f"delete {' '.join(words[1:4])}", self._insert(words)]
        if words[0] == "put":
            return [_put(self.engine, words)]
        if words[0] == "insert" and len(words) == 5:
            return [self._insert(words)]
        if words[0] == "add":
            return [self._add(words)]
        if words[0] == "set" and len(words) == 7 and variable(words[4]) and has_unit(words[6]):
            scale = _scale(self.met, words) if is_distance(words[4]) else None
            return [" ".join([*words[:6], str(_raw(words[4], words[6], scale, line))])]
        return [line]

    def _insert(self, words: list[str]) -> str:
        """An insert, its digits by the fields of a file where they are given so."""
        digits = words[4]
        if digits.startswith(MARK):
            version = version_of(words, self.telegrams)
            if version is None:
                reply = Reply(f"refused {15 if words[1] in self.telegrams.places else 14}")
                raise Refusal(f"`{' '.join(words)}`: {explain(' '.join(words), reply, self.telegrams)}")
            digits = packet_digits(self.engine, digits.removeprefix(MARK), version)
        return " ".join(["insert", *words[1:4], digits])

    def _add(self, words: list[str]) -> str:
        """An add, its place by the group before it, its digits by the fields of a file, where they are given so."""
        if words[1:2] == ["after"] and len(words) > 3:
            place = self.met.places.get(words[2])
            if place is None:
                raise Refusal(f"`{' '.join(words)[:60]} ..`: the plan has no group {words[2]} then")
            words = ["add", str(place + 1), *words[3:]]
        digits = [
            each
            for word in words[2:]
            for each in (telegram_digits(self.engine, word.removeprefix(MARK)) if word.startswith(MARK) else [word])
        ]
        return " ".join([*words[:2], *digits])

    @property
    def met(self) -> Groups:
        """The plan that the next command meets, but for values that no short form reads."""
        if self._met is None:
            self._met = self.engine.run(self.base, self.journal, self.done).groups
        return self._met

    @property
    def telegrams(self) -> Groups:
        """The same, but for the packets of its telegrams and their values."""
        if self._telegrams is None:
            self._telegrams = self.met
        return self._telegrams


def _keeps_places(command: str) -> bool:
    """Whether places and Q_SCALE of packets stay as they are."""
    words = command.split(" ")
    return words[0] == "seth" or words[0] == "set" and words[4:5] != ["Q_SCALE"]


def _scale(groups: Groups, words: list[str]) -> int | None:
    """Q_SCALE of the packet that a set addresses. 1 where the engine will refuse the command: no such packet is known."""
    group = groups.named(words[1])
    try:
        packet = group.telegrams[int(words[2])].packets[int(words[3])] if group else None
    except (ValueError, IndexError):
        return 1
    return packet.scale if packet is not None and packet.known else 1


def _raw(name: str, value: str, scale: int | None, line: str) -> int:
    try:
        return raw_value(name, value, scale)
    except NoAmount as reason:
        raise Refusal(f"`{line}`: {value} for {name}: {reason}") from None


def _put(engine: Engine, words: list[str]) -> str:
    """One insert. The engine makes the digits: it sets the variables of an empty packet in a spare telegram."""
    line = " ".join(words)
    if len(words) < 5 or not words[1].isdigit():
        raise Refusal(f"`{line}`: the form is `{PUT}`")
    number = int(words[1])
    if number not in EMPTY:
        known = ", ".join(map(str, EMPTY))
        name = packet_name(number)
        raise Refusal(f"`{line}`: `put` writes {known}. Packet {number} ({name}) takes an insert with its digits, or with a file of its fields (@FILE)")
    commands = [f"insert {SPARE} 0 {EMPTY[number]}", *_sets(_values(words[5:], line), line)]
    run = engine.run(spare_plan(), "", commands)
    for command, reply in zip(commands, run.replies, strict=True):
        if reply.refused:
            raise Refusal(f"`{line}`: {_why(number, command, reply, run.groups)}")
    length = run.groups[0].telegrams[0].packets[0].bits
    bits = bits_of(telegrams_of(run.plan)[0][0], 830)[50 : 50 + length]
    return f"insert {' '.join(words[2:5])} {digits_of(bits)}"


def _why(number: int, command: str, reply: Reply, groups: Groups) -> str:
    """Why a value of a `put` was refused."""
    name = command.split(" ")[4:5]
    if name and is_steering(name[0]):
        return f"{name[0]} says what follows it, and `put` writes the shortest packet {number}: insert another by a file of its fields (@FILE)"
    return explain(command, reply, groups)


def _values(words: Sequence[str], line: str) -> dict[str, str]:
    """The values by variable. Distances with a unit are in metres, where Q_SCALE isn't given."""
    given: dict[str, str] = {}
    for word in words:
        name, sign, value = word.partition("=")
        if not sign or not value or name in given:
            raise Refusal(f"`{line}`: {word} {'is given twice' if name in given else 'has not the form VAR=VALUE'}")
        given[name] = value
    if "Q_SCALE" not in given and any(is_distance(name) and has_unit(value) for name, value in given.items()):
        return {"Q_SCALE": "1", **given}
    return given


def _sets(given: dict[str, str], line: str) -> list[str]:
    scale = int(given["Q_SCALE"]) if given.get("Q_SCALE", "").isdigit() else 0
    sets = []
    for name, value in given.items():
        digits = str(_raw(name, value, scale, line)) if has_unit(value) else value
        sets.append(f"set {SPARE} 0 {name} 0 {digits}")
    return sets
