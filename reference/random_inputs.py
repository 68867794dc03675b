#!/usr/bin/env python3
"""Random inputs by seed: plans, journals, commands, most of them accepted.

usage: random_inputs.py SEED [--size small|medium]

Prints the flags of the input to standard error, and the input to standard output.
"""

import argparse
import sys
from dataclasses import dataclass
from io import BytesIO

from packets import NO_GROUP, STEERING, WIDTHS, Packet
from plans import BaliseGroup, Plan, identities
from random_plans import SIZES, PlanMaker, Size
from run import BadInput, Commands, Lines, journal_lines, read_session
from session import Session
from telegrams import FREE_IN_HEADER, Telegram
from texts import digits_of_bits


# Numbers on both sides of 32 elements, and of what 8, 14, 16 and 32 bits hold.
EDGES = ("31", "32", "255", "256", "16383", "16384", "65535", "65536", "4294967295", "4294967296")


@dataclass(frozen=True)
class Input:
    """The arguments of a run and its standard input."""

    arguments: tuple[str, ...]
    text: bytes


class Maker(PlanMaker):
    """Makes the input of one seed."""

    def __init__(self, seed: int, size: Size) -> None:
        super().__init__(seed, size)
        self.dropped: list[tuple[int, int]] = []
        self.focus = ("", 0)
        self.hot: list[str] = []
        self.named: list[tuple[int, int]] = []

    def place_beside(self, tags: list[str], most: int) -> int:
        """A place from 0 to most, often beside what was edited, or after what was put in."""
        new = [i + 1 for i, tag in enumerate(tags) if tag[0] == "n" and i < most]
        hot = [i + k for i, tag in enumerate(tags) for k in (-1, 0, 1) if tag in self.hot[-2:]]
        places = new if self.chance(50) else [place for place in hot if 0 <= place <= most]
        if places and self.chance(70):
            return self.random.choice(places)
        return self.random.randint(0, most)

    def command(self, session: Session) -> str:
        plan = session.plan
        if session.undone and self.chance(35) or self.chance(1):
            return "redo"
        roll = self.random.randrange(100)
        if roll < 25 and (session.standing or self.chance(5)):
            return "undo" if roll < 6 else self.strike(session)
        if roll < 31 or not plan.groups:
            return self.add(plan)
        if roll < 43:
            return self.group_command(plan)
        return self.packet_command(plan)

    def strike(self, session: Session) -> str:
        """A strike of one of the last edits, or of one that can be struck."""
        serials = [entry.serial for entry in session.standing] or [1]
        if len(serials) > 1 and self.chance(55):
            return f"strike {self.random.choice(serials[-5:-1])}"
        self.random.shuffle(serials)
        for serial in serials if self.chance(80) else []:
            if session.can_strike(serial):
                return f"strike {serial}"
        return f"strike {serials[0]}"

    def add(self, plan: Plan) -> str:
        at = self.place_beside([group.tag for group in plan.groups], len(plan.groups))
        for _ in range(5):
            again = self.dropped and self.chance(50)
            identity = self.random.choice(self.dropped) if again else self.identity()
            if not plan.has(identity):
                break
        return f"add {at} {' '.join(self.group(identity))}"

    def group_command(self, plan: Plan) -> str:
        group = self.random.choice(plan.groups)
        named = [each for each in plan.groups if each.identity in self.named[-6:]]
        if self.chance(60):
            group = self.random.choice(named) if named else self.focused(plan)
        name = f"{group.identity[0]}.{group.identity[1]}"
        kind = self.random.choice(("turn", "turn", "renumber", "renumber", "drop"))
        if kind == "drop":
            self.dropped.append(group.identity)
            self.named += group.names
        if kind != "renumber":
            return f"{kind} {name}"
        new = self.random.randrange(NO_GROUP) if self.chance(60) else self.number()
        if self.dropped and self.chance(25):
            new = self.random.choice(self.dropped)[1]
        self.numbers.append(new)
        return f"renumber {name} {new}"

    def focused(self, plan: Plan) -> BaliseGroup:
        """The group of the telegram that most edits are made in, for a while."""
        places = [(group.tag, each.tag) for group in plan.groups for each in group.telegrams]
        if self.focus not in places or self.chance(10):
            self.focus = self.random.choice(places)
        return next(group for group in plan.groups if group.tag == self.focus[0])

    def packet_command(self, plan: Plan) -> str:
        roll = self.random.randrange(100)
        group = self.focused(plan)
        tags = [telegram.tag for telegram in group.telegrams]
        pig = tags.index(self.focus[1])
        telegram = group.telegrams[pig]
        where = f"{group.identity[0]}.{group.identity[1]} {pig}"
        count = len(telegram.packets)
        if roll < 12:
            name = self.random.choice(FREE_IN_HEADER)
            return f"seth {where} {name} {self.random.randrange(1 << WIDTHS[name])}"
        if roll < 44 or count == 0:
            return self.insert(where, telegram)
        place = self.place_beside([item.tag for item in telegram.packets], count - 1)
        packet = telegram.packets[place]
        self.hot.append(telegram.packets[place].tag)
        self.named += identities(packet, group.identity[0])
        if roll < 54:
            return f"delete {where} {place}"
        if roll < 72 and count > 1:
            return f"move {where} {place} {self.new_place(telegram, place)}"
        return self.set(f"{where} {place}", packet, plan)

    def new_place(self, telegram: Telegram, place: int) -> int:
        rest = [item.tag for item in telegram.packets if item.tag != telegram.packets[place].tag]
        if self.chance(3):
            return len(rest) + 1
        at = self.place_beside(rest, len(rest))
        return (at + 1) % (len(rest) + 1) if at == place and self.chance(90) else at

    def insert(self, where: str, telegram: Telegram) -> str:
        packet = None
        for _ in range(6):
            packet = packet or self.packet(telegram.room() if self.chance(95) else 999)
            version = telegram.header["M_VERSION"]
            if packet and self.chance(95) and not self.is_read(packet, version):
                packet = None
        if self.chance(8):
            packet = self.filling(telegram.room()) or packet
        at = self.place_beside([item.tag for item in telegram.packets], len(telegram.packets))
        if packet is None and telegram.packets and self.chance(90):
            return f"delete {where} {self.random.randrange(len(telegram.packets))}"
        packet = packet or "".join(("01000010", "01", "0000000011111", self.bits(8)))
        return f"insert {where} {at} {digits_of_bits(packet)}"

    def set(self, where: str, packet: Packet, plan: Plan) -> str:
        free = [name for name, _ in packet.fields if name not in STEERING]
        name = self.random.choice(free)
        if {"NID_BG", "Q_LINKORIENTATION"} <= set(free) and self.chance(50):
            name = self.random.choice(("NID_BG", "Q_LINKORIENTATION"))
        k, value = self.random.randrange(free.count(name)), self.value(name)
        if name == "NID_BG" and self.chance(50):
            value = self.random.choice(plan.groups).identity[1]
        return f"set {where} {name} {k} {value}"

    def at_edge(self, line: str) -> str:
        """A line with one of its numbers at an edge."""
        words = line.split(" ")
        numbers = [i for i, word in enumerate(words) if word.isdecimal()]
        if numbers:
            words[self.random.choice(numbers)] = self.random.choice(EDGES)
        return " ".join(words)

    def spoiled(self, line: str) -> str:
        """A line with one thing wrong, or one that is right by chance."""
        words = line.split(" ")
        place = self.random.randrange(len(words))
        other = ("0", "1", "7", "9", *EDGES, "00", "zz", "")
        names = (*STEERING, "NID_BG", "N_PIG", "M_DUP", "D_LINK", "SPEED")
        variables = [i for i, word in enumerate(words) if word in WIDTHS]
        kind = self.random.randrange(9)
        numbers = [i for i, word in enumerate(words) if word.isdecimal()]
        if kind > 5 and numbers:
            place = self.random.choice(numbers)
            words[place] = str(abs(int(words[place]) + self.random.choice((-1, 1))))
        elif kind == 0:
            words[place] = self.random.choice(other)
        elif kind == 1:
            words[variables[0] if variables else place] = self.random.choice(names)
        elif kind == 2:
            words.insert(place, self.random.choice(other))
        elif kind == 3:
            del words[place]
        elif kind == 4:
            words[place] = words[place][:-1]
        else:
            words[place] = words[place][::-1]
        return " ".join(words)

    def damage_plan(self, lines: list[str]) -> None:
        """A plan with one line spoiled, out, or twice, or with one other digit."""
        place = self.random.randrange(len(lines))
        kind = self.random.randrange(8)
        if kind == 0:
            lines[place] = self.spoiled(lines[place])
        elif kind == 1:
            del lines[place]
        elif kind == 2:
            lines.insert(place, self.random.choice(lines))
        elif kind == 3:
            lines[place] += self.random.choice(("0", "00", "ff", " ", "z"))
        else:
            at = self.random.randrange(len(lines[place]))
            at = at if self.chance(30) else min(at, self.random.randrange(28))
            other = self.random.choice("0123456789abcdefABCDEF")
            lines[place] = lines[place][:at] + other + lines[place][at + 1 :]

    def session_commands(self, session: Session, most: int) -> list[str]:
        """Commands for a session, which are also done there."""
        commands = Commands(session, set(), [])
        lines = []
        for _ in range(self.random.randint(0, most)):
            line = self.command(session)
            if self.chance(12):
                line = self.spoiled(line) if self.chance(50) else self.at_edge(line)
            commands.take(line)
            lines.append(line)
        return lines

    def damaged_journal(self, lines: list[str]) -> list[str]:
        kind = self.random.randrange(10)
        place = self.random.randrange(len(lines))
        if kind > 6:
            words = lines[place].split(" ")
            near = [str(int(words[-1]) + 1)] if words[-1].isdecimal() else ["$", "b0", "b1", "^"]
            lines[place] = " ".join((*words[:-1], self.random.choice(near)))
        elif kind == 0:
            del lines[place]
        elif kind == 1:
            lines[0] = lines[0].replace("journal 2", "journal 1")
        elif kind == 2:
            other = self.random.randrange(len(lines))
            lines[place], lines[other] = lines[other], lines[place]
        elif kind == 3:
            lines.insert(place, self.random.choice(lines))
        elif kind == 4:
            lines.append(f"undone {self.random.randint(0, len(lines))}")
        elif kind == 5:
            lines[0] = "journal 2 " + self.random.choice(("0", "1", "4000000000", "4000000001"))
        else:
            lines[place] = self.spoiled(lines[place])
        return lines

    def damaged(self, text: bytes) -> bytes:
        """A text with a few bytes changed, or cut off."""
        for _ in range(self.random.randint(1, 3)):
            place = self.random.randrange(len(text) + 1)
            byte = self.random.choice((b"\r", b"\x00", b"\xff", b" ", b"\n", b"g", b"0", b"f"))
            rest = (text[place:], text[place + 1 :], b"")
            text = text[:place] + byte + self.random.choice(rest[: 3 if self.chance(30) else 2])
        return text

    def arguments(self) -> tuple[str, ...]:
        chosen = [flag for flag in ("--quiet", "--stop", "--journal", "--json") if self.chance(40)]
        self.random.shuffle(chosen)
        if self.chance(2):
            odd = ("--loud", "--quiet", "--", "-q", "--json=1", "-")
            chosen.insert(self.random.randint(0, len(chosen)), self.random.choice(odd))
        return tuple(chosen)

    def input(self) -> Input:
        arguments = self.arguments()
        lines = self.plan()
        if self.chance(10):
            self.damage_plan(lines)
        session = self.read(lines)
        if session is not None and self.chance(40):
            self.session_commands(session, self.size.commands)
            journal = list(journal_lines(session))
            lines += self.damaged_journal(journal) if self.chance(30) else journal
            session = self.read(lines)
        lines.append("edits")
        if session is not None:
            lines += self.session_commands(session, self.size.commands)
        if self.chance(3):
            lines.append("undo" + " " * self.random.choice((4092, 4093)))
        if self.chance(5):
            lines = [line if line in FIXED else line.replace("a", "A") for line in lines]
        text = "".join(line + "\n" for line in lines).encode("latin-1")
        if self.chance(5):
            text = self.damaged(text)
        return Input(arguments, text[:-1] if self.chance(5) else text)

    def read(self, lines: list[str]) -> Session | None:
        """The session of a plan and perhaps a journal, or none if it is refused."""
        text = "".join(line + "\n" for line in [*lines, "edits"]).encode("latin-1")
        try:
            return read_session(Lines(BytesIO(text).read))
        except BadInput:
            return None


FIXED = ("plan 1", "group", "edits")


def make_input(seed: int, size: str) -> Input:
    """The input of a seed and a size."""
    return Maker(seed, SIZES[size]).input()


def main() -> int:
    parser = argparse.ArgumentParser(description="Prints the random input of a seed.")
    parser.add_argument("seed", type=int)
    parser.add_argument("--size", choices=sorted(SIZES), default="small")
    asked = parser.parse_args()
    made = make_input(asked.seed, asked.size)
    sys.stderr.write(" ".join(("flags:", *made.arguments)) + "\n")
    sys.stdout.buffer.write(made.text)
    return 0


if __name__ == "__main__":
    sys.exit(main())
