"""A run: the plan, perhaps a journal, then commands; and what is printed."""

import json
from collections.abc import Callable, Iterator, Set
from dataclasses import dataclass

from packets import Packet
from plans import MOST_TELEGRAMS, BaliseGroup, Identity, Plan, make_group, named_by
from refusals import Fault, Refusal, Refused
from session import Session
from telegrams import Telegram, place_of, read_telegram
from texts import command, digits_of_bits, edit_of, entry_line, journal_entry, number
from texts import telegram_bits, words_of

LONGEST_LINE = 4096
LONGEST_INPUT = 67108864
GREATEST_NEXT = 4000000000
MOST_ACCEPTED = 1000000
FLAGS = ("--quiet", "--stop", "--journal", "--json")
IN_VIEW = ("M_DUP", "M_MCOUNT", "M_VERSION", "Q_LINK")


class BadInput(Exception):
    """The plan or the journal is refused at a line."""

    def __init__(self, line: int, refused: Refused) -> None:
        super().__init__(f"bad {line} {refused}")


class Lines:
    """The lines of an input one after another, each with its number from 1."""

    def __init__(self, read: Callable[[int], bytes]) -> None:
        self._read = read
        self._buffer = b""
        self._place = 0
        self._taken = 0
        self._ended = False
        self.number = 0

    def next(self) -> str | None:
        """The next line without its line feed, or none at the end; 29 where it is too long."""
        self.number += 1
        end = self._buffer.find(b"\n", self._place)
        while end < 0 and not self._ended and len(self._buffer) - self._place <= LONGEST_LINE:
            self._read_more()
            end = self._buffer.find(b"\n")
        if self._place == len(self._buffer):
            return None
        line = self._buffer[self._place : end if end >= 0 else len(self._buffer)]
        taken = len(line) + (end >= 0)
        if len(line) > LONGEST_LINE or self._taken + taken > LONGEST_INPUT:
            raise Fault(Refusal.InputTooLong)
        self._place += taken
        self._taken += taken
        return line.decode("latin-1")

    def _read_more(self) -> None:
        """Reads on. What is left of the buffer, less than a line, goes before it."""
        more = self._read(65536)
        self._ended = not more
        self._buffer = self._buffer[self._place :] + more
        self._place = 0

    def due(self) -> str:
        """The next line, or 1 at the end."""
        line = self.next()
        if line is None:
            raise Refused(Refusal.BadLine)
        return line


def read_session(lines: Lines) -> Session:
    """The session of a plan and perhaps a journal, up to the line `edits`."""
    groups: dict[Identity, BaliseGroup] = {}
    try:
        if lines.due() != "plan 1":
            raise Refused(Refusal.BadLine)
        line: str | None = lines.due()
        while line == "group":
            line = _read_group(lines, groups)
        plan = Plan(tuple(groups.values()))
        if line == "edits":
            return Session(plan)
        if line is None or not line.startswith("journal "):
            raise Refused(Refusal.BadLine)
        return read_journal(lines, line, plan)
    except Refused as refused:
        raise BadInput(lines.number, refused) from None


def _read_group(lines: Lines, groups: dict[Identity, BaliseGroup]) -> str | None:
    """Reads a group after the others; the line that ends it, or none at the end."""
    start = lines.number
    telegrams: list[Telegram] = []
    line = lines.next()
    while line and line not in ("group", "edits") and not line.startswith("journal "):
        if len(telegrams) == MOST_TELEGRAMS:
            raise Refused(Refusal.GroupSize)
        telegrams.append(read_telegram(telegram_bits(line), len(telegrams)))
        line = lines.next()
    try:
        group = make_group(f"b{len(groups)}", tuple(telegrams))
        if group.identity in groups:
            raise Refused(Refusal.GroupTwice)
    except Refused as refused:
        raise BadInput(start, refused) from None
    groups[group.identity] = group
    return line


def read_journal(lines: Lines, first: str, plan: Plan) -> Session:
    """The session of a journal; its entries are done and its `undone` struck."""
    words = words_of(first)
    if len(words) != 3 or words[1] not in ("1", "2"):
        raise Refused(Refusal.BadLine)
    version, session = words[1], Session(plan, number(words[2]))
    if not 1 <= session.next_serial <= GREATEST_NEXT:
        raise Refused(Refusal.JournalMismatch)
    last, entries_only = 0, True
    while (line := lines.due()) != "edits":
        words = words_of(line)
        if words[0] == "undone" and version == "2":
            entries_only = False
            _read_undone(session, words)
        elif entries_only:
            last = _read_entry(session, line, last)
        else:
            raise Refused(Refusal.BadLine)
    return session


def _read_entry(session: Session, line: str, last: int) -> int:
    """Does one entry; anything wrong but its line and its digits is 27."""
    try:
        entry = journal_entry(line)
        if not last < entry.serial < session.next_serial:
            raise Refused(Refusal.JournalMismatch)
        note = session.accept(entry.serial, entry.edit)
    except Refused as refused:
        if refused.refusal in (Refusal.BadLine, Refusal.BadHex):
            raise
        raise Refused(Refusal.JournalMismatch) from None
    if (note.old, note.before) != (entry.note.old, entry.note.before):
        raise Refused(Refusal.JournalMismatch)
    return entry.serial


def _read_undone(session: Session, words: list[str]) -> None:
    if len(words) != 2:
        raise Refused(Refusal.BadLine)
    serial = number(words[1])
    try:
        session.strike(serial)
    except Refused:
        raise Refused(Refusal.JournalMismatch) from None


def review(plan: Plan, turned: BaliseGroup) -> list[str]:
    """What a person has to check after a turn: distances and opaque packets."""
    inside: list[str] = []
    links: list[str] = []
    if len(turned.telegrams) == 1:
        return []
    for group in plan.groups:
        if group is not turned and turned.identity not in group.names:
            continue
        country, nid_bg = group.identity
        for pig, place, packet in group.packets():
            where = f"review {country}.{nid_bg} {pig} {place}"
            if group is turned:
                inside += [f"{where} {each}" for each in _inside(packet)]
            links += [f"{where} {each}" for each in _links_to(turned, packet, country)]
    return inside + links


def _inside(packet: Packet) -> list[str]:
    """All distances of a packet of the turned group; or that it is opaque."""
    if not packet.known:
        return [f"opaque {packet.fields[0][1]}"]
    names = [name for name, _ in packet.fields]
    return [
        f"{name} {names[:place].count(name)} {value}"
        for place, (name, value) in enumerate(packet.fields)
        if name.startswith("D_")
    ]


def _links_to(turned: BaliseGroup, packet: Packet, country: int) -> list[str]:
    """The D_LINK of each link to the turned group, and of the link after it (3.4)."""
    lines: list[str] = []
    for element, name in enumerate(named_by(packet, country)):
        for k in (element, element + 1) if name == turned.identity else ():
            if (at := packet.place("D_LINK", k)) is not None:
                lines.append(f"D_LINK {k} {packet.fields[at][1]}")
    return lines


@dataclass
class Commands:
    """The commands of a run, and their replies."""

    session: Session
    flags: Set[str]
    out: list[str]
    accepted: int = 0
    refused: bool = False

    def take(self, line: str) -> None:
        """Answers one command."""
        try:
            reply, reviews = self._answer(line)
        except Refused as refused:
            self.refused = True
            self.out.append(f"refused {refused}")
            return
        self.accepted += 1
        self.out += reviews if "--quiet" in self.flags else [reply, *reviews]

    def _answer(self, line: str) -> tuple[str, list[str]]:
        """Does a command; the reply and the review lines after it."""
        kind, asked = command(line)
        if self.accepted == MOST_ACCEPTED:
            raise Refused(Refusal.Worn)
        session = self.session
        if kind == "undo":
            return f"undone {session.undo()}", []
        if kind == "redo":
            return f"redone {session.redo()}", []
        if kind == "strike":
            return f"struck {session.strike(asked['serial'])}", []
        edit = edit_of(session.plan, kind, asked)
        reply = f"ok {session.edit(edit)}"
        if kind != "turn":
            return reply, []
        plan = session.plan
        turned = plan.groups[place_of(plan.groups, edit.group, Refusal.NoSuchGroup)]
        return reply, review(plan, turned)


def plan_lines(plan: Plan) -> Iterator[str]:
    yield "plan 1"
    for group in plan.groups:
        yield "group"
        for telegram in group.telegrams:
            yield digits_of_bits(telegram.bits())


def journal_lines(session: Session) -> Iterator[str]:
    """The journal, version 2."""
    yield f"journal 2 {session.next_serial}"
    for entry in session.entries:
        yield entry_line(entry)
    for serial in session.undone:
        yield f"undone {serial}"


def _telegram_view(telegram: Telegram) -> dict[str, object]:
    view: dict[str, object] = {name.lower(): telegram.header[name] for name in IN_VIEW}
    view["bits"] = len(telegram.ground)
    view["used"] = len(telegram.front())
    view["packets"] = [{"fields": each.fields, "known": each.known} for each in telegram.packets]
    return view


def view_lines(plan: Plan) -> Iterator[str]:
    """The JSON view, a line for each group."""
    for group in plan.groups:
        view: dict[str, object] = dict(zip(("country", "number"), group.identity, strict=True))
        view["telegrams"] = [_telegram_view(telegram) for telegram in group.telegrams]
        yield json.dumps(view, sort_keys=True, separators=(",", ":"))


Closing = Callable[[Session], Iterator[str]]
"""What is printed of the session after the last command."""


def output_lines(session: Session, flags: Set[str]) -> Iterator[str]:
    """The plan; with their flags, the journal and the view."""
    plan = session.plan
    yield from plan_lines(plan)
    if "--journal" in flags:
        yield from journal_lines(session)
    if "--json" in flags:
        yield from view_lines(plan)


def run(read: Callable[[int], bytes], flags: Set[str], out: list[str]) -> int:
    """Runs an input; the lines that it prints go to `out`. The exit status.

    A `Fault` ends the run; `out` then has what is printed until then.
    """
    return run_to(read, flags, out, lambda session: output_lines(session, flags))


def run_to(
    read: Callable[[int], bytes], flags: Set[str], out: list[str], closing: Closing
) -> int:
    """The same with something else at the end of the output."""
    lines = Lines(read)
    try:
        session = read_session(lines)
    except BadInput as bad:
        out.append(str(bad))
        return 2
    commands = Commands(session, flags, out)
    while not (commands.refused and "--stop" in flags) and (line := lines.next()) is not None:
        commands.take(line)
    out += closing(session)
    return 1 if commands.refused else 0
