"""Groups, links, reviews and differences as text for a terminal."""

from __future__ import annotations

from collections.abc import Iterable, Mapping, Sequence

from rich.text import Text

from plandesk.compare import FieldChange, GroupDiff, Part
from plandesk.desk import State
from plandesk.out import Cell, count, heading, line, table
from plandesk.reviews import Review
from plandesk.rows import Row, notes_of, rows_of
from plandesk.sentences import review_words
from plandesk.view import Group, Link, Packet
from plandesk.vocabulary import meaning, metres_text, packet_name

FOLLOWS = frozenset({"NID_PACKET", "L_PACKET"})
DIRECTION = {0: "reverse", 1: "nominal", 2: "both directions"}
NEW, OLD, QUIET = "green", "red", "dim"


def group_lines(group: Group, place: int) -> None:
    """A group with all its fields."""
    heading(group.name, f"group {place} of the plan, {count(len(group.telegrams), 'telegram')}")
    for pig, telegram in enumerate(group.telegrams):
        left = telegram.bits - telegram.used
        line("  ", Text(f"telegram {pig}", "bold"), Text(f"  {telegram.bits} bits, {left} left", QUIET))
        line("    ", ", ".join(_header_words(name, value) for name, value in telegram.header))
        for pkt, packet in enumerate(telegram.packets):
            note = "" if packet.known else "  (kept bit for bit, the engine doesn't know its content)"
            name = Text(packet_name(packet.number), "italic")
            line("    ", Text(f"{group.name} {pig} {pkt}", "cyan"), f"  packet {packet.number} ", name, Text(note, QUIET))
            shown = [field for field in packet.fields if field.name not in FOLLOWS]
            rows = [_field_row(field.name, field.k, field.value, packet) for field in shown]
            table(rows, indent="      ", right=frozenset({2}))


def _header_words(name: str, value: int) -> str:
    words = meaning(name, value, None)
    return f"{name} {value} ({words})" if words else f"{name} {value}"


def _field_row(name: str, k: int, value: int, packet: Packet) -> list[Cell]:
    return [name, str(k), str(value), Text(meaning(name, value, packet.scale))]


def group_table(groups: Sequence[Group]) -> None:
    """A line for each group."""
    rows: list[list[Cell]] = []
    for at, group in enumerate(groups):
        packets = " | ".join(packet_numbers(each.packets) for each in group.telegrams)
        left = min(each.bits - each.used for each in group.telegrams)
        name = Text(group.name, "bold")
        rows.append([Text(str(at), QUIET), name, str(len(group.telegrams)), packets, Text(f"{left} bits left", QUIET)])
    table(rows, right=frozenset({0, 2}))


def packet_numbers(packets: Sequence[Packet]) -> str:
    """The numbers of packets, `?` after those that the engine doesn't know."""
    return " ".join(f"{packet.number}{'' if packet.known else '?'}" for packet in packets) or "-"


def link_row(link: Link) -> list[Cell]:
    distance = "infill" if link.infill else "?" if link.metres is None else metres_text(link.metres)
    way = "" if link.nominal is None else "nominal" if link.nominal else "reverse"
    return [
        f"{link.source} {link.pig} {link.pkt} NID_BG {link.k}",
        "→",
        Text(link.target, "yellow" if link.missing else ""),
        distance,
        way,
        Text(f"for trains {DIRECTION.get(link.direction, 'spare')}", QUIET),
        Text("not in this plan" if link.missing else "", "yellow"),
    ]


def links(found: Iterable[Link]) -> None:
    table([link_row(link) for link in found], right=frozenset({3}))


def review_table(state: State, items: Sequence[Review]) -> None:
    rows: list[list[Cell]] = []
    for item in items:
        words = review_words(item, state.names)
        stands = item.serial in state.standing
        mark = "✓" if item.done else "○" if stands else "–"
        value = f"{words.then} → {words.now} since" if words.changed and words.then else words.then
        turn = f"turn, edit {item.serial}" + ("" if stands else ", undone")
        style = "green" if words.changed else ""
        rows.append([mark, str(item.number), Text(words.place, "cyan"), words.what, Text(value, style), Text(turn, QUIET)])
    table(rows, right=frozenset({1}))


def diff_lines(groups: Sequence[GroupDiff], why: Mapping[str, str], *, bits: bool = False) -> None:
    for group in groups:
        style = NEW if group.kind == "added" else OLD if group.kind == "taken out" else "bold"
        note = ", ".join(notes_of(group))
        by = why.get(group.name, "")
        line(Text(group.title, style), Text(f"  {note}" if note else "", "magenta"), Text(f"  by {by}" if by else "", QUIET))
        table([row_cells(row) for row in rows_of(group)], indent="  ")
        _bits_of_group(group, bits)


def row_cells(row: Row) -> list[Cell]:
    place = Text(row.place, QUIET)
    if row.change is None:
        style = NEW if row.note.endswith("put in") else OLD if row.note.endswith("taken out") else ""
        return [place, Text(row.note, style)]
    change = row.change
    name = change.name + (f" ({change.k})" if change.k else "")
    old, new = (change.words(value) for value in (change.before, change.after))
    between = "→" if change.before is not None and change.after is not None else ""
    return [place, name, Text(old, OLD), between, Text(new, NEW), Text(_raw(change), QUIET)]


def _raw(change: FieldChange) -> str:
    """The numbers, where the words aren't just these."""
    if not change.says_more:
        return ""
    numbers = [str(value) for value in (change.before, change.after) if value is not None]
    return f"({' → '.join(numbers)})"


def _bits_of_group(group: GroupDiff, every: bool) -> None:
    """Bits where fields can't say what differs, or all bits of the changed parts."""
    for telegram in group.telegrams:
        for part in telegram.parts:
            if (part.content or every and part.changed) and part.before is not None and part.after is not None:
                line("  ", Text(f"{telegram.place}, {_bits_title(part)}:", QUIET))
                bit_lines(part.before, part.after)


def _bits_title(part: Part) -> str:
    return "bits from packet 255 on" if part.kind == "end" else f"bits of {part.place}"


def bit_lines(before: str, after: str, width: int = 64) -> None:
    """Both bit strings, the differing bits coloured, and marked for those who see no colours."""
    same = before == after
    for start in range(0, max(len(before), len(after)), width):
        old, new = before[start : start + width], after[start : start + width]
        if old == new and not same:
            continue
        marks = "".join("^" if old[i : i + 1] != new[i : i + 1] else " " for i in range(max(len(old), len(new))))
        line(Text(f"      {start:4} ", QUIET), _coloured(old, new, OLD))
        line(Text("           ", QUIET), _coloured(new, old, NEW))
        if marks.strip():
            line("           ", Text(marks.rstrip(), "bold"))


def _coloured(bits: str, other: str, style: str) -> Text:
    out = Text()
    for i, bit in enumerate(bits):
        out.append(bit, f"bold {style}" if other[i : i + 1] != bit else QUIET)
    return out
