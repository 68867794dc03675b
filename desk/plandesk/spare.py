"""Trial runs of the engine over digits that aren't in the plan: a spare telegram, and a plan of nothing but some digits."""

from __future__ import annotations

from collections.abc import Sequence

from plandesk.engine import Engine, Run
from plandesk.errors import Fault
from plandesk.view import HEADER_BITS, Group, Packet, Telegram, bits_of, telegrams_of

SPARE = "5.100 0"
VERSION_2_1 = 33
HEADER = ("Q_UPDOWN", "M_VERSION", "Q_MEDIA", "N_PIG", "N_TOTAL", "M_DUP", "M_MCOUNT", "NID_C", "NID_BG", "Q_LINK")
"""The fields of a header in their order (docs/FORMATS.md)."""
OWN_LENGTH = "L_PACKET"
REFUSED_EVERYWHERE = frozenset({*range(2, 13), 20})
"""BadHex to NumberReserved, and NoRoom in a telegram that has as much room as any."""


def spare_plan(version: int = VERSION_2_1) -> str:
    """A telegram of this M_VERSION with nothing in it."""
    return f"plan 1\ngroup\n{128 + version:02x}007f80a0327f{'f' * 193}c\n"


def read_packet(engine: Engine, version: int, digits: str) -> list[str] | None:
    """The item that the engine reads in the digits of a packet (`packet_item`). None where it refuses them."""
    run = tried(engine, spare_plan(version), f"insert {SPARE} 0 {digits}")
    if run is None:
        return None
    telegram = run.groups[0].telegrams[0]
    return packet_item(version, telegram.packets[0], bits_of(telegrams_of(run.plan)[0][0], telegram.bits)[HEADER_BITS:])


def read_telegrams(engine: Engine, digits: Sequence[str]) -> list[list[str]] | None:
    """The item that the engine reads in each telegram of a group (`telegram_item`). None where it refuses them."""
    run = tried(engine, "plan 1\n", f"add 0 {' '.join(digits)}")
    if run is None:
        return None
    (texts,) = telegrams_of(run.plan)
    return [telegram_item(run.groups[0], pig, text) for pig, text in enumerate(texts)]


def tried(engine: Engine, plan: str, command: str) -> Run | None:
    """A trial run. None where the engine refuses the digits, or the room for them: it refuses them in any other plan too."""
    run = engine.run(plan, "", [command])
    (reply,) = run.replies
    if reply.refused and reply.number not in REFUSED_EVERYWHERE:
        raise Fault(f"a trial run of the engine was refused: {reply.text}; nothing was changed")
    return None if reply.refused else run


def packet_item(version: int, packet: Packet, bits: str) -> list[str]:
    """A packet as the lines of an item, for comparing: a field is `NAME VALUE`, and bits are bits. The length isn't there."""
    return [f"packet {version}", *_packet_lines(packet, bits)]


def telegram_item(group: Group, pig: int, digits: str) -> list[str]:
    """The same of a telegram, with all bits after packet 255."""
    telegram = group.telegrams[pig]
    bits = bits_of(digits, telegram.bits)
    lines = [f"telegram {telegram.bits}", *(f"{name} {value}" for name, value in _header(group, pig, telegram))]
    for packet, start in zip(telegram.packets, telegram.starts(), strict=False):
        lines += ["packet", *_packet_lines(packet, bits[start:])]
    padding = bits[telegram.used :]
    return [*lines, "end", *([f"padding {padding}"] if padding else [])]


def _header(group: Group, pig: int, telegram: Telegram) -> list[tuple[str, int]]:
    known = dict(telegram.header) | {"Q_UPDOWN": 1, "Q_MEDIA": 0, "N_PIG": pig, "N_TOTAL": len(group.telegrams) - 1}
    known |= {"NID_C": group.country, "NID_BG": group.number}
    return [(name, known[name]) for name in HEADER]


def _packet_lines(packet: Packet, bits: str) -> list[str]:
    """`bits` begin with the packet."""
    lines = [f"{field.name} {field.value}" for field in packet.fields if field.name != OWN_LENGTH]
    rest = "" if packet.known else bits[sum(OPENING) : packet.bits]
    return [*lines, *([f"rest {rest}"] if rest else [])]


OPENING = (8, 2, 13)
"""The widths of NID_PACKET, Q_DIR and L_PACKET: all fields of a packet that isn't known."""
