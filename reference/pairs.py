#!/usr/bin/env python3
"""One long input: each ordered pair of some 150 commands on one small plan.

usage: pairs.py [COUNT] > INPUT, of the first COUNT commands alone

Both commands of a pair are done, the first one is struck and done again, and all is
taken back. So the replies say of each pair whether the second depends on the first.
Give the input to a program and to the reference, with --journal, and compare.
"""

import sys
from io import BytesIO
from itertools import product

from packets import bits_of
from run import Commands, Lines, read_session
from telegrams import HEADER
from texts import digits_of_bits

Field = tuple[str, int]


def bits(*fields: Field) -> str:
    return "".join(bits_of(name, value) for name, value in fields)


def packet(number: int, q_dir: int, body: str) -> str:
    opening = bits(("NID_PACKET", number), ("Q_DIR", q_dir), ("L_PACKET", 23 + len(body)))
    return opening + body


def named(nid_bg: int, nid_c: int | None) -> list[Field]:
    """Q_NEWCOUNTRY, perhaps NID_C, and NID_BG (7.5)."""
    country = [] if nid_c is None else [("NID_C", nid_c)]
    return [("Q_NEWCOUNTRY", len(country)), *country, ("NID_BG", nid_bg)]


def link(nid_bg: int, orientation: int, nid_c: int | None = None) -> str:
    after = [("Q_LINKORIENTATION", orientation), ("Q_LINKREACTION", 1), ("Q_LOCACC", 5)]
    return bits(("D_LINK", 100 + nid_bg), *named(nid_bg, nid_c), *after)


def linking(q_dir: int, first: str, *more: str) -> str:
    """Packet 5, linking."""
    scale, count = bits(("Q_SCALE", 1)), bits(("N_ITER", len(more)))
    return packet(5, q_dir, "".join((scale, first, count, *more)))


def infill(nid_bg: int, nid_c: int | None = None) -> str:
    """Packet 136, infill location reference."""
    return packet(136, 1, bits(*named(nid_bg, nid_c)))


def revocation(nid_tsr: int, q_dir: int = 1) -> str:
    """Packet 66, temporary speed restriction revocation."""
    return packet(66, q_dir, bits(("NID_TSR", nid_tsr)))


def telegram(
    place: int, total: int, identity: tuple[int, int], packets: list[str], length: int = 210
) -> str:
    values = (1, 33, 0, place, total, 1 + place, 255, *identity, 1)
    shown = bits(*zip(HEADER, values, strict=True)) + "".join(packets) + "1" * 8
    return digits_of_bits(shown.ljust(length, "1"))


def plan() -> list[str]:
    """Four groups that name one another, in two countries."""
    opaque = packet(44, 1, "0101")
    inside = [revocation(1, 0), opaque, revocation(2, 2), revocation(3)]
    second = [linking(0, link(101, 1), link(102, 0)), revocation(4)]
    links = linking(1, link(100, 1, 6), link(100, 0), link(102, 1, 5), link(16383, 0))
    return [
        "plan 1",
        "group",
        telegram(0, 1, (5, 100), inside, 830),
        telegram(1, 1, (5, 100), second, 830),
        "group",
        telegram(0, 0, (5, 101), [links, revocation(9), infill(100)], 830),
        "group",
        telegram(0, 0, (5, 102), [infill(103), revocation(8), revocation(7)]),
        "group",
        telegram(0, 1, (6, 100), [revocation(5), revocation(6, 0)]),
        telegram(1, 1, (6, 100), []),
    ]


def in_telegram(where: str, count: int) -> list[str]:
    """Commands for a telegram with a number of packets."""
    lines = [f"seth {where} {name} 3" for name in ("M_DUP", "M_MCOUNT")]
    for place in range(count):
        lines += [f"delete {where} {place}", f"set {where} {place} Q_DIR 0 1"]
        lines += [f"move {where} {place} {at}" for at in range(count) if at != place]
    new = digits_of_bits(revocation(77))
    lines += [f"insert {where} {at} {new}" for at in range(count + 1)]
    names = infill(101), infill(16383), linking(1, link(100, 0, 6), link(103, 1))
    lines += [f"insert {where} 1 {digits_of_bits(each)}" for each in names]
    return lines


def in_links(where: str, count: int) -> list[str]:
    """Commands for the links of a packet 5."""
    lines = []
    for k in range(count):
        lines += [f"set {where} NID_BG {k} {new}" for new in (100, 102, 103, 16383)]
        lines += [f"set {where} Q_LINKORIENTATION {k} 1", f"set {where} D_LINK {k} 9"]
    return lines


def commands() -> list[str]:
    lines = []
    for where, count in (("5.100 0", 4), ("5.100 1", 2), ("5.101 0", 3), ("5.102 0", 3)):
        lines += in_telegram(where, count)
    lines += in_links("5.101 0 0", 4) + in_links("5.100 1 0", 2)
    lines += ["set 5.101 0 2 NID_BG 0 102", "set 5.102 0 0 NID_BG 0 100"]
    for name in ("5.100", "5.101", "5.102", "6.100"):
        lines += [f"drop {name}", f"turn {name}"]
        lines += [f"renumber {name} {new}" for new in (77, 100, 103, 200)]
    added = telegram(0, 0, (5, 200), [revocation(1)])
    lines += [f"add {at} {added}" for at in range(5)]
    for identity, names in (((5, 100), 102), ((5, 77), 101), ((6, 77), 100), ((6, 101), 100)):
        lines.append(f"add 1 {telegram(0, 0, identity, [infill(names)])}")
    return lines


def main(count: int | None = None) -> int:
    start = "".join(line + "\n" for line in [*plan(), "edits"])
    sys.stdout.write(start)
    session = read_session(Lines(BytesIO(start.encode()).read))
    doing = Commands(session, set(), [])

    def take(line: str) -> None:
        doing.take(line)
        sys.stdout.write(line + "\n")

    for first, second in product(commands()[:count], repeat=2):
        take(first)
        take(second)
        if session.standing:
            take(f"strike {session.standing[0].serial}")
        while session.undone:
            take("redo")
        while session.standing:
            take("undo")
    return 0


if __name__ == "__main__":
    sys.exit(main(*map(int, sys.argv[1:])))
