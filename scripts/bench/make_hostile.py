#!/usr/bin/env python3
"""Prints an input that is made to take much: make_hostile.py LOAD COUNT [BYTES].

The part that the load repeats comes COUNT times, or where COUNT is 0 until the input has BYTES bytes. That is as long as
an input may be if it isn't given.
"""
import sys
from itertools import count as numbers
from itertools import islice

from make_load import field, group, header, name, telegram

LONGEST_INPUT = 67_108_864
LONGEST_LINE = 4_096
EMPTY = "a1007f80a0327fffffffffffffffffffffffffffffffffffffffc0"

# What the map of groups adds to the serial of a group that was added, before it looks at the lowest bits alone.
FRESH = 0x9E3779B1
LARGEST_SERIAL = 4_000_000_000


def colliding(wanted):
    """Serials, rising, whose tags the map looks for at one place, or as few as there are serials enough for; from there it
    looks on place by place."""
    places = 1
    while 9 * places < wanted:
        places *= 2
    taken = wanted * places // LARGEST_SERIAL + 1
    first = sorted((place - FRESH) % places for place in range(taken))
    serials = (turn * places + serial for turn in numbers() for serial in first)
    return list(islice((serial for serial in serials if serial > 0), wanted))


def long_telegram(head, packets):
    """The digits of a telegram of 830 bits."""
    bits = head + packets + "1" * 8
    return f"{int(bits.ljust(830, '1') + '00', 2):0208x}"


def links(count):
    """A packet 5 whose elements name the group 0.0. The first says the country, which holds for those after it."""
    def element(country):
        return field(500, 15) + country + field(0, 14) + "1" + "00" + field(12, 6)

    elements = element("1" + field(0, 10)) + field(count - 1, 5) + element("0") * (count - 1)
    return field(5, 8) + "01" + field(25 + len(elements), 13) + "01" + elements


def links_to(identities):
    """A packet 5 with an element for each of these identities, which says its country."""
    first, *others = (
        field(500, 15) + "1" + field(country, 10) + field(number, 14) + "1" + "00" + field(12, 6)
        for country, number in identities
    )
    elements = first + field(len(others), 5) + "".join(others)
    return field(5, 8) + "01" + field(25 + len(elements), 13) + "01" + elements


def one_plan(*groups):
    """A plan of groups, each a list of telegrams, and the line after it."""
    yield "plan 1"
    for telegrams in groups:
        yield "group"
        yield from telegrams
    yield "edits"


def groups(steps):
    yield "plan 1"
    for n in steps:
        yield f"group\n{group(n)}"


def groups_out_of_order(steps):
    """Groups whose identities come in no order: the multiples of an odd number, modulo a power of two."""
    yield "plan 1"
    for n in steps:
        identity = n * 0x9E3779B1 % 2**21
        if identity % 2**14 != 16383:
            yield f"group\n{telegram(header(identity >> 14, identity % 2**14), '')}"


def groups_of_eight(steps):
    yield "plan 1"
    for n in steps:
        heads = (header(n // 16000, n % 16000, pig, 7) for pig in range(8))
        yield "\n".join(["group", *(telegram(head, "") for head in heads)])


def groups_full_of_packets(steps):
    yield "plan 1"
    packets = (field(44, 8) + "01" + field(23, 13)) * 33
    for n in steps:
        yield f"group\n{long_telegram(header(n // 16000, n % 16000), packets)}"


def groups_that_name_one(steps):
    """Each of 18 elements, as many as a telegram has room for, names one group, the first."""
    yield "plan 1"
    for n in steps:
        yield f"group\n{long_telegram(header(n // 16000, n % 16000), links(18))}"


def groups_of_each_country(steps):
    """The largest number of each country, then the next one of each."""
    yield "plan 1"
    for n in steps:
        yield f"group\n{telegram(header(n % 1024, (16382 - n // 1024) % 16383), '')}"


def identities_all_over(steps):
    """Each of 15 elements, the most that a telegram has room for, names another identity, in another country."""
    yield "plan 1"
    for n in steps:
        named = ((k % 1024, k * 7919 % 16383) for k in range(15 * n, 15 * n + 15))
        yield f"group\n{long_telegram(header(n % 1024, n * 4099 % 16383), links_to(named))}"


def telegrams_without_end(steps):
    yield "plan 1\ngroup"
    for _ in steps:
        yield EMPTY


def commands(*lines):
    """A load that repeats lines after a plan of one telegram."""
    def load(steps):
        yield from one_plan([EMPTY])
        for _ in steps:
            yield from lines

    return load


def settings(steps):
    """Settings in one telegram, of which the first is independent of the others."""
    yield from one_plan([group(0)])
    yield "seth 0.0 0 Q_LINK 0"
    for i in steps[1:]:
        yield f"set 0.0 0 1 NID_TSR 0 {i % 256}"


def strikes(steps):
    """As many settings as strikes of the first of them and redos."""
    yield from settings(steps)
    for _ in steps[1::2]:
        yield "strike 1\nredo"


def refused_strikes(steps):
    """As many settings, the last of which isn't independent of the first, as strikes of the first."""
    yield from settings(steps)
    yield "seth 0.0 0 Q_LINK 1"
    for _ in steps:
        yield "strike 1"


def strikes_of_a_million(steps):
    """999,000 settings, and strikes of the first of them and redos."""
    yield from settings(range(999_000))
    for _ in steps:
        yield "strike 1\nredo"


def strikes_of_a_million_elsewhere(steps):
    """The same with settings in a hundred other groups after the first."""
    yield from one_plan(*([group(n)] for n in range(101)))
    yield "seth 0.100 0 Q_LINK 0"
    for i in range(999_000):
        yield f"seth 0.{i % 100} 0 M_MCOUNT {i % 256}"
    for _ in steps:
        yield "strike 1\nredo"


def undone_in_journal(steps):
    """A journal of settings, all of them struck, the first one first."""
    yield from groups(steps)
    yield f"journal 2 {len(steps) + 1}"
    for i in steps:
        yield f"{i + 1} seth b{i}/0 M_MCOUNT 0 255"
    for i in steps:
        yield f"undone {i + 1}"


def adds_in_the_middle(steps):
    yield from one_plan(*([group(n)] for n in range(2)))
    for i in steps:
        yield f"add {i // 2 + 1} {group(i + 2)}"


def drops_of_the_first(steps):
    yield from one_plan(*([group(n)] for n in steps))
    for n in steps:
        yield f"drop {name(n)}"


def renumberings_of_one_named(steps):
    """A group that each of many elements names, renumbered as often as there are elements."""
    yield from groups_that_name_one(steps[::18])
    yield "edits"
    for _ in steps[::2]:
        yield "renumber 0.0 16000\nrenumber 0.16000 0"


def turns_of_one_named(steps):
    """A group that each of many elements names, turned as often as there are elements."""
    yield from groups_that_name_one(steps[::18])
    yield "edits"
    for _ in steps:
        yield "turn 0.0"


def added_by_journal(serials):
    """A journal that adds a group after the last for each serial."""
    yield "plan 1"
    yield f"journal 2 {serials[-1] + 1}"
    last = "^"
    for i, serial in enumerate(serials):
        yield f"{serial} add {last} {group(i)}"
        last = f"n{serial}"


def added_by_rising_serials(steps):
    yield from added_by_journal(range(1, len(steps) + 1))


def added_by_colliding_serials(steps):
    yield from added_by_journal(colliding(len(steps)))


LOADS = {
    "groups": groups,
    "groups-out-of-order": groups_out_of_order,
    "groups-of-eight": groups_of_eight,
    "groups-full-of-packets": groups_full_of_packets,
    "groups-that-name-one": groups_that_name_one,
    "groups-of-each-country": groups_of_each_country,
    "identities-all-over": identities_all_over,
    "telegrams-without-end": telegrams_without_end,
    "lines-without-words": commands("x" * LONGEST_LINE),
    "lines-of-many-words": commands("add 0" + " 00" * 1_363),
    "lines-of-telegrams": commands("add 0" + (" " + EMPTY) * 74),
    "lines-of-digits": commands("insert 5.100 0 0 42403e0a" + "00" * 2_035),
    "nothing-to-undo": commands("undo"),
    "no-such-edit": commands("strike 4294967295"),
    "values-too-wide": commands("seth 5.100 0 M_DUP 4"),
    "set-and-undone": commands("seth 5.100 0 M_DUP 1", "undo"),
    "put-in-and-undone": commands("insert 5.100 0 0 42403e0a", "undo"),
    "turned": commands("turn 5.100"),
    "strikes-of-a-million": strikes_of_a_million,
    "strikes-of-a-million-elsewhere": strikes_of_a_million_elsewhere,
    "strikes": strikes,
    "refused-strikes": refused_strikes,
    "undone-in-journal": undone_in_journal,
    "adds-in-the-middle": adds_in_the_middle,
    "drops-of-the-first": drops_of_the_first,
    "renumberings-of-one-named": renumberings_of_one_named,
    "turns-of-one-named": turns_of_one_named,
    "added-by-rising-serials": added_by_rising_serials,
    "added-by-colliding-serials": added_by_colliding_serials,
}


def main(load, count, longest=LONGEST_INPUT):
    left = longest - len("edits\n")
    has_commands = False
    for line in LOADS[load](range(count) if count else numbers()):
        left -= len(line) + 1
        if left < 0:
            break
        has_commands |= line == "edits"
        sys.stdout.write(line + "\n")
    if not has_commands:
        sys.stdout.write("edits\n")


if __name__ == "__main__":
    main(sys.argv[1], *map(int, sys.argv[2:]))
