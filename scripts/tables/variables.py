#!/usr/bin/env python3
"""Finds or checks the table that finds a variable by its name.

    scripts/tables/variables.py            prints the smallest table and its factors
    scripts/tables/variables.py --check    checks the table and the factors of the sources

A name has the place (length % 32 * A + first * B + last * C) % SIZE, by its length and its first and last byte. All
names need different places. The table is BY_PLACE in crates/balise_rules/src/variable.rt, and the factors stand in
`candidate` there and in `place_of` in crates/balise_rules/proofs/VariableNames.antt. A search takes half a minute, and
with more names minutes.
"""

import itertools
import pathlib
import re
import sys

CRATE = pathlib.Path(__file__).resolve().parents[2] / "crates" / "balise_rules"
SOURCE = CRATE / "src" / "variable.rt"
PROOF = CRATE / "proofs" / "VariableNames.antt"

# The variable at a place that no name has.
NOBODY = "NidPacket"


def variables(source):
    """The variables with their names, in the order of `Var::name`."""
    pairs = re.findall(r'Var::(\w+) => "(\w+)",', source)
    if not pairs:
        sys.exit(f"{SOURCE}: no variable has a name")
    return pairs


def place(name, factors, size):
    length, first, last = factors
    return (len(name) % 32 * length + ord(name[0]) * first + ord(name[-1]) * last) % size


def works(keys, factors, size):
    taken = set()
    a, b, c = factors
    for length, first, last in keys:
        spot = (length * a + first * b + last * c) % size
        if spot in taken:
            return False
        taken.add(spot)
    return True


def smallest(names):
    """The least size for which factors work, and of those the least A, then C, then B."""
    keys = [(len(name) % 32, ord(name[0]), ord(name[-1])) for name in names]
    if len(set(keys)) < len(keys):
        sys.exit("two names agree in their length, first and last byte: no factors work")
    for size in itertools.count(len(keys)):
        for a, c, b in itertools.product(range(size), repeat=3):
            if works(keys, (a, b, c), size):
                return (a, b, c), size


def table(pairs, factors, size):
    by_place = [NOBODY] * size
    for variable, name in pairs:
        by_place[place(name, factors, size)] = variable
    return by_place


def show(pairs):
    factors, size = smallest([name for _, name in pairs])
    print(f"static BY_PLACE: [Var; {size}] = [")
    for variable in table(pairs, factors, size):
        print(f"    Var::{variable},")
    print("];")
    a, b, c = factors
    print(f"    let place = name.len() % 32 * {a} + usize::from(*first) * {b} + usize::from(*last) * {c};")
    print(f"    Some(BY_PLACE[place % {size}])")


def numbers(pattern, text, where):
    found = re.search(pattern, text)
    if found is None:
        sys.exit(f"{where}: the place of a name isn't there")
    return [int(number) for number in found.groups()]


def check(pairs, source):
    *factors, size = numbers(
        r"% 32 \* (\d+) \+ usize::from\(\*first\) \* (\d+) \+ usize::from\(\*last\) \* (\d+);\s*"
        r"Some\(BY_PLACE\[place % (\d+)\]\)",
        source,
        SOURCE,
    )
    proved = numbers(
        r"% 32 \* (\d+) \+ get_or name 0 0 \* (\d+) \+ get_or name \(length name - 1\) 0 \* (\d+)\) % (\d+)",
        PROOF.read_text(),
        PROOF,
    )
    listed = re.search(r"static BY_PLACE: \[Var; (\d+)\] = \[([^\]]*)\]", source)
    by_place = re.findall(r"Var::(\w+)", listed.group(2))
    faults = []
    if proved != [*factors, size]:
        faults.append(f"{PROOF.name} has {proved}, and {SOURCE.name} has {[*factors, size]}")
    if len(by_place) != size or int(listed.group(1)) != size:
        faults.append(f"the table has {len(by_place)} places, and not {size}")
    owners = {}
    for variable, name in pairs:
        spot = place(name, factors, size)
        if spot in owners:
            faults.append(f"{name} and {owners[spot]} have the same place, {spot}")
        owners[spot] = name
    if not faults and by_place != table(pairs, factors, size):
        faults.append("a variable isn't at the place of its name")
    for fault in faults:
        print(fault)
    if not faults:
        print(f"{len(pairs)} variables, each at its own place of {size}")
    return 1 if faults else 0


def main(words):
    if words not in ([], ["--check"]):
        sys.exit(__doc__)
    source = SOURCE.read_text()
    pairs = variables(source)
    if words:
        return check(pairs, source)
    show(pairs)
    return 0


if __name__ == "__main__":
    sys.exit(main(sys.argv[1:]))
