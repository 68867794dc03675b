#!/usr/bin/env python3
"""Tests the comparison of facts: plants faults in copies of the reference, and looks how soon random inputs show each.

usage: planted_facts.py [--most COUNT] [--size small|medium] [--from SEED]

It does what planted.py does, with all ways to ask for facts of each input.

Status 0: each fault was found in COUNT inputs, 2,000 if none is given. 1: one wasn't. 2: reference/ isn't there, or a
text to replace isn't there exactly once, as after a change of the reference.
"""

import sys

from planted import Fault, Program, plant_all

FACTS = Program("balisefacts", ("compare_facts", "given_in_all_ways"))
FAULTS = (
    Fault("dependents without the last", "facts.py", "standing[at + 1 :]))", "standing[at + 1 :])[:-1])"),
    Fault("dependents without the next edit", "facts.py", "standing[at + 1 :]", "standing[at + 2 :]"),
    Fault("edits that stand after another depend on it", "session.py", "(are_apart(entry, f) or stands_after(entry, f))", "are_apart(entry, f)"),
    Fault("earlier edits are dependents too", "facts.py", "standing[at + 1 :]", "standing"),
    Fault("a telegram has the tag of its place", "facts.py", "{pig} {telegram.tag}", "{pig} {pig}"),
    Fault("packets have the tags of another telegram", "facts.py", "(telegram.packets)", "(group.telegrams[-1].packets)"),
    Fault("a packet has the tag of its place", "facts.py", "{place} {packet.tag}", "{place} b{place}"),
    Fault("groups have the tags of their places", "facts.py", "{name} {group.tag}", "{name} b{plan.groups.index(group)}"),
    Fault("tags are of the plan first read", "facts.py", "tag_lines(session.plan)", "tag_lines(session.first)"),
    Fault("a move leaves a place out", "session.py", '"move": "g/t/p.front g/t/p.after g/t/b.front', '"move": "g/t/p.front g/t/p.after'),
    Fault("the first identity that an edit needs is left out", "session.py", "(entry.note.names)", "(entry.note.names[1:])"),
    Fault(
        "identities that an edit needs come before other places",
        "session.py",
        "return places + _identity_places(entry.note.names)",
        "return _identity_places(entry.note.names) + places",
    ),
    Fault("a place that an edit needs twice comes once", "facts.py", "for place in needs(entry))", "for place in dict.fromkeys(needs(entry)))"),
    Fault(
        "needs and changes are exchanged",
        "facts.py",
        """changes {place}" for place in changes(entry))
        yield from (f"needs {place}" for place in needs(entry))
""",
        """changes {place}" for place in needs(entry))
        yield from (f"needs {place}" for place in changes(entry))
""",
    ),
    Fault("the changes are those of the edit before", "facts.py", "changes(entry))", "changes(standing[at - 1]))"),
    Fault("undone edits count", "facts.py", "standing = session.standing", "standing = session.entries"),
    Fault(
        "an edit that doesn't stand gives no line",
        "facts.py",
        'yield "facts 1"',
        'if asked.serial in (None, *(e.serial for e in session.standing)):\n        yield "facts 1"',
    ),
    Fault("--edit prints the next edit", "balisefacts.py", "return Asked(int(serial))", "return Asked(int(serial) + 1)"),
    Fault("replies to accepted commands are printed", "balisefacts.py", '{"--quiet"}', "set()"),
    Fault("it ends at the first refused command", "balisefacts.py", '{"--quiet"}', '{"--quiet", "--stop"}'),
    Fault("--tags is taken with --edit", "balisefacts.py", 'if "--tags" in given:', "if False:"),
)


if __name__ == "__main__":
    sys.exit(plant_all(FAULTS, FACTS))
