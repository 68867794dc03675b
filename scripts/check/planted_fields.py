#!/usr/bin/env python3
"""Tests the comparison of fields: plants faults in copies of the reference, and compares each copy with the reference.

usage: planted_fields.py [--most COUNT] [-j PROCESSES]

Each fault is one text of reference/ replaced by another in a copy of that folder. The copy is the program that
reference/compare_fields.py gets, with sound items, or with damaged ones where only these show the fault.

Status 0: a copy without a fault is right, and each fault was found in COUNT items, 1,000 if none is given. 1: one
wasn't. 2: reference/ isn't there, or a text to replace isn't there exactly once, as after a change of the reference.
"""

import argparse
import os
import shlex
import subprocess
import sys
import tempfile
from concurrent.futures import ThreadPoolExecutor
from pathlib import Path

from planted import REFERENCE, Fault, Unusable, plant

SOUND = (
    Fault(
        "a field is left out",
        "fields.py",
        'self.lines.append(f"{self.place} {width}',
        'name == "Q_LINKREACTION" or self.lines.append(f"{self.place} {width}',
    ),
    Fault("NID_NTC follows M_LEVELTR 0", "packets.py", '("M_LEVELTR", 1)', '("M_LEVELTR", 0)'),
    Fault("NC_CDDIFF follows Q_DIFF 2", "packets.py", '("Q_DIFF", 2): "NC_DIFF"', '("Q_DIFF", 2): "NC_CDDIFF"'),
    Fault("occurrences are counted over the whole telegram", "fields.py", "self._taken.clear()", "pass"),
    Fault("packet 27 is known in each version", "packets.py", "ONLY_IN_VERSION_2 = (27, 41)", "ONLY_IN_VERSION_2 = (41,)"),
    Fault(
        "packet 41 is known where Y of M_VERSION is 2", "packets.py", "version >> 4 != 2", "(version >> 4 != 2 != version % 16)"
    ),
    Fault("a version is cut to seven bits", "fields.py", "return number(others[0])", "return number(others[0]) % 128"),
    Fault("the last digit is filled up by ones", "fields.py", 'bits + "0" * (-len(bits) % 4)', 'bits + "1" * (-len(bits) % 4)'),
    Fault("padding of no bits has a line", "fields.py", "if bits:\n", 'if bits or word == "padding":\n'),
    Fault("padding that is left out is zeros", "spelling.py", 'bits.ljust(due, "1")', 'bits.ljust(due, "0")'),
    Fault("L_PACKET has to be there", "spelling.py", 'if self.next_is("L_PACKET"):', "if True:"),
    Fault(
        "of three words the second is the value",
        "spelling.py",
        "case [name, occurrence, value]:",
        "case [name, value, occurrence]:",
    ),
    Fault("a line `group` isn't printed again", "spelling.py", "            out += item\n", "            out += item[:0]\n"),
)
"""Faults that sound items show."""
DAMAGED = (
    Fault("a fault stands one bit too late", "fields.py", "self.packet, self.place, due)", "self.packet, self.place + 1, due)"),
    Fault("the fault of a missing digit stands one digit too early", "fields.py", "4 * len(digits)", "4 * len(digits) - 4"),
    Fault("an L_PACKET below 23 is taken", "fields.py", "length < OPENING_BITS or ", ""),
    Fault("fields stand before a fault of the digits", "fields.py", "[] if stop.refusal in OF_DIGITS else ", ""),
    Fault("spare bits are taken", "fields.py", 'if "1" in bits[length:]:', "if False:"),
    Fault("packets are counted from 1", "fields.py", "    packets = 0\n", "    packets = 1\n"),
    Fault("packet 255 by itself is one that isn't known", "fields.py", "if alone and nid_packet", "if False and nid_packet"),
    Fault(
        "Q_MEDIA 1 is taken", "fields.py", 'OF_A_BALISE = {"Q_UPDOWN": 1, "Q_MEDIA": 0}', 'OF_A_BALISE = {"Q_UPDOWN": 1}'
    ),
    Fault("a telegram without an end is a packet that is cut", "fields.py", "reader.stop(Refusal.NoEnd", "reader.stop(Refusal.PacketCut"),
    Fault("bits after the last field are taken", "fields.py", "if self.place < end:", "if self.place < end - 1:"),
    Fault("version 4294967296 is taken", "texts.py", "int(word) > GREATEST_NUMBER:", "int(word) > GREATEST_NUMBER + 1:"),
    Fault("the status is always 0", "fields.py", "    return int(refused)", "    return 0"),
    Fault("a line may have 4,097 bytes", "run.py", "LONGEST_LINE = 4096", "LONGEST_LINE = 4097"),
    Fault(
        "an item is printed though the line after it is too long",
        "spelling.py",
        """    while (text := lines.next()) is not None:
        if item and""",
        """    while True:
        try:
            text = lines.next()
        except Exception:
            yield start, item
            raise
        if text is None:
            break
        if item and""",
    ),
    Fault("L_PACKET isn't compared", "spelling.py", 'self.values.get("L_PACKET", self.length())', "self.length()"),
    Fault("an L_PACKET of 8,192 is TooWide", "spelling.py", ' and name != "L_PACKET":', ":"),
    Fault("the first value that doesn't fit is taken", "spelling.py", "line.value >= 1 << WIDTHS", "line.value > 1 << WIDTHS"),
    Fault("Missing has the line of the last field", "spelling.py", "self.head.at + 1 + self.taken", "self.head.at + self.taken"),
    Fault("spare bits of a rest are taken", "spelling.py", 'if "1" not in bits[self.value :]:', "if True:"),
    Fault("NID_PACKET 255 is taken", "spelling.py", "(0, END_OF_INFORMATION)", "(0,)"),
    Fault("the rest of a known packet is taken", "spelling.py", "if self.rest and known:", "if False:"),
    Fault("a packet may have 8,192 bits", "spelling.py", "> GREATEST_LENGTH:", "> GREATEST_LENGTH + 1:"),
    Fault("a fault of digits belongs to the item before it", "spelling.py", 'in (["2"], ["3"], ["4"])', "in ()"),
    Fault("a telegram without `end` is taken", "spelling.py", "if not ended:", "if False:"),
    Fault("the number of a telegram's bits isn't compared", "spelling.py", "if len(bits) != due:", "if len(bits) < due:"),
    Fault("Q_UPDOWN 0 is taken", "spelling.py", "if any(header.values[name]", "if False and any(header.values[name]"),
    Fault("a field after the last one is taken", "spelling.py", "if self.taken < len(self.fields):\n            raise Bad(self.f", "if False:\n            raise Bad(self.f"),
    Fault(
        "TooWide comes before NotDue",
        "spelling.py",
        """        if line.name != name:
            raise Bad(line.at, "NotDue", name)
        # L_PACKET is compared with the length, whatever it is.
        if line.value >= 1 << WIDTHS[name] and name != "L_PACKET":
            raise Bad(line.at, "TooWide")
""",
        """        if line.value >= 1 << WIDTHS[name] and name != "L_PACKET":
            raise Bad(line.at, "TooWide")
        if line.name != name:
            raise Bad(line.at, "NotDue", name)
""",
    ),
    Fault(
        "OtherLength comes before BitsLeft",
        "spelling.py",
        "        if self.rest and known:",
        """        if self.values.get("L_PACKET", self.length()) != self.length():
            raise Bad(self.head.at, "OtherLength", self.length())
        if self.rest and known:""",
    ),
    Fault(
        "lengths are compared after the fields of all packets",
        "spelling.py",
        """    for packet in packets:
        packet.take_packet(version)
""",
        """    later = []
    for packet in packets:
        try:
            packet.take_packet(version)
        except Bad as bad:
            if bad.name != "OtherLength":
                raise
            later.append(bad)
    for bad in later:
        raise bad
""",
    ),
    Fault(
        "a missing `end` comes before the packets",
        "spelling.py",
        """    for packet in packets:
        packet.take_packet(version)
    if not ended:
        raise Bad(lines[-1].at + 1, "Missing", "end")
""",
        """    if not ended:
        raise Bad(lines[-1].at + 1, "Missing", "end")
    for packet in packets:
        packet.take_packet(version)
""",
    ),
    Fault(
        "names are judged before digits",
        "spelling.py",
        """    for line in lines:
        if line.kind in ("rest", "padding"):
            line.bits()
    for line in lines:
        if line.kind == "field" and line.name not in WIDTHS:
            raise Bad(line.at, "UnknownName")
""",
        """    for line in lines:
        if line.kind == "field" and line.name not in WIDTHS:
            raise Bad(line.at, "UnknownName")
    for line in lines:
        if line.kind in ("rest", "padding"):
            line.bits()
""",
    ),
)
"""Faults that damaged items show."""
NONE = Fault("no fault", "fields.py", "class Reader:", "class Reader:")
FOUND, NOT_FOUND = 1, 0


def compared(fault: Fault, damaged: bool, most: int) -> int:
    """The status of the comparison of a copy in which a fault is planted."""
    with tempfile.TemporaryDirectory() as temporary:
        folder = Path(temporary) / "reference"
        plant(fault, folder)
        program = shlex.join([sys.executable, "-B", str(folder / "balisefields.py")])
        words = [sys.executable, "-B", str(REFERENCE / "compare_fields.py"), program, "1", str(most)]
        words += ["--show", "1", "-j", "1", *(["--damaged"] if damaged else [])]
        done = subprocess.run(words, capture_output=True, text=True)
        if done.returncode not in (FOUND, NOT_FOUND):
            raise Unusable(f"'{fault.name}': status {done.returncode}\n{done.stderr[-600:]}")
        return done.returncode


def main() -> int:
    parser = argparse.ArgumentParser(description="Plants faults in copies of the reference.")
    parser.add_argument("--most", type=int, default=1000, help="how many items each gets at most")
    parser.add_argument("-j", dest="processes", type=int, default=os.cpu_count() or 1)
    asked = parser.parse_args()
    rows = [(NONE, False), (NONE, True), *((fault, False) for fault in SOUND), *((fault, True) for fault in DAMAGED)]
    wrong = 0
    try:
        if not (REFERENCE / "compare_fields.py").exists():
            raise Unusable(f"there is no {REFERENCE}/compare_fields.py")
        with ThreadPoolExecutor(asked.processes) as pool:
            ends = pool.map(lambda row: compared(row[0], row[1], asked.most), rows)
            for (fault, damaged), status in zip(rows, ends, strict=True):
                wrong += status != (NOT_FOUND if fault is NONE else FOUND)
                seen = "found by" if status == FOUND else "not found by"
                print(f"{seen} {'damaged' if damaged else 'sound'} items: {fault.name}", flush=True)
    except Unusable as reason:
        print(f"planted_fields.py: {reason}", file=sys.stderr)
        return 2
    print(f"planted: {len(rows) - 2} faults, {wrong} wrong")
    return 1 if wrong else 0


if __name__ == "__main__":
    sys.exit(main())
