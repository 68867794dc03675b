"""Where digits are wrong: what balisefields says of them, in the messages over a bad file and a refused command."""

from __future__ import annotations

from pathlib import Path

import pytest
from conftest import TOP, Desk, call
from plandesk.engine import Engine
from plandesk.errors import BadInput
from plandesk.explain import explain
from plandesk.faults import OF_DIGITS, UNKNOWN
from plandesk.spare import SPARE, spare_plan

import random_fields

DAMAGED = 120
TSR = "in packet 0 of the telegram (65 temporary speed restriction), at bit"
TELEGRAMS = [
    ("a1127f80a06450502320a0320096047fffffffffffffffffffffc0", f"{TSR} 114, V_TSR is due, and too few bits are left for it; before it: D_TSR 200, L_TSR 300, Q_FRONT 0"),
    ("a1127f80a0645050xx", "character 17, `x`, isn't a hexadecimal digit"),
    ("a1127f8", "there are 7 digits, an odd number: one is missing at the end"),
    ("a1127f80", "there are 32 bits in 8 digits; a telegram takes 54 digits for its 210 bits, or 208 for 830"),
    ("a1127f80a064505023a0a0320096047fffffffffffffffffffffc1", "bit 215 isn't zero, and stands after the last one"),
    ("21127f80a064505023a0a0320096047fffffffffffffffffffffc0", "bit 0, Q_UPDOWN, has to be 1"),
    ("a1927f80a064505023a0a0320096047fffffffffffffffffffffc0", "bit 8, Q_MEDIA, has to be 0"),
    ("a1127f80a064505025" + "0" * 36, f"{TSR} 121, the last field ends, and L_PACKET leaves more bits; before it: L_TSR 0, Q_FRONT 0, V_TSR 0"),
    ("a1127f80a0640000" + "0" * 38, "in packet 0 of the telegram, at bit 58, no packet has NID_PACKET 0"),
    ("a1127f80a0644b008" + "0" * 37, "in packet 0 of the telegram (44 data of applications outside ETCS), at bit 73, L_PACKET 256 leads past the end"),
]  # fmt: skip
"""Digits of the second telegram of 5.200, and what is said of them."""
REVOKED = "in the packet (66 temporary speed restriction revocation), at bit"
PACKETS = [
    ("42403c00", f"{REVOKED} 23, NID_TSR is due, and too few bits are left for it; before it: NID_PACKET 66, Q_DIR 1, L_PACKET 30"),
    ("42404000", f"{REVOKED} 31, the last field ends, and L_PACKET leaves more bits"),
    ("424040", f"{REVOKED} 23, L_PACKET 32 leads past the end; before it: NID_PACKET 66, Q_DIR 1"),
    ("424028", f"{REVOKED} 23, no packet has L_PACKET 20; before it: NID_PACKET 66, Q_DIR 1"),
    ("4240", f"{REVOKED} 10, L_PACKET is due"),
    ("00", "in the packet, at bit 8, no packet has NID_PACKET 0"),
    ("ff", "in the packet, at bit 8, no packet has NID_PACKET 255"),
    ("42403e01", "bit 31 isn't zero, and stands after the last one"),
    ("42403e0000", "there are 40 bits in 10 digits; L_PACKET says how many a packet takes, filled up to a whole byte"),
    ("42403e0", "there are 7 digits, an odd number: one is missing at the end"),
    ("4z403e00", "character 2, `z`, isn't a hexadecimal digit"),
]  # fmt: skip


@pytest.mark.parametrize(("digits", "text"), TELEGRAMS)
def test_a_bad_plan(digits: str, text: str, base: str, tmp_path: Path, desk: Desk, line: Path) -> None:
    bad = tmp_path / "bad.plan"
    lines = base.splitlines()
    bad.write_text("\n".join([*lines[:5], digits, *lines[6:], ""]))
    for words in (["init", bad, tmp_path / "new"], ["show", "--plan", bad], ["verify", line / "base.plan", line / "journal", bad]):
        result = call(*words)
        if words[0] != "verify":
            assert (result.exit_code, text in result.output) == (2, True), result.output
            assert "bad.plan, line 6, `" in result.output
    result = call("verify", bad, line / "journal", line / "line.plan", "--engine-only")
    assert (result.exit_code, text in result.output) == (2, True), result.output
    assert not (tmp_path / "new").exists()
    added = desk("do", f"add 0 {lines[4]} {digits}")
    assert (added.exit_code, f"telegram 1: {text}" in added.output) == (1, True), added.output


@pytest.mark.parametrize(("digits", "text"), PACKETS)
def test_a_refused_insert_and_a_bad_journal(digits: str, text: str, desk: Desk, line: Path) -> None:
    result = desk("do", f"insert 5.200 1 0 {digits}")
    assert (result.exit_code, text in result.output) == (1, True), result.output
    (line / "journal").write_text(f"journal 2 2\n1 insert b1/1 ^ {digits}\n")
    result = desk("status")
    assert (result.exit_code, text in result.output) == (2, True), result.output
    assert "the journal, line 2, `1 insert b1/1 ^" in result.output


def test_a_bad_journal_over_what_it_added(desk: Desk, line: Path, base: str) -> None:
    """The version of a telegram that the journal adds is that of its digits."""
    first = base.splitlines()[2].replace("a1007f80a032", "a1007f80a0c9", 1)
    old = "90" + first[2:]
    assert desk("do", f"add 0 {old}").exit_code == 0
    good = (line / "journal").read_text()
    for entry, text in (
        ("2 insert n1/0 ^ 29403201", "bit 31 isn't zero, and stands after the last one"),
        (f"2 add ^ {old} {old[:-1]}1", "telegram 1: bit 215 isn't zero, and stands after the last one"),
    ):
        (line / "journal").write_text(good.replace("journal 2 2", "journal 2 3") + f"{entry}\n")
        result = desk("log")
        assert (result.exit_code, text in result.output) == (2, True), result.output
    for entry in ("2 insert n9/0 ^ 29407e00", "2 insert b0/7 ^ 29407e00", "2 insert nothing ^ 2", "2 turn b0/0", "2 add b9 " + first):
        (line / "journal").write_text(good.replace("journal 2 2", "journal 2 3") + f"{entry}\n")
        result = desk("log")
        assert (result.exit_code, "the journal, line 3" in result.output) == (2, True), result.output


def test_no_end(tmp_path: Path, base: str) -> None:
    """Packet 44 goes on to the last bit but seven: there is no room for packet 255."""
    bits = f"{int(base.splitlines()[2], 16):0216b}"[:50] + f"{44:08b}01{153:013b}" + "0" * 130 + "1" * 7
    plan = tmp_path / "bad.plan"
    plan.write_text(f"plan 1\ngroup\n{int(bits + '0' * 6, 2):054x}\n")
    result = call("init", plan, tmp_path / "new")
    assert (result.exit_code, "(6 NoEnd)" in result.output) == (2, True), result.output
    assert "packet 255 is due at bit 203, after 1 packet, and too few bits are left" in result.output


def test_lines_that_are_no_digits(tmp_path: Path, base: str, desk: Desk) -> None:
    """What balisefields reads as something else than a telegram's digits."""
    for other, text in (
        ("packet 33 42403e00", "line 6, `packet 33 42403e00`: a digit isn't hexadecimal"),
        ("plan 1", "line 6, `plan 1`: a digit isn't hexadecimal, or the number of digits is odd (2 BadHex)\n          `plan 1` stands where"),
        ("telegram 210", "character 1, `t`, isn't a hexadecimal digit"),
        ("a1 \xff", "character 3, ` `, isn't a hexadecimal digit"),
    ):
        bad = tmp_path / "bad.plan"
        lines = base.splitlines()
        bad.write_bytes("\n".join([*lines[:5], other, *lines[6:], ""]).encode("latin-1"))
        result = call("init", bad, tmp_path / "new")
        assert (result.exit_code, text in result.output, "isn't known" in result.output) == (2, True, False), result.output
    assert "; `group` stands where digits are due" in desk("do", "add 0 group").output
    assert "; telegram 1: `group` stands where digits are due" in desk("do", f"add 0 {base.splitlines()[2]} group").output


def test_each_fault_of_the_page(desk: Desk) -> None:
    """The runs of docs/FIELDS.md: each fault of a packet there is said of an insert too."""
    page = (TOP / "docs" / "FIELDS.md").read_text()
    runs = [line.split(" => ") for line in page.splitlines() if line.startswith("packet 33 ") and "=> packet 33 |" in line]
    faults = [(given, printed.split(" | ")[-1].split(" ")) for given, printed in runs if "fault " in printed and " | " not in given]
    assert len(faults) > 3
    for given, fault in faults:
        assert f"at bit {fault[4]}, " in desk("do", f"insert 5.200 1 0 {given.split(' ')[2]}").output


@pytest.mark.parametrize("seed", range(DAMAGED))
def test_random_damage(seed: int, engine: Engine) -> None:
    """Each fault that the engine finds in digits is one that balisefields finds, and there are words for it."""
    (line, *more) = random_fields.make_digits(seed, damaged=True).lines
    first, *rest = line.split(" ")
    if more or len(rest) > 2 or first == "packet" and (len(rest) < 2 or not rest[0].isdigit() or int(rest[0]) > 127):
        return  # a plan, or a line that no insert has
    if first != "packet":
        try:
            engine.run(f"plan 1\ngroup\n{line}\n")
        except BadInput as bad:
            is_of_digits = any(f"({number} " in bad.message for number in OF_DIGITS)
            assert UNKNOWN not in bad.hint and (bool(bad.hint) or not is_of_digits), bad.message
        return
    run = engine.run(spare_plan(int(rest[0])), "", [command := f"insert {SPARE} 0 {rest[1]}"])
    if run.replies[0].refused and run.replies[0].number in OF_DIGITS:
        words = explain(command, run.replies[0], run.groups)
        assert UNKNOWN not in words and ("bit" in words or "character" in words or "one is missing" in words), words
