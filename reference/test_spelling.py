"""Tests of fields to digits: each reason of docs/FIELDS.md by hand, in one item that is changed.

Run them here: python3 -m unittest test_spelling
"""

import re
import unittest

from fields_by_hand import END, HEADER, HEADER_LINES, OTHER, REVOCATION
from fields_by_hand import answered, joined, packet, spelled, telegram
from random_fields import make_fields
from test_fields import PAGE
from texts import digits_of_bits

ITEM = [
    *f"telegram 210 | {HEADER_LINES}".split(" | "),
    *"packet\n50 8 NID_PACKET 0 66\nQ_DIR 1\nL_PACKET 31\nNID_TSR 0 5".splitlines(),
    *"packet\nNID_PACKET 44\nQ_DIR 2\nrest 5 b0\nend".splitlines(),
]
"""A telegram as fields: its header is the lines 1 to 11, and `packet` stands on 12 and 17."""
Changes = dict[int, str | None]
"""Other texts for lines of ITEM, by their numbers, and none for a line that is left out."""
DIFFERENCES = (
    "packet 33 | NID_PACKET 27 | Q_DIR 1 | Q_SCALE 1 | D_STATIC 3 | V_STATIC 4 | Q_FRONT 1"
    " | N_ITER 1 | Q_DIFF {} | {} | V_DIFF 1 | N_ITER 0"
)
LONG = f"packet 33 | NID_PACKET 44 | Q_DIR 0 | rest 8169 {'0' * 2043}"
REASONS: list[tuple[str, Changes | str, str]] = [
    ("BadLine", {12: ""}, "bad 12 BadLine"),
    ("BadLine", {1: "telegram 211"}, "bad 1 BadLine"),
    ("BadLine", {3: "M_VERSION  33", 13: "SPEED 300"}, "bad 3 BadLine"),
    ("BadLine", {15: "fault 7 PacketCut 0 60 L_PACKET"}, "bad 15 BadLine"),
    ("BadLine", {16: "8 NID_TSR 0 5"}, "bad 16 BadLine"),
    ("BadLine", {16: "NID_TSR 05"}, "bad 16 BadLine"),
    ("BadLine", {16: "NID_TSR 4294967296"}, "bad 16 BadLine"),
    ("BadLine", {16: "y 8 NID_TSR 0 5"}, "bad 16 BadLine"),
    ("BadLine", {20: "rest 5 b0\nNID_TSR 0"}, "bad 21 BadLine"),
    ("BadLine", {11: "49 1 Q_LINK 0 1\nrest 8 ff"}, "bad 12 BadLine"),
    ("BadLine", {21: "end\npadding 93 00\nend"}, "bad 23 BadLine"),
    ("BadLine", "NID_TSR 0", "bad 1 BadLine"),
    ("BadHex", {20: "rest 5 g0", 13: "SPEED 300"}, "bad 20 BadHex"),
    ("BadHex", {20: "rest 5 b"}, "bad 20 BadHex"),
    ("BadHex", {20: "rest 5 b00"}, "bad 20 BadHex"),
    ("BadHex", {20: "rest 5 b4"}, "bad 20 BadHex"),
    ("UnknownName", {18: "Q_SPEED 44", 14: "Q_DIR 9"}, "bad 18 UnknownName"),
    ("UnknownName", {16: "nid_tsr 5"}, "bad 16 UnknownName"),
    ("NotDue", {14: "NID_TSR 0"}, "bad 14 NotDue Q_DIR"),
    ("NotDue", {15: "V_TSR 0"}, "bad 15 NotDue NID_TSR"),
    ("NotDue", {2: None}, "bad 2 NotDue Q_UPDOWN"),
    ("NotDue", {14: "NID_TSR 300"}, "bad 14 NotDue Q_DIR"),
    ("NotDue", {5: "NID_C 5", 14: "Q_DIR 4"}, "bad 5 NotDue N_PIG"),
    ("NotDue", DIFFERENCES.format(0, "NC_DIFF 1"), "bad 10 NotDue NC_CDDIFF"),
    ("NotDue", DIFFERENCES.format(1, "NC_CDDIFF 1"), "bad 10 NotDue NC_DIFF"),
    ("TooWide", {14: "Q_DIR 4"}, "bad 14 TooWide"),
    ("TooWide", {14: "Q_DIR 4", 15: "L_PACKET 8192"}, "bad 14 TooWide"),
    ("TooWide", {15: "L_PACKET 8192", 16: "NID_TSR 256"}, "bad 16 TooWide"),
    ("TooWide", {13: "NID_PACKET 256"}, "bad 13 TooWide"),
    ("TooWide", {14: "Q_DIR 4", 18: "Q_DIR 0"}, "bad 14 TooWide"),
    ("TooWide", DIFFERENCES.format(4, "NC_DIFF 1"), "bad 9 TooWide"),
    ("Spare", DIFFERENCES.format(3, "NC_DIFF 1"), "bad 9 Spare"),
    ("NoFields", {13: "NID_PACKET 0"}, "bad 13 NoFields"),
    ("NoFields", {18: "NID_PACKET 255"}, "bad 18 NoFields"),
    ("TooMany", {16: "NID_TSR 5\nNID_TSR 5"}, "bad 17 TooMany"),
    ("TooMany", {19: "Q_DIR 0\nQ_SCALE 0"}, "bad 20 TooMany"),
    ("TooMany", {11: "Q_LINK 1\nQ_LINK 1"}, "bad 12 TooMany"),
    ("Missing", {16: None}, "bad 16 Missing NID_TSR"),
    ("Missing", {15: None, 16: None}, "bad 15 Missing NID_TSR"),
    ("Missing", {11: None}, "bad 11 Missing Q_LINK"),
    ("Missing", {18: None, 19: None}, "bad 18 Missing NID_PACKET"),
    ("Missing", {21: None}, "bad 21 Missing end"),
    ("Missing", {21: None, 2: "Q_UPDOWN 0"}, "bad 21 Missing end"),
    ("Missing", "packet 33", "bad 2 Missing NID_PACKET"),
    ("TooLong", LONG, "bad 1 TooLong"),
    ("TooLong", LONG.replace("44", "66").replace("0 | rest", "0 | NID_TSR 0 | rest"), "bad 1 TooLong"),
    ("BitsLeft", {16: "NID_TSR 5\nrest 1 8"}, "bad 17 BitsLeft"),
    ("BitsLeft", {16: "NID_TSR 5\nrest 1 8", 18: "NID_PACKET 0"}, "bad 17 BitsLeft"),
    ("BitsLeft", {15: "L_PACKET 9", 16: "NID_TSR 5\nrest 1 8"}, "bad 17 BitsLeft"),
    ("OtherLength", {15: "L_PACKET 32"}, "bad 12 OtherLength 31"),
    ("OtherLength", {15: "L_PACKET 8192"}, "bad 12 OtherLength 31"),
    # One packet is judged after the other, and all of them before the end.
    ("OtherLength", {15: "L_PACKET 32", 19: "Q_DIR 4"}, "bad 12 OtherLength 31"),
    ("OtherLength", {15: "L_PACKET 32", 20: LONG.rpartition(" | ")[2]}, "bad 12 OtherLength 31"),
    ("OtherLength", {15: "L_PACKET 32", 21: None}, "bad 12 OtherLength 31"),
    ("OtherLength", {19: "Q_DIR 2\nL_PACKET 23", 2: "Q_UPDOWN 0"}, "bad 17 OtherLength 28"),
    # 50 + 31 + 28 + 8 are 117 bits.
    ("BadLength", {21: "end\npadding 92 " + "f" * 23}, "bad 1 BadLength 209"),
    ("BadLength", {21: "end\npadding 94 " + "0" * 24, 2: "Q_UPDOWN 0"}, "bad 1 BadLength 211"),
    # 117 + 94 are 211, though no padding is given.
    ("BadLength", {20: f"rest 99 {'0' * 25}"}, "bad 1 BadLength 211"),
    ("NotABalise", {2: "Q_UPDOWN 0"}, "bad 1 NotABalise"),
    ("NotABalise", {4: "Q_MEDIA 1"}, "bad 1 NotABalise"),
]
"""For each reason an item as fields, as changes of ITEM or whole, and what is due."""


def changed(changes: Changes | str) -> str:
    if isinstance(changes, str):
        return changes
    lines = [changes.get(number, line) for number, line in enumerate(ITEM, 1)]
    return " | ".join(line.replace("\n", " | ") for line in lines if line is not None)


class FieldsToDigits(unittest.TestCase):
    def test_each_reason(self) -> None:
        for name, changes, due in REASONS:
            with self.subTest(due, changes=changes):
                self.assertIn(f" {name}", due)
                self.assertEqual(spelled(changed(changes)), due)
                self.assertEqual(answered(changed(changes), "--spell").status, 1)

    def test_liberties(self) -> None:
        due = telegram(HEADER, REVOCATION, OTHER, END)
        liberties: list[Changes] = [
            {},
            {15: None},
            {16: "9 9 NID_TSR 9 5"},
            {19: "Q_DIR 7 2\n9 9 L_PACKET 9 28"},
        ]
        for changes in liberties:
            self.assertEqual(spelled(changed(changes)), due)
        self.assertEqual(spelled(changed({20: "rest 5 B0"})), due)
        zeros = joined(HEADER, REVOCATION, OTHER, END).ljust(210, "0")
        given = changed({21: f"end\npadding 93 {'0' * 24}"})
        self.assertEqual(spelled(given), digits_of_bits(zeros))

    def test_longest_packet(self) -> None:
        given = f"packet 16 | NID_PACKET 44 | Q_DIR 0 | rest 8168 {'5' * 2042}"
        due = packet("00101100 00 1111111111111", "0101" * 2042, version=16)
        self.assertEqual(spelled(given), due)

    def test_any_number_is_a_version(self) -> None:
        for version in (128, 4294967295):
            given = f"packet {version} | NID_PACKET 66 | Q_DIR 1 | NID_TSR 5"
            self.assertEqual(spelled(given), packet(REVOCATION, version=version))
        self.assertEqual(spelled("packet 4294967296 | NID_PACKET 66"), "bad 1 BadLine")

    def test_where_items_end(self) -> None:
        good = "packet 33 | NID_PACKET 66 | Q_DIR 1 | NID_TSR 0"
        one = "packet 33 42403e00"
        for given, due in (
            (f"{good} | {good}", f"{one} | {one}"),
            (f"plan 1 | group | {good} | group | {good}", f"plan 1 | group | {one} | group | {one}"),
            (f"Q_DIR 1 | Q_DIR 1 | {good}", f"bad 1 BadLine | {one}"),
            (f"group | Q_DIR 1 | {good}", f"group | bad 2 BadLine | {one}"),
            (f"{good} | telegram | Q_DIR 1 | {good}", f"{one} | bad 5 BadLine | {one}"),
            (f"{good} | packet x | Q_DIR 1 | {good}", f"{one} | bad 5 BadLine | {one}"),
            (f"{good} | fault 2 BadHex - 0 digit | {good}", f"{one} | bad 5 BadLine | {one}"),
            (f"{good} | fault 6 NoEnd | {good}", f"bad 5 BadLine | {one}"),
            (f"{good} | packet | {good}", f"bad 5 BadLine | {one}"),
            (f"{good} | group ", "bad 5 BadLine"),
        ):
            self.assertEqual(spelled(given), due, given)


class Reasons(unittest.TestCase):
    def test_order_of_the_page(self) -> None:
        table = PAGE.read_text().partition("bad LINE NAME")[2]
        rows = re.findall(r"^\| ([A-Z][A-Za-z]+) \| ", table, re.MULTILINE)
        self.assertEqual(list(dict.fromkeys(name for name, _, _ in REASONS)), rows)

    def test_all_come_up_in_random_items(self) -> None:
        given = [" | ".join(make_fields(seed, damaged=True).lines) for seed in range(1500)]
        names = set(re.findall(r"bad \d+ (\w+)", " | ".join(spelled(text) for text in given)))
        self.assertEqual(names, {name for name, _, _ in REASONS})


if __name__ == "__main__":
    unittest.main()
