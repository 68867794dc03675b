"""Tests of digits to fields: rows of docs/FIELDS.md by hand, and laws over random items.

Run them here: python3 -m unittest test_fields
"""

import re
import shlex
import sys
import unittest
from io import BytesIO
from pathlib import Path

import compare_fields
from balisefields import answer
from compare import program_words
from compare_fields import Lines
from fields import LINES_OF_A_PLAN, explain_item
from fields_by_hand import END, GRADIENT, HEADER, INFILL, LEVELS, LINKS, OLD_HEADER, OTHER
from fields_by_hand import RESTRICTION, REVOCATION, SPEEDS, HEADER_LINES
from fields_by_hand import answered, explained, joined, packet, spelled, telegram
from packets import WIDTHS, read_packet_in_bytes
from random_fields import make_digits, make_fields
from refusals import Refusal, Refused
from telegrams import read_telegram
from texts import bits_of_digits, digits_of_bits, telegram_bits

HERE = Path(__file__).resolve().parent
PAGE = HERE.parent / "docs" / "FIELDS.md"
REFERENCE = shlex.join([sys.executable, str(HERE / "balisefields.py")])


class Page(unittest.TestCase):
    """The examples of docs/FIELDS.md, and that its tables are those of the reference."""

    def test_examples(self) -> None:
        text = PAGE.read_text()
        for kind, by in (("fields", explained), ("spell", spelled)):
            blocks = re.findall(rf"^```{kind}\n(.*?)^```$", text, re.MULTILINE | re.DOTALL)
            self.assertTrue(blocks)
            for line in "".join(blocks).splitlines():
                with self.subTest(line):
                    given, due = line.split(" => ")
                    self.assertEqual(by(given), due)

    def test_names_of_refusals(self) -> None:
        text = PAGE.read_text()
        faults = {Refusal[name].value: name for name in set(FAULTS)}
        table = text.partition("| PACKET | BIT | DUE |")[2].partition("\n\n")[0]
        rows = re.findall(r"\b(\d) ([A-Z]\w+)[,| ]", table)
        self.assertEqual({int(number): name for number, name in rows}, faults)


class DigitsToFields(unittest.TestCase):
    def test_telegram(self) -> None:
        due = (
            f"telegram 210 | {HEADER_LINES} | packet | 50 8 NID_PACKET 0 66 | 58 2 Q_DIR 0 1"
            " | 60 13 L_PACKET 0 31 | 73 8 NID_TSR 0 5 | packet | 81 8 NID_PACKET 0 44"
            " | 89 2 Q_DIR 0 2 | 91 13 L_PACKET 0 28 | rest 5 b0 | end"
            # 210 - 50 - 31 - 28 - 8 bits of ones, in 24 digits with three zeros at the end
            f" | padding 93 {'f' * 23}8"
        )
        self.assertEqual(explained(telegram(HEADER, REVOCATION, OTHER, END)), due)

    def test_long_telegram_in_a_plan(self) -> None:
        given = f"plan 1 | group | {telegram(HEADER, END, length=830)}"
        due = f"plan 1 | group | telegram 830 | {HEADER_LINES} | end | padding 772 {'f' * 193}"
        self.assertEqual(explained(given), due)
        self.assertEqual(spelled(due), given)

    def test_no_padding_and_no_rest(self) -> None:
        # 50 + 23 + 129 + 8 are 210; and a packet of 23 bits has no rest.
        full = "00101100 00 0000010011000" + "0" * 129
        shown = explained(telegram(HEADER, full, END))
        self.assertTrue(shown.endswith(f" | rest 129 {'0' * 33} | end"), shown)
        shown = explained(packet("00101100 00 0000000010111"))
        self.assertTrue(shown.endswith("| 10 13 L_PACKET 0 23"), shown)

    def test_packets_with_parts(self) -> None:
        due = (
            "packet 33 | 0 8 NID_PACKET 0 27 | 8 2 Q_DIR 0 1 | 10 13 L_PACKET 0 84 | 23 2 Q_SCALE 0 1"
            " | 25 15 D_STATIC 0 3 | 40 7 V_STATIC 0 4 | 47 1 Q_FRONT 0 1 | 48 5 N_ITER 0 2"
            " | 53 2 Q_DIFF 0 0 | 55 4 NC_CDDIFF 0 15 | 59 7 V_DIFF 0 1"
            " | 66 2 Q_DIFF 1 2 | 68 4 NC_DIFF 0 1 | 72 7 V_DIFF 1 2 | 79 5 N_ITER 1 0"
        )
        self.assertEqual(explained(packet(SPEEDS)), due)
        due = (
            "packet 32 | 0 8 NID_PACKET 0 41 | 8 2 Q_DIR 0 1 | 10 13 L_PACKET 0 89 | 23 2 Q_SCALE 0 0"
            " | 25 15 D_LEVELTR 0 7 | 40 3 M_LEVELTR 0 1 | 43 8 NID_NTC 0 3"
            " | 51 15 L_ACKLEVELTR 0 1 | 66 5 N_ITER 0 1 | 71 3 M_LEVELTR 1 2"
            " | 74 15 L_ACKLEVELTR 1 2"
        )
        self.assertEqual(explained(packet(LEVELS, version=32)), due)

    def test_other_packets(self) -> None:
        for bits, due in (
            (
                LINKS,
                "packet 33 | 0 8 NID_PACKET 0 5 | 8 2 Q_DIR 0 0 | 10 13 L_PACKET 0 118"
                " | 23 2 Q_SCALE 0 2 | 25 15 D_LINK 0 1 | 40 1 Q_NEWCOUNTRY 0 1 | 41 10 NID_C 0 6"
                " | 51 14 NID_BG 0 2 | 65 1 Q_LINKORIENTATION 0 1 | 66 2 Q_LINKREACTION 0 2"
                " | 68 6 Q_LOCACC 0 3 | 74 5 N_ITER 0 1 | 79 15 D_LINK 1 32767"
                " | 94 1 Q_NEWCOUNTRY 1 0 | 95 14 NID_BG 1 16383 | 109 1 Q_LINKORIENTATION 1 0"
                " | 110 2 Q_LINKREACTION 1 1 | 112 6 Q_LOCACC 1 63",
            ),
            (
                GRADIENT,
                "packet 33 | 0 8 NID_PACKET 0 21 | 8 2 Q_DIR 0 1 | 10 13 L_PACKET 0 54"
                " | 23 2 Q_SCALE 0 0 | 25 15 D_GRADIENT 0 2 | 40 1 Q_GDIR 0 1 | 41 8 G_A 0 255"
                " | 49 5 N_ITER 0 0",
            ),
            (
                RESTRICTION,
                "packet 33 | 0 8 NID_PACKET 0 65 | 8 2 Q_DIR 0 2 | 10 13 L_PACKET 0 71"
                " | 23 2 Q_SCALE 0 1 | 25 8 NID_TSR 0 9 | 33 15 D_TSR 0 1 | 48 15 L_TSR 0 2"
                " | 63 1 Q_FRONT 0 1 | 64 7 V_TSR 0 6",
            ),
            (
                INFILL,
                "packet 33 | 0 8 NID_PACKET 0 136 | 8 2 Q_DIR 0 1 | 10 13 L_PACKET 0 48"
                " | 23 1 Q_NEWCOUNTRY 0 1 | 24 10 NID_C 0 1023 | 34 14 NID_BG 0 1",
            ),
        ):
            self.assertEqual(explained(packet(bits)), due)
            self.assertEqual(spelled(due), packet(bits))

    def test_versions(self) -> None:
        for version in range(32, 48):
            self.assertIn(" M_LEVELTR 0 1 ", explained(packet(LEVELS, version=version)))
        # Each number is taken: 160 has X 2 in seven bits alone.
        for version in (0, 16, 31, 48, 127, 128, 160, 4294967295):
            shown = explained(packet(SPEEDS, version=version))
            self.assertIn(" | 10 13 L_PACKET 0 84 | rest 61 ", shown)
        self.assertIn(" | rest 61 ", explained(telegram(OLD_HEADER, SPEEDS, END)))
        self.assertIn(" Q_DIFF 1 2 ", explained(telegram(HEADER, SPEEDS, END)))

    def test_lines_that_are_no_item(self) -> None:
        for line, due in (
            ("", "fault 3 BadLength - 0 length"),
            ("edits", "fault 2 BadHex - 8 digit"),
            ("plan 2", "fault 2 BadHex - 0 digit"),
            ("packet 33", "fault 2 BadHex - 0 digit"),
            ("packet 033 42403e00", "fault 2 BadHex - 0 digit"),
            ("packet 4294967296 42403e00", "fault 2 BadHex - 0 digit"),
            ("packet  33 42403e00", "fault 2 BadHex - 0 digit"),
            ("packet 33 ", "fault 2 BadHex - 0 digit"),
            ("packet 33 42403e00 ", "fault 2 BadHex - 0 digit"),
            ("packet 33 4240\r", "fault 2 BadHex - 16 digit"),
        ):
            self.assertEqual(explained(line), due, line)


def without(bits: str, name: str, value: str) -> str:
    """A header in which a variable has another value."""
    places = {"Q_UPDOWN": 0, "Q_MEDIA": 2}
    words = bits.split(" ")
    words[places[name]] = value
    return " ".join(words)


SOUND = telegram(HEADER, REVOCATION, END)
AFTER_HEADER = f"telegram 210 | {HEADER_LINES}"
FIRST_PACKET = "packet | 50 8 NID_PACKET 0 66 | 58 2 Q_DIR 0 1 | 60 13 L_PACKET 0"
# Packets that leave 3, 9 or 20 bits of the 210
LEAVES_3 = joined("00101100 00", format(210 - 50 - 3, "013b")).ljust(157, "0")
LEAVES_9 = joined("00101100 00", format(210 - 50 - 9, "013b")).ljust(151, "0")
LEAVES_20 = joined("00101100 00", format(210 - 50 - 20, "013b")).ljust(140, "0")
FAULTS: dict[str, list[tuple[str, str]]] = {
    "BadHex": [
        (SOUND[:10] + "g" + SOUND[11:], "fault 2 BadHex - 40 digit"),
        (SOUND[:-1], "fault 2 BadHex - 212 digit"),
        (SOUND[:5] + "\xe9" + SOUND[6:-2], "fault 2 BadHex - 20 digit"),
    ],
    "BadLength": [
        (SOUND[:-2], "fault 3 BadLength - 208 length"),
        (SOUND + "00", "fault 3 BadLength - 224 length"),
        (packet(REVOCATION) + "00", "fault 3 BadLength - 40 length"),
    ],
    "SpareBits": [
        (SOUND[:-2] + "c4", "fault 4 SpareBits - 213 zero"),
        (telegram(HEADER, END, length=830)[:-1] + "d", "fault 4 SpareBits - 831 zero"),
        # The digits come before the layout.
        ("packet 33 42403c02", "fault 4 SpareBits - 30 zero"),
    ],
    "NotABalise": [
        (
            telegram(without(without(HEADER, "Q_UPDOWN", "0"), "Q_MEDIA", "1"), END),
            "telegram 210 | fault 5 NotABalise - 0 Q_UPDOWN",
        ),
        (
            telegram(without(HEADER, "Q_MEDIA", "1"), END),
            "telegram 210 | 0 1 Q_UPDOWN 0 1 | 1 7 M_VERSION 0 33 | fault 5 NotABalise - 8 Q_MEDIA",
        ),
    ],
    "NoEnd": [
        (
            telegram(HEADER, LEAVES_3, "111"),
            f"{AFTER_HEADER} | packet | 50 8 NID_PACKET 0 44 | 58 2 Q_DIR 0 0"
            f" | 60 13 L_PACKET 0 157 | rest 134 {'0' * 34} | fault 6 NoEnd 1 207 NID_PACKET",
        ),
    ],
    "PacketCut": [
        (
            telegram(HEADER, LEAVES_9, "000000010"),
            f"{AFTER_HEADER} | packet | 50 8 NID_PACKET 0 44 | 58 2 Q_DIR 0 0"
            f" | 60 13 L_PACKET 0 151 | rest 128 {'0' * 32} | packet | 201 8 NID_PACKET 0 1"
            " | fault 7 PacketCut 1 209 Q_DIR",
        ),
        (
            telegram(HEADER, LEAVES_20, "00000001 10", "0" * 10),
            f"{AFTER_HEADER} | packet | 50 8 NID_PACKET 0 44 | 58 2 Q_DIR 0 0"
            f" | 60 13 L_PACKET 0 140 | rest 117 {'0' * 30} | packet | 190 8 NID_PACKET 0 1"
            " | 198 2 Q_DIR 0 2 | fault 7 PacketCut 1 200 L_PACKET",
        ),
        (
            telegram(HEADER, "01000010 01 0000000010110", END),
            f"{AFTER_HEADER} | {FIRST_PACKET} 22 | fault 7 PacketCut 0 73 another",
        ),
        (
            # 50 + 161 are 211.
            telegram(HEADER, "01000010 01 0000010100001", END),
            f"{AFTER_HEADER} | {FIRST_PACKET} 161 | fault 7 PacketCut 0 73 another",
        ),
        (
            packet("01000010"),
            "packet 33 | 0 8 NID_PACKET 0 66 | fault 7 PacketCut 0 8 Q_DIR",
        ),
    ],
    "LayoutMismatch": [
        (
            # L_PACKET 30 leaves 7 bits for NID_TSR.
            telegram(HEADER, "01000010 01 0000000011110 00000101", END),
            f"{AFTER_HEADER} | {FIRST_PACKET} 30 | fault 8 LayoutMismatch 0 73 NID_TSR",
        ),
        (
            telegram(HEADER, "01000010 01 0000000100000 00000101 0", END),
            f"{AFTER_HEADER} | {FIRST_PACKET} 32 | 73 8 NID_TSR 0 5"
            " | fault 8 LayoutMismatch 0 81 end",
        ),
        (
            packet(SPEEDS.replace(" 10 0001 ", " 11 0001 ")),
            "packet 33 | 0 8 NID_PACKET 0 27 | 8 2 Q_DIR 0 1 | 10 13 L_PACKET 0 84"
            " | 23 2 Q_SCALE 0 1 | 25 15 D_STATIC 0 3 | 40 7 V_STATIC 0 4 | 47 1 Q_FRONT 0 1"
            " | 48 5 N_ITER 0 2 | 53 2 Q_DIFF 0 0 | 55 4 NC_CDDIFF 0 15 | 59 7 V_DIFF 0 1"
            " | 66 2 Q_DIFF 1 3 | fault 8 LayoutMismatch 0 68 another",
        ),
        (
            packet(END),
            "packet 33 | 0 8 NID_PACKET 0 255 | fault 8 LayoutMismatch 0 8 another",
        ),
    ],
    "PacketZero": [
        (
            telegram(HEADER, REVOCATION, "00000000", END),
            f"{AFTER_HEADER} | {FIRST_PACKET} 31 | 73 8 NID_TSR 0 5 | packet"
            " | 81 8 NID_PACKET 0 0 | fault 9 PacketZero 1 89 another",
        ),
        (packet("00000000"), "packet 33 | 0 8 NID_PACKET 0 0 | fault 9 PacketZero 0 8 another"),
    ],
}
"""For each refusal digits and what is due, by the bits of docs/FORMATS.md."""


class Faults(unittest.TestCase):
    def test_each_refusal(self) -> None:
        for name, rows in FAULTS.items():
            for digits, due in rows:
                with self.subTest(due.rpartition(" | ")[2]):
                    self.assertIn(f" {name} ", due)
                    self.assertEqual(explained(digits), due)
                    self.assertEqual(answered(digits).status, 1)

    def test_next_line_goes_on(self) -> None:
        shown = explained(f"{SOUND[:-1]} | {packet(REVOCATION)} | x | group")
        self.assertEqual(shown.count("fault"), 2)
        self.assertTrue(shown.endswith(" | 23 8 NID_TSR 0 5 | fault 2 BadHex - 0 digit | group"))


class Runs(unittest.TestCase):
    def test_arguments(self) -> None:
        for arguments, status in (
            ("", 0),
            ("--spell", 0),
            ("--spell --", 0),
            ("--help", 0),
            ("--spell --spell", 64),
            ("--quiet", 64),
            ("file", 64),
        ):
            self.assertEqual(answer(arguments.split(), BytesIO(b"").read).status, status, arguments)

    def test_line_that_is_too_long(self) -> None:
        given = answered(f"{packet(REVOCATION)} | {'a' * 4096} | {'a' * 4097}")
        self.assertEqual((given.status, given.error), (3, "fault 29 InputTooLong\n"))
        self.assertTrue(given.output.endswith(b" NID_TSR 0 5\nfault 3 BadLength - 16384 length\n"))
        good = "packet 33 | NID_PACKET 66 | Q_DIR 1 | NID_TSR 0"
        given = answered(f"{good} | {good} | {'a' * 4097}", "--spell")
        self.assertEqual((given.status, given.output), (3, b"packet 33 42403e00\n"))


ITEM = "(packet (0|[1-9][0-9]{0,8}) )?[^ ]*"
"""A telegram, or a packet by itself, whatever its digits are."""


def refusal_of(line: str) -> Refusal | None:
    """Why the editor's reference refuses the digits of a line."""
    try:
        if line.startswith("packet "):
            _, version, digits = line.split(" ")
            read_packet_in_bytes(bits_of_digits(digits), int(version), "b0")
        else:
            read_telegram(telegram_bits(line), 0)
    except Refused as refused:
        return refused.refusal
    return None


class Laws(unittest.TestCase):
    """What has to hold of each item, tried on random ones."""

    def test_spelled_back(self) -> None:
        for seed in range(2000):
            lines = [line.lower() for line in make_digits(seed).lines]
            given = answered(" | ".join(lines))
            back = answer(["--spell"], BytesIO(given.output).read)
            self.assertEqual((given.status, back.status), (0, 0), seed)
            self.assertEqual(back.output.decode().splitlines(), lines, seed)

    def test_refused_as_by_the_editor(self) -> None:
        seen = set()
        for seed in range(1500):
            for line in make_digits(seed, damaged=True).lines:
                if line not in LINES_OF_A_PLAN and re.fullmatch(ITEM, line):
                    refusal = explain_item(line)[1]
                    self.assertEqual(refusal, refusal_of(line), line)
                    seen.add(refusal.name if refusal else "")
        self.assertEqual(seen, {"", *FAULTS})

    def test_fields_are_the_bits(self) -> None:
        for seed in range(300):
            for line in make_digits(seed).lines:
                if line in LINES_OF_A_PLAN:
                    continue
                bits = ""
                for shown in explain_item(line)[0]:
                    words = shown.split(" ")
                    if words[0] in ("rest", "padding"):
                        digits = "".join(format(int(digit, 16), "04b") for digit in words[2])
                        bits += digits[: int(words[1])]
                    elif len(words) == 5:
                        self.assertEqual((int(words[0]), int(words[1])), (len(bits), WIDTHS[words[2]]))
                        bits += format(int(words[4]), f"0{words[1]}b")
                    bits += END if shown == "end" else ""
                self.assertEqual(digits_of_bits(bits), line.split(" ")[-1].lower())


class Comparing(unittest.TestCase):
    def test_seed_says_all(self) -> None:
        for make in (make_digits, make_fields):
            for damaged in (False, True):
                self.assertEqual(make(5, damaged), make(5, damaged))
                self.assertNotEqual(make(5, damaged), make(6, damaged))

    def test_all_packets_come_up(self) -> None:
        shown = " ".join(explained(" | ".join(make_digits(seed).lines)) for seed in range(200))
        for number in (5, 21, 27, 41, 65, 66, 136):
            self.assertIn(f" NID_PACKET 0 {number} |", shown)
        self.assertIn(" N_ITER 0 31 |", shown)

    def test_single_items_that_differ(self) -> None:
        other = (packet(OTHER),)
        revocation = (packet(REVOCATION),)
        cases: list[tuple[str, list[Lines], list[Lines]]] = [
            ("s/NID_TSR 0 5/NID_TSR 0 6/", [other, revocation, other, other], [revocation]),
            ("s/NID_TSR 0 5/NID_TSR 0 6/", [other, other], []),
            # Each packet has five lines, so only the whole differs.
            ("16,$d", [other, other, revocation, other], [(*other, *other, *revocation, *other)]),
        ]
        for change, items, due in cases:
            words = ("/bin/sh", "-c", f"{REFERENCE} | sed '{change}'")
            whole = compare_fields.runs_of(words, items, ())
            found = list(compare_fields.narrowed(words, items, whole)) if whole.differ() else []
            shown = [tuple(runs.given.text.decode().splitlines()) for runs in found]
            self.assertEqual(shown, due, change)

    def test_explained_only(self) -> None:
        # A program without the way back: the shell takes --spell for itself.
        words = ("/bin/sh", "-c", REFERENCE)
        for explain_only, differing in ((True, 0), (False, 1)):
            task = compare_fields.Task(words, range(1, 11), False, explain_only, show=1)
            self.assertEqual(len(compare_fields.compare(task).differing), differing)

    def test_no_such_program(self) -> None:
        self.assertIsNone(program_words(f"{sys.executable} no_such_program.py"))


if __name__ == "__main__":
    unittest.main()
