"""Telegrams and packets by hand, each bit as docs/FORMATS.md has it, and answers in one line."""

from io import BytesIO

from balisefields import answer
from filters import Answer
from texts import digits_of_bits

# Q_UPDOWN 1, M_VERSION 33, Q_MEDIA 0, N_PIG 0, N_TOTAL 0, M_DUP 0, M_MCOUNT 255, NID_C 5, NID_BG
# 100, Q_LINK 1
HEADER = "1 0100001 0 000 000 00 11111111 0000000101 00000001100100 1"
OLD_HEADER = HEADER.replace("0100001", "0010000")
HEADER_LINES = """\
0 1 Q_UPDOWN 0 1 | 1 7 M_VERSION 0 33 | 8 1 Q_MEDIA 0 0 | 9 3 N_PIG 0 0 | 12 3 N_TOTAL 0 0
15 2 M_DUP 0 0 | 17 8 M_MCOUNT 0 255 | 25 10 NID_C 0 5 | 35 14 NID_BG 0 100 | 49 1 Q_LINK 0 1""".replace("\n", " | ")
# NID_PACKET 66, Q_DIR 1, L_PACKET 31, NID_TSR 5
REVOCATION = "01000010 01 0000000011111 00000101"
# NID_PACKET 44, Q_DIR 2, L_PACKET 28, and five bits more
OTHER = "00101100 10 0000000011100 10110"
# NID_PACKET 27, Q_DIR 1, L_PACKET 84, Q_SCALE 1, a section with two differences, no other section
SPEEDS = (
    "00011011 01 0000001010100 01 000000000000011 0000100 1 00010"
    " 00 1111 0000001 10 0001 0000010 00000"
)
# NID_PACKET 41, Q_DIR 1, L_PACKET 89, Q_SCALE 0, D_LEVELTR 7, a level with NID_NTC, and one more without
LEVELS = (
    "00101001 01 0000001011001 00 000000000000111 001 00000011 000000000000001 00001"
    " 010 000000000000010"
)
# NID_PACKET 5, Q_DIR 0, L_PACKET 118, Q_SCALE 2, a link in a country of its own, and one more
LINKS = (
    "00000101 00 0000001110110 10 000000000000001 1 0000000110 00000000000010 1 10 000011 00001"
    " 111111111111111 0 11111111111111 0 01 111111"
)
# NID_PACKET 21, Q_DIR 1, L_PACKET 54, Q_SCALE 0, a gradient, and no other one
GRADIENT = "00010101 01 0000000110110 00 000000000000010 1 11111111 00000"
# NID_PACKET 65, Q_DIR 2, L_PACKET 71, Q_SCALE 1, NID_TSR 9, D_TSR 1, L_TSR 2, Q_FRONT 1, V_TSR 6
RESTRICTION = "01000001 10 0000001000111 01 00001001 000000000000001 000000000000010 1 0000110"
# NID_PACKET 136, Q_DIR 1, L_PACKET 48, Q_NEWCOUNTRY 1, NID_C 1023, NID_BG 1
INFILL = "10001000 01 0000000110000 1 1111111111 00000000000001"
END = "11111111"


def joined(*parts: str) -> str:
    return "".join(parts).replace(" ", "")


def telegram(*parts: str, length: int = 210) -> str:
    """The digits of a telegram whose padding is ones."""
    return digits_of_bits(joined(*parts).ljust(length, "1"))


def packet(*parts: str, version: int = 33) -> str:
    return f"packet {version} {digits_of_bits(joined(*parts))}"


def answered(text: str, *arguments: str) -> Answer:
    """The answer to lines, of which ` | ` ends one as in the page."""
    given = text.replace(" | ", "\n") + "\n"
    return answer(list(arguments), BytesIO(given.encode("latin-1")).read)


def explained(text: str) -> str:
    return " | ".join(answered(text).output.decode().splitlines())


def spelled(text: str) -> str:
    return " | ".join(answered(text, "--spell").output.decode().splitlines())
