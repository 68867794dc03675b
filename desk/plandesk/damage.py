"""What happened to a file on its way: a byte-order mark, line ends of another system, blanks, a cut."""

from __future__ import annotations

from collections.abc import Iterator
from dataclasses import dataclass

MARK = b"\xef\xbb\xbf"


@dataclass(frozen=True)
class Damage:
    """What was found. No digit is changed by `clean`, which takes the cleanable ones away."""

    kind: str
    text: str
    cleanable: bool


def damage_of(data: bytes) -> list[Damage]:
    if not data:
        return [Damage("empty", "The file is empty.", False)]
    if data[0] in (0xFF, 0xFE) or data[1:2] == b"\0":
        return [Damage("utf16", "It is UTF-16 text, two bytes a letter. It has to be plain text.", False)]
    return list(_damages(data))


def _damages(data: bytes) -> Iterator[Damage]:
    if data.startswith(MARK):
        yield Damage("mark", "A byte-order mark (EF BB BF) stands before the first line.", True)
    if b"\0" in data:
        yield Damage("nul", "It has bytes that are no text (NUL).", False)
    returns = _lines_ending_in(data, b"\r")
    if returns:
        yield Damage("returns", f"Lines end in a carriage return (CRLF), as on Windows: {_lines(returns)}.", True)
    blanks = _lines_ending_in(data, b" \t")
    if blanks:
        yield Damage("blanks", f"Blanks stand at the end of {_lines(blanks)}.", True)
    if not data.endswith(b"\n"):
        yield Damage("cut", "The last line has no line feed: the file may be cut off.", False)


def _lines_ending_in(data: bytes, ends: bytes) -> list[int]:
    if not any(bytes([end]) + b"\n" in data or data.endswith(bytes([end])) for end in ends):
        return []
    return [at for at, line in enumerate(data.split(b"\n"), 1) if line[-1:] and line[-1:] in ends]


def _lines(numbers: list[int]) -> str:
    one = f"line {numbers[0]}"
    return one if len(numbers) == 1 else f"{len(numbers)} lines, the first is {one}"


def clean(data: bytes) -> bytes:
    """Without byte-order mark, and without blanks and carriage returns at the ends of lines."""
    return b"\n".join(line.rstrip(b" \t\r") for line in data.removeprefix(MARK).split(b"\n"))
