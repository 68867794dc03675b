"""Commands as a person gives them: as words of a command line, or as lines of a file."""

from __future__ import annotations

import re
from collections.abc import Sequence
from dataclasses import dataclass

FORMS = {
    "set": "set C.N PIG PKT VAR K VALUE",
    "seth": "seth C.N PIG VAR VALUE",
    "insert": "insert C.N PIG AT HEX",
    "delete": "delete C.N PIG PKT",
    "move": "move C.N PIG PKT AT",
    "add": "add AT HEX ..",
    "drop": "drop C.N",
    "renumber": "renumber C.N M",
    "turn": "turn C.N",
    "undo": "undo",
    "redo": "redo",
    "strike": "strike S",
}
"""The engine's commands."""
KINDS = frozenset({*FORMS, "put", "replace"})
BYTE_ORDER_MARK = "\xef\xbb\xbf"


def split_words(words: Sequence[str]) -> list[str]:
    """Commands from the words of a command line: `"turn 5.300" undo`, or `turn 5.300 undo` without quotes."""
    if any(" " in word for word in words):
        return [" ".join(word.split()) for word in words]
    commands: list[list[str]] = []
    for word in words:
        if word in KINDS or not commands:
            commands.append([])
        commands[-1].append(word)
    return [" ".join(each) for each in commands]


@dataclass(frozen=True)
class Line:
    """A line of a file of commands, by its number from 1."""

    number: int
    text: str


def split_lines(text: str) -> list[Line]:
    """Commands from a file: without empty lines and comments (#), blanks at the ends and a byte-order mark."""
    lines = (line.split("#", 1)[0].strip() for line in text.removeprefix(BYTE_ORDER_MARK).split("\n"))
    return [Line(at, re.sub(r"[ \t]+", " ", line)) for at, line in enumerate(lines, 1) if line]
