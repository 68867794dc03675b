"""Texts as the library takes them: bytes, of which each is one character."""

from __future__ import annotations

from typing import Iterable, Union

BYTES = "latin-1"  # each byte is one character, so that the library sees a text as it is
Text = Union[str, bytes]
Lines = Union[Text, Iterable[Text]]
"""A text, or its lines as a list."""


def as_bytes(text: Text) -> bytes:
    return text if isinstance(text, bytes) else text.encode(BYTES)


def whole_lines(text: Text) -> bytes:
    """The text, whose last line gets its end where it has none."""
    data = as_bytes(text)
    return data + b"\n" if data and not data.endswith(b"\n") else data


def joined(lines: Lines) -> bytes:
    if isinstance(lines, (str, bytes)):
        return whole_lines(lines)
    return b"".join(one_line(each) for each in lines)


def session_of(plan: Text, journal: Text | None, commands: Lines) -> bytes:
    """What the program reads. Raises ValueError where plan or journal end early, by a line `edits` of their own."""
    before = whole_lines(plan) + whole_lines(journal or b"")
    if b"edits" in before.split(b"\n"):
        raise ValueError("the plan and the journal have no line `edits`; commands are given apart")
    return before + b"edits\n" + joined(commands)


def one_line(text: Text) -> bytes:
    line = as_bytes(text)
    if b"\n" in line:
        raise ValueError("an element of a list is one line")
    return line + b"\n"
