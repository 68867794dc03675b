"""Runs of balisefields: digits to fields, and fields to digits. This is the only module that starts it.

docs/FIELDS.md has the formats. What it prints is taken line by line here, and judged in other modules.
"""

from __future__ import annotations

from collections.abc import Sequence
from dataclasses import dataclass

from plandesk.errors import Fault
from plandesk.process import run_program
from plandesk.programs import find_program, hint_of

NAME = "balisefields"
WHAT = "the program that turns digits into fields and fields into digits"
HINT = hint_of(NAME)
LINES_OF_A_PLAN = ("plan 1", "group")
"""Lines that are printed as they are."""
WHOLE_FAULTS = ("2", "3", "4")
"""Faults of the digits as a whole, whose line is the item."""


@dataclass(frozen=True)
class FieldProgram:
    """A program with the interface of balisefields."""

    words: tuple[str, ...]

    @property
    def name(self) -> str:
        return " ".join(self.words)

    def explain(self, lines: Sequence[str], seconds: float | None = None) -> list[list[str]]:
        """What it prints of each line of digits: HEX of a telegram, or `packet VERSION HEX`."""
        items = split_items(self._run([], lines, seconds))
        if len(items) != len(lines) or not all(items):
            raise self._other()
        return items

    def spell(self, lines: Sequence[str]) -> list[str]:
        """What it prints of items of fields, a line for each: digits, or why there are none."""
        return self._run(["--spell"], lines, None)

    def _run(self, flags: list[str], lines: Sequence[str], seconds: float | None) -> list[str]:
        text = "".join(f"{line}\n" for line in lines)
        status, output, error = run_program(self.words, flags, text, seconds, HINT)
        if status not in (0, 1):
            raise Fault(f"{self.words[-1]} ended with status {status}: {error.strip() or 'no message'}")
        printed = output.splitlines()
        if any(line.split(" ")[0] in ("fault", "bad") for line in printed) != (status == 1):
            raise self._other()
        return printed

    def _other(self) -> Fault:
        return Fault(f"{self.name} isn't balisefields: its output isn't as docs/FIELDS.md has it", HINT)


def begins_item(line: str) -> bool:
    """Whether a line begins an item: a telegram, a packet by itself, or a fault of the digits as a whole."""
    words = line.split(" ")
    return (
        words[0] == "telegram"
        or words[0] == "packet" and len(words) > 1
        or words[0] == "fault" and words[1:2] != [] and words[1] in WHOLE_FAULTS
    )


def split_items(lines: Sequence[str]) -> list[list[str]]:
    """Lines by their items. Lines before the first one are an item of their own."""
    items: list[list[str]] = []
    for line in lines:
        if begins_item(line) or not items:
            items.append([])
        items[-1].append(line)
    return items


def find_fields() -> FieldProgram:
    """What BALISEFIELDS names, else balisefields beside the engine, on the path, or as it was built in the repository."""
    return FieldProgram(find_program(NAME, WHAT))
