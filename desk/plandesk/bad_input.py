"""What the engine says of a bad plan or journal, in words: the line, the reason, and where its digits are wrong."""

from __future__ import annotations

from collections.abc import Sequence

from plandesk.errors import BadDigits, BadInput
from plandesk.faults import OF_DIGITS, any_fault, telegram_fault
from plandesk.refusals import text_of
from plandesk.view import bits_of, telegrams_of


def bad_input(program: str, output: str, base: str, journal: str, name: str) -> BadInput:
    """The exception for an output `bad LINE NUMBER NAME` of a run over base and journal."""
    words = output.split()
    if len(words) != 4 or not words[1].isdigit() or not words[2].isdigit():
        return BadInput(f"{program} refused its input: {output.strip()}")
    line, number = int(words[1]), int(words[2])
    lines_of_base = base.count("\n")
    text, what, at, in_journal = base + "edits\n", name, line, False
    if journal and line > lines_of_base:
        text, what, at, in_journal = journal + "edits\n", "the journal", line - lines_of_base, True
    shown = text.split("\n")[at - 1] if at <= text.count("\n") else ""
    reason = f"{text_of(number)} ({number} {words[3]})"
    if shown == "edits":
        return BadInput(f"{what} ends too early: {reason}")
    message = f"{what}, line {at}, `{shortened(shown)}`: {reason}"
    looked = ""
    if in_journal:
        looked = entry_fault(base, journal.split("\n")[:at])
    elif number in OF_DIGITS:
        looked = telegram_fault(shown, number)
    return BadDigits(message, looked) if looked else BadInput(message)


def shortened(line: str, most: int = 60) -> str:
    return line if len(line) <= most else f"{line[: most - 3]} .."


def entry_fault(base: str, lines: Sequence[str]) -> str:
    """Where the digits of the last of these lines of a journal are wrong. Empty where they are right, or it has none."""
    words = lines[-1].split(" ")
    if words[1:2] == ["add"] and len(words) > 3:
        return any_fault(words[3:])
    if words[1:2] == ["insert"] and len(words) == 5:
        version = version_at(words[2], base, lines)
        return any_fault([f"packet {version} {words[4]}"]) if version is not None else ""
    return ""


def version_at(place: str, base: str, lines: Sequence[str]) -> int | None:
    """M_VERSION, which no edit changes, of the telegram that a journal names: b1/0 of the base plan, n4/0 of edit 4."""
    tag, _, telegram = place.partition("/")
    try:
        if tag[:1] == "b":
            digits = telegrams_of(base)[int(tag[1:])][int(telegram)]
        else:
            added = next(line.split(" ") for line in lines if line.startswith(f"{tag[1:]} add "))
            digits = added[3:][int(telegram)]
        return int(bits_of(digits[:2], 8)[1:], 2)
    except (ValueError, IndexError, StopIteration):
        return None
