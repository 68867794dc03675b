"""What all programs are outside: arguments, standard input and output, and the exit status."""

import os
import sys
from collections.abc import Callable
from dataclasses import dataclass
from typing import TypeVar

from refusals import Fault, Refusal

BAD_ARGUMENTS = 64
FAULTED = 3
BROKEN = 70

Run = Callable[[set[str], list[str]], int]
"""A run with flags: it adds the lines that it prints to a list, and returns its status."""
Asked = TypeVar("Asked")


@dataclass(frozen=True)
class Answer:
    """What goes to standard output and standard error, and the exit status."""

    output: bytes
    status: int
    error: str = ""


class Usage(Exception):
    """The arguments aren't the program's."""


def flags_of(arguments: list[str], known: tuple[str, ...]) -> set[str] | None:
    """The flags from left to right, each at most once; none where help is asked for."""
    given: set[str] = set()
    for place, word in enumerate(arguments):
        if word in ("--help", "-h"):
            return None
        if word == "--" and place == len(arguments) - 1:
            break
        if word not in known or word in given:
            raise Usage(word)
        given.add(word)
    return given


def answered(arguments: list[str], known: tuple[str, ...], usage: str, run: Run) -> Answer:
    """What a run with these arguments prints, and its status."""
    return answered_as(lambda: flags_of(arguments, known), usage, run)


def answered_as(
    asked_of: Callable[[], Asked | None], usage: str, run: Callable[[Asked, list[str]], int]
) -> Answer:
    """The same where the arguments say what is asked in another way; none where that is help."""
    out: list[str] = []
    status, error = 0, ""
    try:
        asked = asked_of()
        if asked is None:
            out.append(usage)
        else:
            status = run(asked, out)
    except Usage as unknown:
        return Answer(b"", BAD_ARGUMENTS, f"unexpected argument: {unknown}\n{usage}\n")
    except Fault as fault:
        status, error = FAULTED, f"fault {fault}\n"
    return Answer("".join(line + "\n" for line in out).encode("ascii"), status, error)


def read_input(count: int) -> bytes:
    """Bytes of standard input, or 31."""
    try:
        return os.read(0, count)
    except OSError:
        raise Fault(Refusal.ReadFault) from None


def write_output(text: bytes) -> None:
    """Writes all of it, or 32."""
    try:
        while text:
            text = text[os.write(1, text) :]
    except OSError:
        raise Fault(Refusal.WriteFault) from None


def finish(name: str, answer: Callable[[], Answer]) -> int:
    """Prints the answer of a program, and returns its status."""
    try:
        given = answer()
    except Exception as error:  # its own error is no answer, so no status of one may stand for it
        sys.stderr.write(f"{name}: an error of the reference: {error!r}\n")
        return BROKEN
    try:
        write_output(given.output)
    except Fault as fault:
        if given.status != FAULTED:
            given = Answer(b"", FAULTED, f"fault {fault}\n")
    sys.stderr.write(given.error)
    return given.status
