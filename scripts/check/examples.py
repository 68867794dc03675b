#!/usr/bin/env python3
"""Runs the stored examples with a program, and compares what it prints.

usage: examples.py PROGRAM [KIND ..]

PROGRAM may have words of its own: examples.py "python3 reference/baliseplan.py" rows. Without KIND it runs all:

    examples   examples/NAME.plan with the flags of NAME.flags has to print NAME.out, and end with the status of NAME.status
    rows       the worked rows, checks/rows/NAME.in, in the same way
    formats    the examples of docs/FORMATS.md, whose last section says which blocks are some
    guide      the blocks of docs/GUIDE.md in one shell, as a reader pastes them, and the picture that they make
    manual     the commands of man/baliseplan.1 and of man/balisefacts.1, in a shell for each
    strike     docs/strike.svg

Where no status is stored it is 0. Standard error has a line for a fault and a text for arguments, and nothing else.
Status 0: all agree. 1: some differ, each difference is printed. 2: the program, a page or a tool is missing.
"""

import difflib
import re
import shlex
import sys
import tempfile
from collections.abc import Callable, Iterator
from dataclasses import dataclass
from pathlib import Path

from example_pages import Shell, formats, guide, manual
from example_shell import as_program, ran_in_shell, words_of
from runs import Missing, Printed, ended, need, program_words, run

TOP = Path(__file__).resolve().parents[2]
MOST_LINES = 40


@dataclass(frozen=True)
class Stored:
    """One run of the program, and what it has to print: all of it, or what `shown` takes of it."""

    name: str
    flags: tuple[str, ...]
    text: bytes
    status: int
    due: str
    shown: Callable[[Printed], str] = lambda done: done.output.decode("latin-1")
    program: tuple[str, ...] = ()
    """What starts the program, where it is another one."""


Found = tuple[str, list[str]]
"""The name of an example, and how the program differs from it: no line where it agrees."""


def compared(due: str, got: str) -> list[str]:
    """How two texts differ, in lines."""
    lines = difflib.unified_diff(due.splitlines(), got.splitlines(), "stored", "the program", lineterm="", n=1)
    found = list(lines)[:MOST_LINES]
    return found if found or due == got else ["the line ends differ"]


def judged(words: list[str], example: Stored) -> Found:
    done = run([*(example.program or words), *example.flags], example.text)
    found = compared(example.due, example.shown(done))
    if done.status != example.status:
        found.append(f"status {done.status}, and {example.status} is stored: {done.error.decode('latin-1')}")
    elif not done.has_right_error():
        found.append(f"standard error with status {done.status}: {done.error.decode('latin-1')}")
    return example.name, found


def files_of(folder: Path, pattern: str) -> Iterator[Stored]:
    """The inputs of a folder, each with the files beside it."""
    for path in sorted(folder.glob(pattern)):
        beside = {kind: path.with_suffix(f".{kind}") for kind in ("flags", "out", "status")}
        flags = beside["flags"].read_text().split() if beside["flags"].exists() else ()
        status = int(beside["status"].read_text()) if beside["status"].exists() else 0
        yield Stored(path.stem, tuple(flags), path.read_bytes(), status, beside["out"].read_text("latin-1"))


def of_formats() -> Iterator[Stored]:
    for one in formats((TOP / "docs" / "FORMATS.md").read_text()):
        text = "".join(line + "\n" for line in one.lines).encode("latin-1")
        due = "".join(line + "\n" for line in one.due)
        program = tuple(words_of("balisefacts")) if one.of_facts else ()
        yield Stored(one.name, tuple(one.flags), text, one.status, due, whole if one.is_whole else head, program)


def whole(done: Printed) -> str:
    return done.output.decode("latin-1")


def head(done: Printed) -> str:
    """What comes before the plan; where there is no plan, standard error comes after it."""
    before, plan, _ = done.output.decode("latin-1").partition("plan 1\n")
    return before if plan else before + done.error.decode("latin-1")


def in_shell(words: list[str], shell: Shell, *files: str) -> Iterator[Found]:
    """The blocks of a page, and the files that they have to make, which are compared by their texts."""
    need(*shell.tools)
    with tempfile.TemporaryDirectory() as temporary:
        printed = ran_in_shell(words, shell, Path(temporary))
        for (name, _, due), got in zip(shell.blocks, printed, strict=True):
            yield name, compared(due, got)
        for file in files:
            made = Path(temporary, "run", Path(file).name)
            got = made.read_text() if made.exists() else ""
            yield file, compared(texts((TOP / file).read_text()), texts(got))


def texts(picture: str) -> str:
    """The texts of a picture: another `dot` may place them in another way."""
    return "\n".join(sorted(re.findall(r"<text .*?>(.*)</text>", picture)))


def strike(words: list[str]) -> Iterator[Found]:
    script = TOP / "scripts" / "pictures" / "strike.py"
    with tempfile.TemporaryDirectory() as folder:
        program = as_program(words, Path(folder))
        done = run([sys.executable, str(script), str(program)], b"")
    due = (TOP / "docs" / "strike.svg").read_text()
    yield "docs/strike.svg", compared(due, done.output.decode()) + done.error.decode().splitlines()


def of_kind(kind: str, words: list[str]) -> Iterator[Found]:
    """The examples of a kind, each with how the program differs from it."""
    if kind == "strike":
        yield from strike(words)
    elif kind == "guide":
        yield from in_shell(words, guide((TOP / "docs" / "GUIDE.md").read_text()), "docs/line.svg")
    elif kind == "manual":
        for page in ("baliseplan.1", "balisefacts.1"):
            yield from in_shell(words, manual((TOP / "man" / page).read_text()))
    else:
        stored = {
            "examples": lambda: files_of(TOP / "examples", "*.plan"),
            "rows": lambda: files_of(TOP / "checks" / "rows", "*.in"),
            "formats": of_formats,
        }
        for example in stored[kind]():
            yield judged(words, example)


KINDS = ("examples", "rows", "formats", "guide", "manual", "strike")


def main() -> int:
    kinds = sys.argv[2:] or KINDS
    if len(sys.argv) < 2 or not set(kinds) <= set(KINDS):
        raise Missing(f"usage: examples.py PROGRAM [{'|'.join(KINDS)} ..]")
    words, counts, differ = program_words(sys.argv[1]), [], 0
    for kind in kinds:
        count = 0
        for name, lines in of_kind(kind, words):
            count += 1
            if lines:
                differ += 1
                print(f"{kind}, {name}:", *lines, sep="\n    ", flush=True)
        if not count:
            raise Missing(f"there are no examples of the kind {kind}")
        counts.append(f"{count} {kind}")
    print(f"stored examples: {', '.join(counts)}; {differ} differ ({shlex.join(words)})")
    return 1 if differ else 0


if __name__ == "__main__":
    sys.exit(ended(main))
