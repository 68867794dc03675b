#!/usr/bin/env python3
"""Compares a program with the reference on random inputs.

usage: compare.py PROGRAM FROM TO [--size small|medium] [-j PROCESSES] [--keep FOLDER]

Standard output, standard error and the status have to be the same. But where arguments aren't the
program's, standard error has a text that is each program's own.

Status 0: the program printed the same for all seeds. 1: for some it differs, and each
such input is kept, made shorter. 2: there is no such program.
"""

import argparse
import importlib
import multiprocessing
import os
import shlex
import shutil
import subprocess
import sys
import time
from collections.abc import Callable, Iterable, Iterator
from dataclasses import dataclass
from io import BytesIO
from pathlib import Path
from typing import TypeVar

from baliseplan import answer
from filters import BAD_ARGUMENTS, Answer
from random_inputs import Input, make_input
from random_plans import SIZES

SECONDS = float(os.environ.get("CHECK_SECONDS", "120"))
NO_STATUS = -1

Result = TypeVar("Result")
Answering = Callable[[list[str], Callable[[int], bytes]], Answer]
"""The answer of a reference program to arguments and an input."""


@dataclass(frozen=True)
class Printed:
    """Standard output, status and standard error of a run; -1 where it didn't end."""

    output: bytes
    status: int
    error: bytes = b""


def printed(output: bytes, status: int, error: bytes) -> Printed:
    """What is compared of a run: of an error about arguments, that there is one."""
    return Printed(output, status, b"a text\n" if status == BAD_ARGUMENTS and error else error)


def program_words(program: str) -> list[str] | None:
    """The words that start a program, or none if there is no such program."""
    words = shlex.split(program)
    found = shutil.which(words[0]) if words else None
    scripts = [word for word in words[1:2] if word.endswith(".py")]
    if found is None or not all(os.path.isfile(script) for script in scripts):
        return None
    return [found, *words[1:]]


def by_program(words: list[str], given: Input) -> Printed:
    try:
        done = subprocess.run(
            [*words, *given.arguments], input=given.text, capture_output=True, timeout=SECONDS
        )
    except (OSError, subprocess.TimeoutExpired):
        return Printed(b"", NO_STATUS)
    return printed(done.stdout, done.returncode, done.stderr)


def by_reference(given: Input, answering: Answering = answer) -> Printed:
    """The reference's answer; its own error, if it has one, stands as output."""
    try:
        done = answering(list(given.arguments), BytesIO(given.text).read)
    except Exception as error:  # an error here is a finding, not the end of the comparison
        return Printed(repr(error).encode(), NO_STATUS)
    return printed(done.output, done.status, done.error.encode())


def differs(words: list[str], given: Input, answering: Answering = answer) -> bool:
    return by_program(words, given) != by_reference(given, answering)


def shrunk(words: list[str], given: Input, answering: Answering = answer) -> Input:
    """The input with fewer arguments and lines, as long as the answers differ, for a while."""
    until = time.monotonic() + SECONDS
    for argument in given.arguments:
        fewer = tuple(word for word in given.arguments if word != argument)
        if differs(words, Input(fewer, given.text), answering):
            given = Input(fewer, given.text)
    lines = given.text.splitlines(keepends=True)
    size = max(1, len(lines) // 2)
    while size and time.monotonic() < until:
        place, dropped = 0, False
        while place < len(lines) and time.monotonic() < until:
            trial = lines[:place] + lines[place + size :]
            if differs(words, Input(given.arguments, b"".join(trial)), answering):
                lines, dropped = trial, True
            else:
                place += size
        if not (dropped and size == 1):
            size //= 2
    return Input(given.arguments, b"".join(lines))


def given_once(seed: int, size: str) -> list[Input]:
    """The input of a seed, with its own flags."""
    return [make_input(seed, size)]


@dataclass(frozen=True)
class Pair:
    """A program, the reference's answer, and the inputs that both get for a seed and a size."""

    words: tuple[str, ...]
    answering: Answering = answer
    inputs: Callable[[int, str], list[Input]] = given_once


@dataclass(frozen=True)
class Task:
    """One seed to compare."""

    pair: Pair
    seed: int
    size: str


@dataclass(frozen=True)
class Compared:
    """An input of a seed, made shorter, if the answers differ, and whether the program ended."""

    seed: int
    differing: Input | None = None
    ended: bool = True


def compare(task: Task) -> Compared:
    """Compares on the inputs of a seed, up to the first one that differs."""
    pair, words = task.pair, list(task.pair.words)
    for given in pair.inputs(task.seed, task.size):
        got = by_program(words, given)
        if got.status == NO_STATUS:
            return Compared(task.seed, given, ended=False)
        if got != by_reference(given, pair.answering):
            return Compared(task.seed, shrunk(words, given, pair.answering))
    return Compared(task.seed)


def keep(
    folder: Path, name: str, words: list[str], given: Input, answering: Answering = answer
) -> Path:
    """Writes an input and both answers under a name that is free."""
    folder.mkdir(parents=True, exist_ok=True)
    number = 1
    while True:
        path = folder / (f"{name}.in" if number == 1 else f"{name}-{number}.in")
        try:
            with path.open("xb") as file:
                file.write(given.text)
            break
        except FileExistsError:
            number += 1
    path.with_suffix(".flags").write_text("".join(word + "\n" for word in given.arguments))
    reference = by_reference(given, answering)
    answers = {"program": by_program(words, given), "reference": reference}
    for suffix, given_answer in answers.items():
        path.with_suffix(f".{suffix}").write_bytes(given_answer.output)
        path.with_suffix(f".{suffix}_error").write_bytes(given_answer.error)
        path.with_suffix(f".{suffix}_status").write_text(f"{given_answer.status}\n")
    return path


def counted(results: Iterable[Result], total: int) -> Iterator[Result]:
    """The results, with a bar or a count on standard error."""
    try:
        bar = importlib.import_module("tqdm").tqdm
    except ImportError:
        for done, result in enumerate(results, 1):
            if done % 50 == 0 or done == total:
                sys.stderr.write(f"\r{done} of {total}")
            yield result
        sys.stderr.write("\n")
    else:
        yield from bar(results, total=total)


def compare_all(pair: Pair, asked: argparse.Namespace) -> list[Path]:
    """Compares all seeds; the inputs that differ are kept."""
    tasks = [Task(pair, seed, asked.size) for seed in range(asked.first, asked.last + 1)]
    kept = []
    with multiprocessing.Pool(asked.processes) as pool:
        for found in counted(pool.imap_unordered(compare, tasks, chunksize=4), len(tasks)):
            if found.differing is not None:
                name, words = f"{asked.size}_{found.seed}", list(pair.words)
                kept.append(keep(Path(asked.keep), name, words, found.differing, pair.answering))
            if not found.ended:
                print(f"no end after {SECONDS:g} s, so no further input is tried")
                break
    return kept


def compare_with(
    description: str,
    answering: Answering = answer,
    inputs: Callable[[int, str], list[Input]] = given_once,
) -> int:
    """Compares the program that the arguments name with a reference. The status."""
    parser = argparse.ArgumentParser(description=description)
    parser.add_argument("program", metavar="PROGRAM", help="a program, perhaps with arguments")
    parser.add_argument("first", metavar="FROM", type=int, help="the first seed")
    parser.add_argument("last", metavar="TO", type=int, help="the last seed")
    parser.add_argument("--size", choices=sorted(SIZES), default="small")
    parser.add_argument("-j", dest="processes", type=int, default=os.cpu_count() or 1)
    parser.add_argument("--keep", metavar="FOLDER", default="differences")
    asked = parser.parse_args()
    words = program_words(asked.program)
    if words is None:
        print(f"{parser.prog}: there is no program {asked.program}", file=sys.stderr)
        return 2
    kept = compare_all(Pair(tuple(words), answering, inputs), asked)
    for path in kept:
        print(f"differs: {path}")
    print(f"{asked.last - asked.first + 1} inputs ({asked.size}), {len(kept)} differ")
    return 1 if kept else 0


if __name__ == "__main__":
    sys.exit(compare_with("Compares a program with the reference."))
