#!/usr/bin/env python3
"""Compares the numbers and words of the library that stand in more than one file: the number of the interface, the
version, flags, and answers. The header include/baliseplan.h has them first.

usage: library_numbers.py [--planted]

With --planted each of them is changed in turn in its file, not on the disk, and has to be found.
Ends with 0; with 1 if something differs, or a change wasn't found; with 2 if a file or a number is missing.
"""

import re
import subprocess
import sys
from pathlib import Path
from typing import Iterable, Mapping

ROOT = Path(__file__).resolve().parents[2]
HEADER = "include/baliseplan.h"
PYTHON = "examples/python/baliseplan/__init__.py"
PYTHON_FAULTS = "examples/python/baliseplan/errors.py"
PYTHON_FACTS = "examples/python/baliseplan/_facts.py"
RUST = "examples/rust/src/lib.rs"
HELP = "crates/baliseplan_help/stdout"
MAKEFILE = "what `make -n packed-shared` prints"
WORDS = ("QUIET", "STOP", "JOURNAL", "JSON")
FACTS = {"ALL_EDITS": r"Facts::Edits", "ONE_EDIT": r"Facts::Edit\(serial\)", "TAGS": r"Facts::Tags"}
FAULTS = {"INPUT_TOO_LONG": "InputTooLong", "OUT_OF_MEMORY": "OutOfMemory", "READ_FAULT": "ReadFault",
          "OUTPUT_FULL": "WriteFault"}

Place = tuple[str, str]
"""A file, and an expression whose first group is the number."""


def define(name: str) -> Place:
    return HEADER, rf'#define BALISEPLAN_{name} "?([\w.]+?)u?"?(?:\s|$)'


def numbers() -> dict[str, list[Place]]:
    """Each number with the places that have it."""
    found = {
        "the interface": [
            define("ABI"),
            ("crates/balise_c/src/lib.rt", r"const ABI: u32 = (\d+);"),
            ("examples/python/baliseplan/_library.py", r"^ABI = (\d+)$"),
            ("examples/rust/src/raw.rs", r"const ABI: u32 = (\d+);"),
            (MAKEFILE, r"-soname,libbaliseplan\.so\.(\d+)"),
        ],
        "the version": [
            define("VERSION"),
            (HELP, r"^baliseplan ([\d.]+):"),
            ("examples/python/pyproject.toml", r'^version = "(.*)"$'),
            ("examples/python/test_baliseplan.py", r'baliseplan\.version\(\) == "(.*)"'),
            ("examples/rust/Cargo.toml", r'^version = "(.*)"$'),
            ("examples/rust/Cargo.lock", r'^name = "baliseplan"\nversion = "(.*)"$'),
            ("man/baliseplan.1", r'^\.TH BALISEPLAN 1 \S+ "baliseplan ([\d.]+)"'),
            ("man/baliseplan.3", r'^\.TH BALISEPLAN 3 \S+ "baliseplan ([\d.]+)"'),
        ],
    }
    for at, word in enumerate(WORDS):
        before = r", ".join([r"\d+"] * at + [r"(\d+)"])
        rust = rf"const {word}: Flags = Flags\((\d+)\);"
        found[f"the flag {word}"] = [define(word), (PYTHON, rf"^QUIET, .* = {before}"), (RUST, rust)]
    for name, printed in FAULTS.items():
        rust = rf"^\s*Fault::{printed} => (\d+),"
        answer = rf"^\s*(\d+) => Err\(Fault::{printed}\),"
        crate = ("crates/balise_c/src/answer.rt", rf"^\s*RunFault::{printed} => (\d+),")
        python = (PYTHON_FAULTS, rf'(\d+): "{printed}"')
        found[f"the fault {printed}"] = [define(name), python, (RUST, rust), (RUST, answer), crate]
    found["the status of a bad input"] = [define("BAD_INPUT"), (PYTHON_FAULTS, r"^BAD_INPUT = (\d+)$"),
                                          (RUST, r"^\s*(\d+) => Ok\(Status::BadInput\),")]
    for at, (word, facts) in enumerate(FACTS.items()):
        before = r", ".join([r"\d+"] * at + [r"(\d+)"])
        in_python, in_rust = rf"^ALL_EDITS, .* = {before}", rf"^\s*{facts} => \((\d+), \w+\)"
        found[f"the number of facts {word}"] = [define(word), (PYTHON_FACTS, in_python), (RUST, in_rust)]
        if word != "TAGS":  # the crate takes any further number for it, once the call has looked
            place = ("crates/balise_c/src/fact_numbers.rt", rf"^\s*(\d+) => {facts},")
            found[f"the number of facts {word}"].append(place)
    usage = ("crates/balise_c/src/lib.rt", r"const USAGE: i32 = (\d+);")
    found["the answer to an unknown flag"] = [define("USAGE"), usage]
    found["the first bit that is no flag"] = [
        ("crates/balise_c/src/flag_bits.rt", r"const FIRST_UNKNOWN: u32 = (\d+);"),
    ]
    return found


def texts(places: Iterable[Place]) -> dict[str, str]:
    files = {file for file, _ in places} - {MAKEFILE}
    made = subprocess.run(["make", "-n", "packed-shared"], cwd=ROOT, capture_output=True, text=True, check=True)
    return {MAKEFILE: made.stdout} | {file: (ROOT / file).read_text() for file in files | {HEADER, HELP}}


def value(text: Mapping[str, str], place: Place) -> re.Match[str]:
    found = re.search(place[1], text[place[0]], re.MULTILINE)
    if found is None:
        raise SystemExit(f"library_numbers.py: {place[0]} has no {place[1]}")
    return found


def words_differ(text: Mapping[str, str]) -> list[str]:
    """The options of the completions and of the manual page, beside those of the help text."""
    due = set(re.findall(r"--[a-z]+", text[HELP].partition("Options:")[2].partition("Status:")[0]))
    files = [f"completions/baliseplan.{shell}" for shell in ("bash", "zsh", "fish")]
    found = []
    for file in files:
        got = set(re.findall(r"--[a-z]+", text[file]))
        got |= {f"--{word}" for word in re.findall(r"-l (\w+)", text[file])}
        if got != due:
            found.append(f"{file} has the options {' '.join(sorted(got))}, and the program {' '.join(sorted(due))}")
    return found


def differences(text: Mapping[str, str]) -> list[str]:
    found = words_differ(text)
    for name, places in numbers().items():
        got = [(file, value(text, (file, pattern))[1]) for file, pattern in places]
        if len({number for _, number in got}) > 1:
            found.append(f"{name}: " + ", ".join(f"{number} in {file}" for file, number in got))
    flags = sum(int(value(text, define(word))[1]) for word in WORDS)
    if int(value(text, define("FLAGS"))[1]) != flags:
        found.append(f"BALISEPLAN_FLAGS isn't {flags}")
    if int(value(text, numbers()["the first bit that is no flag"][0])[1]) != flags + 1:
        found.append(f"FIRST_UNKNOWN isn't {flags + 1}")
    return found


def unnoticed(text: Mapping[str, str]) -> list[str]:
    """The places whose change no comparison finds."""
    found = []
    for name, places in numbers().items():
        for place in places:
            file, (start, end) = place[0], value(text, place).span(1)
            changed = text[file][:start] + "77" + text[file][end:]
            if not differences({**text, file: changed}):
                found.append(f"{name} may be changed in {file}")
    return found


def main(words: list[str]) -> int:
    if words not in ([], ["--planted"]):
        print(__doc__, file=sys.stderr)
        return 2
    completions = [(f"completions/baliseplan.{shell}", "") for shell in ("bash", "zsh", "fish")]
    text = texts([place for places in numbers().values() for place in places] + completions)
    found = unnoticed(text) if words else differences(text)
    for line in found:
        print(line)
    count = sum(map(len, numbers().values()))
    print(f"library numbers: {len(numbers())} in {count} places, {len(found)} {'unnoticed' if words else 'differ'}")
    return 1 if found else 0


if __name__ == "__main__":
    sys.exit(main(sys.argv[1:]))
