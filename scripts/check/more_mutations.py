#!/usr/bin/env python3
"""Tries the mutations that the gate leaves to another time: more_mutations.py [--look] [--top FOLDER] [CRATE ..].

The gate tries those of each crate's must-fail/: one for each public function, and some that stand for a wrong program.
Those of more-mutations/ turn a private function, or a meaning that has another mutation already. Here they take the
place of the others in a copy of the repository, and `rt must-fail` tries each. That takes about half a minute of a
processor for each, and first a check of each crate, if the kit has none of the same files. --look only looks whether
each still fits: whether its file has the old text, once, and the new text is another one. FOLDER is the top of the
repository, else the one that this script is in.
Ends with 0; with 1 if one is not refused or doesn't fit; with 2 if there is no such crate or no kit.
"""

import os
import shutil
import subprocess
import sys
import tempfile
from argparse import ArgumentParser
from collections.abc import Iterator
from pathlib import Path

from runs import Missing

TOP = Path(__file__).resolve().parents[2]
GATE, MORE = "must-fail", "more-mutations"


def crates_with_more(top: Path, names: list[str]) -> list[Path]:
    """The crates of these names, or all, that have mutations beside those of the gate."""
    found = [folder.parent for folder in sorted(top.glob(f"crates/*/{MORE}"))]
    for name in names:
        if name not in [crate.name for crate in found]:
            raise Missing(f"crates/{name} has no folder {MORE}")
    return [crate for crate in found if not names or crate.name in names]


def misfit(mutation: Path) -> str:
    """Why a mutation doesn't fit its crate; empty if it does."""
    texts: dict[Path, str] = {}
    file, old = Path(), ""
    for line in mutation.read_text().splitlines():
        word, _, value = line.partition(": ")
        if word == "file":
            file = mutation.parents[1] / value
            if not file.is_file():
                return f"there is no file {value}"
            texts.setdefault(file, file.read_text())
        elif word == "old":
            old = value
            if texts.get(file, "").count(old) != 1:
                return "the old text doesn't stand there once"
        elif word == "new":
            if value == old:
                return "the new text is the old one"
            texts[file] = texts[file].replace(old, value)
    return "" if old else "it has no old text"


def misfits(crates: list[Path]) -> Iterator[str]:
    """A line for each mutation that doesn't fit, and for each that stands in both folders."""
    for crate in crates:
        for mutation in sorted((crate / MORE).iterdir()):
            name = f"{crate.name}/{MORE}/{mutation.name}"
            if mutation.suffix != ".edit":
                yield f"{name}: the name of a mutation ends with .edit"
            elif (crate / GATE / mutation.name).exists():
                yield f"{name}: {GATE}/ has one of this name"
            elif why := misfit(mutation):
                yield f"{name}: {why}"


def tried(top: Path, crates: list[Path]) -> int:
    """Tries the mutations of the crates in a copy, and returns how `rt must-fail` ended."""
    if shutil.which("rt") is None:
        raise Missing("rt, of a Rattle kit (README.md)")
    with tempfile.TemporaryDirectory() as name:
        copy = Path(name)
        for each in ("crates.txt", "HANDLES"):
            shutil.copy(top / each, copy / each)
        shutil.copytree(top / "crates", copy / "crates", ignore=shutil.ignore_patterns("out", GATE))
        for crate in crates:
            os.rename(copy / "crates" / crate.name / MORE, copy / "crates" / crate.name / GATE)
        return subprocess.run(["rt", "must-fail", *[crate.name for crate in crates]], cwd=copy).returncode


def main(arguments: list[str]) -> int:
    parser = ArgumentParser(description="Tries the mutations that the gate leaves to another time.")
    parser.add_argument("--look", action="store_true", help="look only whether each still fits")
    parser.add_argument("--top", type=Path, default=TOP, metavar="FOLDER", help="the top of the repository")
    parser.add_argument("crates", nargs="*", metavar="CRATE", help="only those of these crates")
    options = parser.parse_args(arguments)
    try:
        crates = crates_with_more(options.top, options.crates)
        wrong = list(misfits(crates))
        for line in wrong:
            print(line)
        count = sum(1 for crate in crates for _ in (crate / MORE).iterdir())
        if wrong or options.look:
            print(f"more_mutations: {count} mutations of {len(crates)} crates, of which {len(wrong)} don't fit")
            return 1 if wrong else 0
        if tried(options.top, crates) != 0:
            print("more_mutations: not each one was refused")
            return 1
        print(f"more_mutations: {count} mutations of {len(crates)} crates are refused")
        return 0
    except Missing as missing:
        print(f"missing: {missing}", file=sys.stderr)
        return 2


if __name__ == "__main__":
    sys.exit(main(sys.argv[1:]))
