"""Runs the blocks of a page in one shell."""

import os
import shlex
import shutil
import sys
from pathlib import Path

from example_pages import Shell
from runs import SECONDS, run

TOP = Path(__file__).resolve().parents[2]
MARK = "@@ end of a block"


def as_program(words: list[str], folder: Path) -> Path:
    """A program `baliseplan` in a folder of its own, which runs these words."""
    program = folder / "bin" / "baliseplan"
    program.parent.mkdir()
    program.write_text(f'#!/bin/sh\nexec {shlex.join(words)} "$@"\n')
    program.chmod(0o755)
    return program


def words_of(name: str) -> list[str]:
    """What starts another program of the repository: the one in the checkout or on the path, else the reference for it."""
    built = TOP / "crates" / name / "out" / name
    found = str(built) if built.exists() else shutil.which(name)
    return [found] if found else [sys.executable, "-B", str(TOP / "reference" / f"{name}.py")]


def with_others(folder: Path) -> None:
    """The other programs, there."""
    for name in ("balisefields", "balisefacts"):
        program = folder / name
        program.write_text(f'#!/bin/sh\nexec {shlex.join(words_of(name))} "$@"\n')
        program.chmod(0o755)


def ran_in_shell(words: list[str], shell: Shell, folder: Path) -> list[str]:
    """What each block prints, both streams together, with the program as `baliseplan` and in an empty folder."""
    run_in = folder / "run"
    run_in.mkdir()
    for name, text in shell.files:
        (run_in / name).write_text(text)
    programs = as_program(words, folder).parent
    with_others(programs)
    path = os.pathsep.join([str(programs), str(TOP / "desk" / "bin"), os.environ["PATH"]])
    # What Python compiles goes to the folder, so that it isn't compiled by each block, and the checkout stays clean.
    more = {"PATH": path, "LC_ALL": "C", "PYTHONPYCACHEPREFIX": str(folder / "cache"), "examples": str(TOP / "examples")}
    without = ("BALISEPLAN", "PYTHONDONTWRITEBYTECODE")
    environment = {name: value for name, value in os.environ.items() if name not in without} | more
    script = "exec 2>&1\n" + "".join(f"{code}\necho '{MARK}'\n" for _, code, _ in shell.blocks)
    # The shell reads from a file and not from its input, which a block might read too.
    (folder / "code").write_text(script)
    # All blocks of a page are one shell, which starts the desk some forty times.
    done = run(["bash", str(folder / "code")], b"", seconds=5 * SECONDS, cwd=run_in, env=environment)
    printed = done.output.decode("utf-8", "replace").split(MARK + "\n")
    missing = len(shell.blocks) - len(printed[:-1])
    return printed[:-1] + ["the shell ended before this block\n"] * missing
