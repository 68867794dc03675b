"""Where the programs are found that lie beside the engine."""

from __future__ import annotations

import os
import shlex
import shutil
from pathlib import Path

from plandesk.errors import Fault


def built(name: str) -> Path:
    """Where the repository builds a program."""
    return Path(__file__).resolve().parents[2] / "crates" / name / "out" / name


def find_program(name: str, what: str) -> tuple[str, ...]:
    """What the variable NAME in capitals names, else the program beside the engine, on the path, or built in the repository."""
    words = shlex.split(os.environ.get(name.upper(), ""))
    if not words:
        found = beside_engine(name) or shutil.which(name) or (str(built(name)) if built(name).exists() else "")
        if not found:
            raise Fault(f"{name}, {what}, isn't beside baliseplan or on the path", hint_of(name))
        words = [found]
    return tuple(words)


def hint_of(name: str) -> str:
    return f"set {name.upper()} to the program"


def beside_engine(name: str) -> str:
    """The program in the folder of the engine, if it is there."""
    words = shlex.split(os.environ.get("BALISEPLAN", "")) or ["baliseplan"]
    engine = shutil.which(words[0]) if len(words) == 1 else None
    folders = [Path(engine).parent, Path(engine).resolve().parent] if engine else []
    return next((found for folder in folders if (found := shutil.which(name, path=str(folder)))), "")
