#!/usr/bin/env python3
"""Has `rt` take the libraries that the gate proved in this checkout: after_gate.py BEGAN.

`rt ci` leaves each library in the folder `out/rlib` of its crate, and no stamp beside it. So `rt lib` would prove all of
them again. This writes the stamps. It writes none, and `rt` proves what it has to, where the checkout had libraries of
its own, which `rt ci` puts back, and where a source is newer than the file BEGAN, which was written as the gate began.
Ends with 0; with 2 if there is no kit, or if its `rtlib.py` isn't as it was when this was written.
"""

import os
import shutil
import sys
from importlib.machinery import SourceFileLoader
from importlib.util import module_from_spec, spec_from_loader
from pathlib import Path
from types import ModuleType
from typing import Any

from runs import Missing, ended

TOP = Path(__file__).resolve().parents[2]


def kit_library() -> ModuleType:
    """The module of the kit that says what a stamp is."""
    rt = shutil.which("rt")
    if rt is None:
        raise Missing("missing: rt, of a Rattle kit (README.md)")
    loader = SourceFileLoader("rtlib", str(Path(rt).resolve().parent / "rtlib.py"))
    spec = spec_from_loader("rtlib", loader)
    if spec is None:
        raise Missing(f"{loader.path} is no module")
    module = module_from_spec(spec)
    sys.modules["rtlib"] = module
    loader.exec_module(module)
    return module


def stamp_once(crate_type: Any) -> None:
    """Has each crate's stamp computed once, and not again for each crate above it."""
    compute = crate_type.stamp
    known: dict[str, str] = {}

    def stamp(crate: Any) -> str:
        if crate.folder not in known:
            known[crate.folder] = compute(crate)
        return known[crate.folder]

    crate_type.stamp = stamp


def write_stamps(rtlib: Any, began: Path) -> str:
    """Writes the stamps, and says what was done."""
    stamp_once(rtlib.Crate)
    crates = rtlib.crates_below(str(TOP))
    sources = [TOP / "crates.txt", *(Path(file) for crate in crates for file in rtlib.files_of(crate.folder))]
    if any(file.stat().st_mtime_ns > began.stat().st_mtime_ns for file in sources):
        return "no library of the gate is taken, as files have changed since it began"
    stamps = {Path(crate.rlib).with_name("stamp"): crate for crate in crates if os.path.isdir(crate.rlib)}
    if any(path.exists() for path in stamps):
        return "no library of the gate is taken, as this checkout has its own"
    for path, crate in stamps.items():
        path.write_text(crate.stamp(), encoding="utf-8")
    return f"libraries of the gate that are taken: {len(stamps)}"


def main() -> int:
    if len(sys.argv) != 2:
        raise Missing("usage: after_gate.py BEGAN")
    try:
        print(write_stamps(kit_library(), Path(sys.argv[1])))
    except (AttributeError, OSError, TypeError) as error:
        raise Missing(f"the kit's rtlib.py isn't as it was: {error}") from error
    return 0


if __name__ == "__main__":
    sys.exit(ended(main))
