#!/usr/bin/env python3
"""Packs an archive and a package that are wrong on purpose, and checks them by dist_files.py. For selftest.py.

usage: wrong_dists.py KIND

KIND is `right`, or one of WRONG_DISTS. The program in them runs the reference, and the library has two calls: nothing is
proved or built for it. It needs cc, ar, dpkg-deb and objdump. The status is that of dist_files.py.
"""

import os
import subprocess
import sys
import tempfile
from collections.abc import Callable
from pathlib import Path

from dist_files import found_in
from runs import RIGHT, WRONG, Missing, ended, need

TOP = Path(__file__).resolve().parents[2]
sys.path.insert(0, str(TOP / "scripts" / "dist"))

import dist  # noqa: E402
from debian_package import dependencies  # noqa: E402

PROGRAM = """#include <stdlib.h>
#include <string.h>
#include <unistd.h>
int main(int argc, char **argv)
{
    char *words[32] = {"python3", "-B", getenv("BALISEPLAN_REFERENCE")};
    memcpy(words + 3, argv + 1, sizeof *argv * (argc < 28 ? argc : 28));
    return execvp(*words, words);
}
"""


def replaced(name: str, old: str, new: str) -> Callable[[Path], None]:
    """A change of a file: the first place of a text."""

    def change(folder: Path) -> None:
        text = (folder / name).read_text()
        assert old in text
        (folder / name).write_text(text.replace(old, new, 1))

    return change


def without_a_line(folder: Path) -> None:
    lines = (folder / "SHA256SUMS").read_text().splitlines(keepends=True)
    (folder / "SHA256SUMS").write_text("".join(line for line in lines if not line.endswith("bin/plandesk\n")))


def for_all(folder: Path) -> None:
    (folder / "bin" / "plandesk").chmod(0o777)


def same(_: Path) -> None:
    """No change."""


Change = Callable[[Path], None]
WRONG_DISTS: dict[str, tuple[str, Change, Change, str]] = {
    "file": ("has a file exchanged", same, replaced("docs/FORMATS.md", "plan 1", "plan 2"), ""),
    "line": ("has lost a line of its checksums", same, without_a_line, ""),
    "mode": ("has a file that all may write", same, for_all, ""),
    "example": ("has an example that its program answers otherwise", replaced("examples/struck_edit.out", "ok 1", "ok 2"), same, ""),
    "link": ("has a link that leads nowhere", replaced("README.md", "](docs/GUIDE.md)", "](docs/GUIDES.md)"), same, ""),
    "path": ("has the path of the checkout in a file", replaced("CHANGELOG.md", "# Changes", f"# Changes\n{TOP}"), same, ""),
    "engine": ("has a page with another engine", replaced("page/baliseplan.html", 'sha256" content="', 'sha256" content="0'), same, ""),
    "dependency": ("has a package that doesn't depend on what it imports", same, same, "python3-rich"),
}
"""What is wrong, the change before all is packed, that of the packed folder, and a dependency that is left out."""


def built(folder: Path) -> tuple[Path, Path]:
    """A program, and a folder with libraries."""
    program = folder / "baliseplan"
    subprocess.run(["cc", "-x", "c", "-o", program, "-"], input=PROGRAM.encode(), check=True)
    texts, part = TOP / "library" / "texts.c", folder / "texts.o"
    subprocess.run(["cc", "-fPIC", "-I", TOP / "include", "-c", "-o", part, texts], check=True)
    subprocess.run(["cc", "-shared", "-o", folder / "libbaliseplan.so.1", part], check=True)
    subprocess.run(["ar", "rcsD", folder / "libbaliseplan.a", part], check=True)
    return program, folder


def packed(kind: str, folder: Path) -> Path:
    """The archive and the package, with what is wrong in them."""
    _, before, after, left_out = WRONG_DISTS.get(kind, ("", same, same, ""))
    program, libraries = built(folder)
    build = dist.what_was_built("none")
    out = folder / "dist"
    inner = out / "baliseplan"
    inner.mkdir(parents=True)
    files = dist.assemble(inner, build, [program], libraries)
    before(inner)
    depends = [name for name in dependencies(TOP, files) if name.split()[0] != left_out]
    dist.pack(inner, folder / "root", build, depends)
    after(inner)
    if after is not same:
        dist.make_archive(inner, out / "baliseplan.tar.gz", build.time)
        dist.sums_beside(out)
    return out


def main() -> int:
    kind = "".join(sys.argv[1:])
    if kind not in ("right", *WRONG_DISTS):
        raise Missing(f"usage: wrong_dists.py right|{'|'.join(WRONG_DISTS)}")
    need("ar", "cc", "dpkg-deb", "objdump")
    os.environ["BALISEPLAN_REFERENCE"] = str(TOP / "reference" / "baliseplan.py")
    with tempfile.TemporaryDirectory() as temporary:
        folder = Path(temporary)
        (folder / "made").mkdir()
        faults = list(found_in(packed(kind, folder), folder / "made"))
    print(*faults, sep="\n")
    return WRONG if faults else RIGHT


if __name__ == "__main__":
    sys.exit(ended(main))
