#!/usr/bin/env python3
"""Checks what `make dist` packed, without an install: the archive, its folder and the Debian package.

usage: dist_files.py [FOLDER]     (out/dist)

It looks whether the archive has the bytes that every build of its commit has (order, owner, modes, times), whether each
file has its line in SHA256SUMS, whether the links among its pages lead somewhere, whether the page has the engine that
it names, and whether the program prints what the examples have. The package has to have the same files, by Debian's
places, and to depend on all that the desk imports.
Ends with 0; with 1 if something is wrong, which it prints; with 2 if nothing was packed or a tool is missing.
"""

import ast
import base64
import gzip
import hashlib
import re
import stat
import subprocess
import sys
import tarfile
import tempfile
from collections.abc import Iterator
from pathlib import Path

from pages import FENCED, LINK, bad_link, blanked
from runs import RIGHT, WRONG, Missing, ended, need, run

TOP = Path(__file__).resolve().parents[2]
BUILD = ("version", "commit", "tree", "kit", "target", "processor")
PKG_CONFIG = "usr/lib/x86_64-linux-gnu/pkgconfig/baliseplan.pc"
DOCUMENTS = "usr/share/doc/baliseplan"
OTHER_FORM = {"SHA256SUMS", "lib/pkgconfig/baliseplan.pc"}
"""What the package has in a form of its own."""
OWN = {f"{DOCUMENTS}/{name}" for name in ("SHA256SUMS", "copyright", "changelog.gz")} | {PKG_CONFIG}


def files_of(folder: Path) -> dict[str, Path]:
    """The files of a folder by their names, without links."""
    return {str(file.relative_to(folder)): file for file in folder.rglob("*") if file.is_file() and not file.is_symlink()}


def digest(file: Path, kind: str = "sha256") -> str:
    return hashlib.new(kind, file.read_bytes()).hexdigest()


def of_sums(what: str, folder: Path, sums: Path, kind: str = "sha256") -> Iterator[str]:
    """Each file has one line, which has its sum; but for the file of the sums, and what dpkg reads."""
    lines = [line.split("  ", 1) for line in sums.read_text().splitlines()] if sums.is_file() else []
    noted = {line[1]: line[0] for line in lines}
    files = {name: file for name, file in files_of(folder).items() if file != sums and not name.startswith("DEBIAN/")}
    for name in sorted(files.keys() | noted.keys()):
        if name not in noted:
            yield f"{what}: {name} has no line in {sums.name}"
        elif name not in files:
            yield f"{what}: {name} stands in {sums.name} and isn't there"
        elif digest(files[name], kind) != noted[name]:
            yield f"{what}: {name} isn't the file of {sums.name}"


def of_entries(archive: Path) -> Iterator[str]:
    """Order, owner, modes and times are those of every build."""
    if archive.read_bytes()[4:8] != bytes(4):
        yield f"{archive.name}: its head has a time"
    with tarfile.open(archive) as opened:
        entries = opened.getmembers()
    if len({entry.mtime for entry in entries}) != 1:
        yield f"{archive.name}: not all times are the same"
    for before, entry in zip(entries, entries[1:]):
        if Path(before.name).parts >= Path(entry.name).parts:
            yield f"{archive.name}: {entry.name} isn't in order"
    for entry in entries:
        due = 0o777 if entry.issym() else 0o755 if entry.isdir() or entry.mode & 0o100 else 0o644
        if (entry.uid, entry.gid, entry.uname, entry.gname, entry.mode) != (0, 0, "root", "root", due):
            yield f"{archive.name}: owner or mode of {entry.name}"


def of_pages(what: str, folder: Path) -> Iterator[str]:
    """Links among the pages lead to files that are there, and to their headings."""
    for page in sorted(folder.rglob("*.md")):
        for link in LINK.findall(blanked(page.read_text(), FENCED)):
            if bad_link(page, link):
                yield f"{what}: {page.relative_to(folder)}: the link {link} leads nowhere"


def of_engine(page: Path) -> Iterator[str]:
    """The page has the engine whose checksum it names."""
    text = page.read_text()
    packed, named = re.search(r'id="engine-gzip">([^<]*)<', text), re.search(r'engine-sha256" content="([^"]*)"', text)
    if packed is None or named is None:
        yield f"{page.name}: it has no engine, or doesn't name its checksum"
    elif hashlib.sha256(gzip.decompress(base64.b64decode(packed[1]))).hexdigest() != named[1]:
        yield f"{page.name}: the engine isn't the one whose checksum it names"


def of_examples(folder: Path) -> Iterator[str]:
    """The program prints what each example has."""

    def stored(plan: Path, kind: str, else_: str) -> str:
        file = plan.with_suffix(kind)
        return file.read_text() if file.exists() else else_

    for plan in sorted((folder / "examples").glob("*.plan")):
        done = run([str(folder / "bin" / "baliseplan"), *stored(plan, ".flags", "").split()], plan.read_bytes())
        due = (int(stored(plan, ".status", "0")), stored(plan, ".out", "").encode())
        if (done.status, done.output) != due:
            yield f"{folder.name}: {plan.name} gives another output or status ({done.status}) than it has to"


def of_paths(folder: Path) -> Iterator[str]:
    """No file has the path of the checkout in it: another checkout would give other bytes."""
    for name, file in sorted(files_of(folder).items()):
        if str(TOP).encode() in file.read_bytes():
            yield f"archive: {name} has the path of the checkout in it"


def of_build(folder: Path) -> Iterator[str]:
    lines = [line.split(maxsplit=1) for line in (folder / "BUILD").read_text().splitlines()]
    if [line[0] for line in lines] != list(BUILD) or not all(len(line) == 2 for line in lines):
        yield f"BUILD: it has to name {', '.join(BUILD)}"


def unpacked(file: Path) -> str:
    """The sum of a file, and of a manual page without its packing."""
    text = file.read_bytes()
    return hashlib.sha256(gzip.decompress(text) if file.suffix == ".gz" else text).hexdigest()


def of_package(root: Path, folder: Path) -> Iterator[str]:
    """The package has the files of the archive, each once, below /usr, and no other but for those of its own."""
    theirs = {name: unpacked(file) for name, file in files_of(root).items() if not name.startswith("DEBIAN/")}
    ours = [digest(file) for name, file in files_of(folder).items() if name not in OTHER_FORM]
    if sorted(ours) != sorted(found for name, found in theirs.items() if name not in OWN):
        yield "package: its files aren't those of the archive"
    for name in sorted(OWN - theirs.keys()):
        yield f"package: it has no {name}"
    for name in sorted(name for name in theirs if not name.startswith("usr/")):
        yield f"package: {name} isn't below /usr"
    yield from of_sums("package", root, root / DOCUMENTS / "SHA256SUMS")
    yield from of_sums("package", root, root / "DEBIAN" / "md5sums", "md5")
    yield from of_pages("package", root / DOCUMENTS)
    control = (root / "DEBIAN" / "control").read_text()
    depends = re.search(r"^Depends: (.*)$", control, re.MULTILINE)
    declared = {each.split()[0] for each in depends[1].split(", ")} if depends else set()
    for name in sorted({"libc6", "python3", *imported(root / "usr/share/baliseplan")} - declared):
        yield f"package: it doesn't depend on {name}"


def imported(folder: Path) -> set[str]:
    """The Debian packages of the modules that the desk and the reference import, and don't have themselves."""
    files = list(folder.rglob("*.py"))
    own = {file.stem for file in files} | {"plandesk"}
    names: set[str] = set()
    for file in files:
        for node in ast.walk(ast.parse(file.read_text())):
            if isinstance(node, ast.Import):
                names.update(alias.name for alias in node.names)
            elif isinstance(node, ast.ImportFrom) and node.module and not node.level:
                names.add(node.module)
    modules = {name.partition(".")[0] for name in names}
    return {f"python3-{name}" for name in modules - own - sys.stdlib_module_names}


def of_folder(folder: Path, unpacked_folder: Path) -> Iterator[str]:
    """The folder beside the archive is the archive."""

    def shape(top: Path) -> dict[str, str]:
        found = {name: f"{digest(file)} {stat.filemode(file.stat().st_mode)}" for name, file in files_of(top).items()}
        return found | {str(each.relative_to(top)): str(each.readlink()) for each in top.rglob("*") if each.is_symlink()}

    if not folder.is_dir() or shape(folder) != shape(unpacked_folder):
        yield f"{folder.name}: the folder isn't what the archive has"


def found_in(out: Path, made: Path) -> Iterator[str]:
    """All that is wrong, with a folder for what is unpacked."""
    (archive,), (package,) = list(out.glob("*.tar.gz")), list(out.glob("*.deb"))
    name = archive.name.removesuffix(".tar.gz")
    subprocess.run(["tar", "-xzf", archive, "-C", made], check=True)
    subprocess.run(["dpkg-deb", "--raw-extract", package, made / "package"], check=True)
    folder = made / name
    yield from of_entries(archive)
    yield from of_folder(out / name, folder)
    yield from of_build(folder)
    yield from of_sums("archive", folder, folder / "SHA256SUMS")
    yield from of_pages("archive", folder)
    yield from of_engine(folder / "page" / "baliseplan.html")
    yield from of_examples(folder)
    yield from of_paths(folder)
    yield from of_package(made / "package", folder)
    for line in (out / "SHA256SUMS").read_text().splitlines():
        if digest(out / line.split("  ", 1)[1]) != line.split()[0]:
            yield f"{line.split()[1]}: it isn't the file of SHA256SUMS beside it"


def main() -> int:
    out = Path(sys.argv[1]) if len(sys.argv) > 1 else TOP / "out" / "dist"
    need("dpkg-deb")
    if len(list(out.glob("*.tar.gz"))) != 1 or len(list(out.glob("*.deb"))) != 1:
        raise Missing(f"there is no archive and package in {out}: run make dist")
    with tempfile.TemporaryDirectory() as temporary:
        faults = list(found_in(out, Path(temporary)))
    print(*faults, sep="\n", end="\n" if faults else "")
    print(f"archive and package: {len(faults)} faults")
    return WRONG if faults else RIGHT


if __name__ == "__main__":
    sys.exit(ended(main))
