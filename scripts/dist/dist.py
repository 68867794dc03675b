#!/usr/bin/env python3
"""Packs what was built: a folder, an archive of it, and a Debian package of the same files.

usage: dist.py [--kit TEXT] [--out FOLDER] [--libraries FOLDER] [PROGRAM ..]

PROGRAM   is a program that was built, else those of crates/. The shared object and the archive of the library are in
          --libraries, else in out/; --kit is what `rt version` prints. `make dist` builds all of it, and calls this.
--out     is out/dist. What was packed there before is removed.

The same commit and the same built files give the same bytes: names are in order, owner is root, modes are 755 and 644,
and all times are that of the commit. It takes files that git knows, as they stand, and BUILD says whether they are
those of the commit.
"""

import argparse
import gzip
import os
import re
import shutil
import subprocess
import tarfile
from datetime import datetime, timezone
from hashlib import sha256
from pathlib import Path

from debian_package import DOCUMENTS, Build, control_files, dependencies, lay_out, make_package, pkg_config_file

TOP = Path(__file__).resolve().parents[2]
SHIPPED = (
    ":(glob)*.md", "docs", "include", "completions", "examples", "reference", "desk/plandesk", "desk/README.md",
    "data/variables.json", "man", "page/README.md", "page/baliseplan.html", ":(exclude)reference/test_*", ":(exclude,glob)**/.gitignore",
)  # fmt: skip
"""What git knows and the archive has; besides all pages that these lead to."""
LINK = re.compile(r"\]\(([^)#\s]+)[^)\s]*\)")
TARGET, PROCESSOR = "x86_64-linux-gnu", "x86-64-v2"


def git(*words: str) -> str:
    return subprocess.run(["git", "-C", TOP, *words], check=True, capture_output=True, text=True).stdout.strip()


def shipped() -> list[str]:
    """The names of the files of the repository that the archive has."""
    waiting, found = git("ls-files", "-z", "--", *SHIPPED).strip("\0").split("\0"), set[str]()
    while waiting:
        name = waiting.pop()
        if name in found:
            continue
        found.add(name)
        if name.endswith(".md"):
            links = LINK.findall((TOP / name).read_text())
            ours = (os.path.normpath(os.path.join(os.path.dirname(name), link)) for link in links if "://" not in link)
            waiting.extend(link for link in ours if (TOP / link).is_file())
    return sorted(found)


def what_was_built(kit: str) -> Build:
    number = re.search(r'BALISEPLAN_VERSION "(.*)"', (TOP / "include" / "baliseplan.h").read_text())
    assert number is not None
    commit, time, maintainer = git("log", "-1", "--format=%H %ct %cn <%ce>").split(" ", 2)
    changed = len(git("status", "--porcelain").splitlines())
    tree = f"changed: {changed} files aren't those of the commit" if changed else "clean"
    date = datetime.fromtimestamp(int(time), timezone.utc).strftime("%Y%m%d%H%M%S")
    version = f"{number[1]}+git{date}.{commit[:10]}" + (".changed" if changed else "")
    parts = {
        "version": version, "commit": commit, "tree": tree, "kit": kit, "target": TARGET, "processor": PROCESSOR,
    }  # fmt: skip
    return Build(number[1], version, maintainer, int(time), "".join(f"{name:<10}{part}\n" for name, part in parts.items()))


def place(file: Path, to: Path) -> None:
    to.parent.mkdir(parents=True, exist_ok=True)
    shutil.copyfile(file, to)
    to.chmod(0o755 if os.access(file, os.X_OK) else 0o644)


def assemble(folder: Path, build: Build, programs: list[Path], libraries: Path) -> list[Path]:
    """All files of the archive, but for the sums. Returns those that were built."""
    for name in shipped():
        page = re.fullmatch(r"man/(.*\.(\d))", name)
        place(TOP / name, folder / (f"man/man{page[2]}/{page[1]}" if page else name))
    for program in programs:
        place(program, folder / "bin" / program.name)
    place(TOP / "scripts" / "dist" / "plandesk", folder / "bin" / "plandesk")
    (shared,) = libraries.glob("libbaliseplan.so.*")
    place(libraries / "libbaliseplan.a", folder / "lib" / "libbaliseplan.a")
    place(shared, folder / "lib" / shared.name)
    (folder / "lib" / shared.name).chmod(0o644)
    (folder / "lib" / "libbaliseplan.so").symlink_to(shared.name)
    described = folder / "lib" / "pkgconfig" / "baliseplan.pc"
    described.parent.mkdir()
    described.write_text(pkg_config_file(TOP, build.number, "${pcfiledir}/../..", "${prefix}/lib"))
    (folder / "BUILD").write_text(build.text)
    return [*(folder / "bin" / program.name for program in programs), folder / "lib" / shared.name]


def sums(folder: Path, file: Path) -> None:
    """SHA-256 of all files of a folder, which `sha256sum -c` checks there."""
    files = (each for each in folder.rglob("*") if each.is_file() and not each.is_symlink() and each != file)
    names = sorted(str(each.relative_to(folder)) for each in files)
    lines = (f"{sha256((folder / name).read_bytes()).hexdigest()}  {name}\n" for name in names)
    file.write_text("".join(lines))
    file.chmod(0o644)


def settle(folder: Path, time: int) -> None:
    """One time for all, and folders that all may read."""
    for each in (*folder.rglob("*"), folder):
        if each.is_dir() and not each.is_symlink():
            each.chmod(0o755)
        elif not each.is_symlink():
            each.chmod(0o755 if each.stat().st_mode & 0o100 else 0o644)
        os.utime(each, (time, time), follow_symlinks=False)


def make_archive(folder: Path, file: Path, time: int) -> None:
    def plain(entry: tarfile.TarInfo) -> tarfile.TarInfo:
        entry.uid = entry.gid = 0
        entry.uname = entry.gname = "root"
        entry.mtime = time
        return entry

    unpacked = file.with_suffix("")
    with tarfile.open(unpacked, "w", format=tarfile.GNU_FORMAT) as archive:
        archive.add(folder, folder.name, filter=plain)
    file.write_bytes(gzip.compress(unpacked.read_bytes(), 9, mtime=0))
    unpacked.unlink()


def pack(folder: Path, root: Path, build: Build, depends: list[str]) -> None:
    """The archive and the package, of a folder that has all but its sums."""
    out = folder.parent
    sums(folder, folder / "SHA256SUMS")
    settle(folder, build.time)
    make_archive(folder, out / f"{folder.name}.tar.gz", build.time)
    lay_out(TOP, folder, root, build)
    sums(root, root / DOCUMENTS / "SHA256SUMS")
    control_files(root, build, depends)
    settle(root, build.time)
    make_package(root, out / f"baliseplan_{build.version}_amd64.deb", build)
    shutil.rmtree(root)
    sums_beside(out)


def sums_beside(out: Path) -> None:
    """SHA-256 of the archive and of the package, to be sent by another way than these."""
    made = sorted(file for file in out.iterdir() if file.suffix in (".gz", ".deb"))
    lines = "".join(f"{sha256(file.read_bytes()).hexdigest()}  {file.name}\n" for file in made)
    (out / "SHA256SUMS").write_text(lines)


def main() -> None:
    parser = argparse.ArgumentParser(usage=(__doc__ or "").split("\n")[2].removeprefix("usage: "))
    parser.add_argument("--kit", default="")
    parser.add_argument("--out", type=Path, default=TOP / "out" / "dist")
    parser.add_argument("--libraries", type=Path, default=TOP / "out")
    parser.add_argument("programs", type=Path, nargs="*")
    given = parser.parse_args()
    crates = [name for name in ("baliseplan", "balisefields", "balisefacts") if (TOP / "crates" / name).is_dir()]
    programs = given.programs or [TOP / "crates" / name / "out" / name for name in crates]
    for file in (*programs, given.libraries / "libbaliseplan.a"):
        if not file.is_file():
            raise SystemExit(f"dist.py: {file} isn't built: run make dist")
    build = what_was_built(" ".join(given.kit.split()) or "none was named: packed without a build")
    shutil.rmtree(given.out, ignore_errors=True)
    folder = given.out / f"baliseplan-{build.version}-linux-x86_64"
    folder.mkdir(parents=True)
    built = assemble(folder, build, programs, given.libraries)
    pack(folder, given.out / "root", build, dependencies(TOP, built))
    print((given.out / "SHA256SUMS").read_text(), end="")


if __name__ == "__main__":
    main()
