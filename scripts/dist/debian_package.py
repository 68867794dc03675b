"""The Debian package: where each file of the archive goes, and what dpkg has to know of them."""

import gzip
import re
import shutil
import subprocess
import tomllib
from dataclasses import dataclass
from datetime import datetime, timezone
from email.utils import format_datetime
from fnmatch import fnmatch
from hashlib import md5
from pathlib import Path

LIBRARIES = "usr/lib/x86_64-linux-gnu"
DOCUMENTS = "usr/share/doc/baliseplan"
PLACES = (
    ("bin/", "usr/bin/"),
    ("include/", "usr/include/"),
    ("lib/", f"{LIBRARIES}/"),
    ("man/", "usr/share/man/"),
    ("desk/plandesk/", "usr/share/baliseplan/desk/plandesk/"),
    ("data/", "usr/share/baliseplan/data/"),
    ("reference/*.py", "usr/share/baliseplan/reference/"),
    ("completions/*.bash", "usr/share/bash-completion/completions/"),
    ("completions/*.zsh", "usr/share/zsh/vendor-completions/_"),
    ("completions/*.fish", "usr/share/fish/vendor_completions.d/"),
    ("", f"{DOCUMENTS}/"),
)
"""Where the files go whose names begin or match so: the first row that fits. Links among the pages stay as they are."""
OTHERS = ("SHA256SUMS", "lib/pkgconfig/baliseplan.pc")
"""What the package has in a form of its own."""
SYSTEM = {"libc.so.6", "ld-linux-x86-64.so.2"}
COMPILED = "/usr/share/baliseplan"
SCRIPTS = {
    "postinst": f"[ \"$1\" != configure ] || py3compile -p baliseplan {COMPILED}",
    "prerm": "py3clean -p baliseplan",
}
"""What Python compiles belongs to no file list: so it is made at the install, and removed before the files are."""


@dataclass(frozen=True)
class Build:
    """What was built: the version of the program, that of the package, who made the commit and when, and BUILD."""

    number: str
    version: str
    maintainer: str
    time: int
    text: str


def place_of(name: str) -> str:
    """Where the package has a file of the archive."""
    for pattern, to in PLACES:
        if "*" not in pattern and name.startswith(pattern):
            return to + name.removeprefix(pattern)
        if "*" in pattern and fnmatch(name, pattern):
            file = Path(name)
            return to + (file.stem if file.suffix in (".bash", ".zsh") else file.name)
    raise AssertionError(name)


def dependencies(top: Path, built: list[Path]) -> list[str]:
    """The Debian packages that the desk and the programs need, as pyproject.toml and the programs themselves say."""
    project = tomllib.loads((top / "desk" / "pyproject.toml").read_text())["project"]
    needs = [f"python3{project['requires-python']}", *sorted(f"python3-{name}" for name in project["dependencies"])]
    least = (0, 0)
    for file in built:
        shown = subprocess.run(["objdump", "-p", file], check=True, capture_output=True, text=True).stdout
        more = set(re.findall(r"NEEDED\s+(\S+)", shown)) - SYSTEM
        if more:
            raise SystemExit(f"dist.py: {file} needs {', '.join(sorted(more))}: name its Debian package here")
        least = max([least, *((int(one), int(two)) for one, two in re.findall(r"GLIBC_(\d+)\.(\d+)", shown))])
    return [f"libc6 (>= {least[0]}.{least[1]})", *(re.sub(r">=(.*)", r" (>= \1)", need) for need in needs)]


def control(build: Build, depends: list[str], root: Path) -> str:
    size = sum(file.lstat().st_size for file in root.rglob("*") if not file.is_dir()) // 1024 + 1
    return f"""Package: baliseplan
Version: {build.version}
Architecture: amd64
Maintainer: {build.maintainer}
Installed-Size: {size}
Depends: {', '.join(depends)}
Section: utils
Priority: optional
Description: editor for the balise plan of a railway line, as ETCS uses it
 A proved batch editor for plans of balise telegrams, with the same as a
 library for C, a desk for the work on a line in a terminal, a page for
 browsers, and a second program to compare with.
"""


def licence(top: Path) -> str:
    text = (top / "README.md").read_text().partition("\n## Licence\n")[2].partition("\n## ")[0].strip()
    if not text:
        raise SystemExit("dist.py: README.md has no part Licence")
    return f"""Copyright: the owner of baliseplan

{text}

The programs and libraries have parts of the Rattle kit that built them, under the terms of that kit.
"""


def changelog(build: Build) -> str:
    when = format_datetime(datetime.fromtimestamp(build.time, timezone.utc))
    return f"""baliseplan ({build.version}) unstable; urgency=medium

  * Built of one commit: BUILD names it, and CHANGELOG.md has what changed.

 -- {build.maintainer}  {when}
"""


def write(file: Path, text: str, mode: int = 0o644) -> None:
    file.parent.mkdir(parents=True, exist_ok=True)
    file.write_text(text)
    file.chmod(mode)


def packed(file: Path, text: bytes) -> None:
    file.parent.mkdir(parents=True, exist_ok=True)
    file.write_bytes(gzip.compress(text, 9, mtime=0))


def lay_out(top: Path, folder: Path, root: Path, build: Build) -> None:
    """The files of the package below root, but for the sums of them."""
    for file in sorted(folder.rglob("*")):
        name = str(file.relative_to(folder))
        if name in OTHERS or (file.is_dir() and not file.is_symlink()):
            continue
        to = root / place_of(name)
        to.parent.mkdir(parents=True, exist_ok=True)
        if name.startswith("man/"):
            packed(to.with_name(to.name + ".gz"), file.read_bytes())
        else:
            shutil.copy2(file, to, follow_symlinks=False)
    pkg_config = pkg_config_file(top, build.number, "/usr", f"/{LIBRARIES}")
    write(root / LIBRARIES / "pkgconfig" / "baliseplan.pc", pkg_config)
    write(root / DOCUMENTS / "copyright", licence(top))
    packed(root / DOCUMENTS / "changelog.gz", changelog(build).encode())


def pkg_config_file(top: Path, number: str, prefix: str, libraries: str) -> str:
    places = {"PREFIX": prefix, "LIBDIR": libraries, "INCLUDEDIR": "${prefix}/include", "VERSION": number}
    return re.sub("@([A-Z]+)@", lambda found: places[found[1]], (top / "baliseplan.pc.in").read_text())


def control_files(root: Path, build: Build, depends: list[str]) -> None:
    """What dpkg reads, in DEBIAN/."""
    files = sorted(file for file in root.rglob("*") if file.is_file() and not file.is_symlink())
    sums = "".join(f"{md5(file.read_bytes()).hexdigest()}  {file.relative_to(root)}\n" for file in files)
    write(root / "DEBIAN" / "control", control(build, depends, root))
    write(root / "DEBIAN" / "md5sums", sums)
    write(root / "DEBIAN" / "triggers", "activate-noawait ldconfig\n")
    for shared in (root / LIBRARIES).glob("libbaliseplan.so.*"):
        write(root / "DEBIAN" / "shlibs", f"libbaliseplan {shared.suffix[1:]} baliseplan\n")
    for name, line in SCRIPTS.items():
        write(root / "DEBIAN" / name, f"#!/bin/sh\nset -e\n{line}\n", 0o755)


def make_package(root: Path, file: Path, build: Build) -> None:
    # One thread: what more of them write depends on their number.
    words = ["dpkg-deb", "--root-owner-group", "--threads-max=1", "-Zxz", "--build", str(root), str(file)]
    environment = {"SOURCE_DATE_EPOCH": str(build.time), "PATH": "/usr/bin:/bin"}
    subprocess.run(words, check=True, env=environment, stdout=subprocess.DEVNULL)
