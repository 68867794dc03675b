#!/usr/bin/env python3
"""Checks the pages of the repository: that links and named files exist, and that the words are plain.

usage: pages.py [FOLDER]

FOLDER is the top of the repository, else the one that this script is in. It looks at all pages that end in .md, and
reads no program. In each page
- a link [..](PAGE#HEADING) has to lead to a file, and to a heading of it;
- a page that is named without a link, as docs/GUIDE.md, has to exist, seen from the top or from the page's folder;
- so has a file or folder of the repository, or of some crate, that is named in code, as `examples/line.jq` or
  `src/lib.rt`, if it isn't built;
- a mutation that is named in code, as `balise_bits/spare_bits_ignored`, has to stand in that crate's must-fail/ or more-mutations/;
- outside of code none of the expressions of WORDS may stand: each has a plainer one beside it.

Status 0: all is right. 1: something isn't, one line each. 2: FOLDER has no pages.
"""

import re
import sys
from pathlib import Path

TOP = Path(__file__).resolve().parents[2]
FENCED = re.compile(r"^```.*?^```$", re.MULTILINE | re.DOTALL)
CODE = re.compile(r"`[^`\n]*`")
LINK = re.compile(r"\[[^\]\n]*\]\(([^)\s]*)\)")
NAMED = re.compile(r"(?<![\w/.-])[\w./-]+\.md\b")
WORDS = {
    r"(want|wants|lack) of memory|wants memory|memory (is|was) wanting": "out of memory; an allocation fails",
    r"behind": "after",
    r"(gives?|gave|given) back": "returns",
    r"lets? go": "drops",
    r"asks for nothing": "takes no condition",
    r"tells? (of|whether|that)": "states; returns",
    r"says of": "states",
    r"spelt|spelling|spellings": "well-formed; encoding",
    r"held back|not waited for": "buffered; non-blocking",
    r"hang|hangs|hung": "re-anchor, re-anchored",
    r"so many|as many as": "the number of",
    r"loud|quiet machine": "busy; idle",
    r"the other program": "the reference program",
    r"wrong bod(y|ies)|edits? of must-fail": "mutation",
}
"""Expressions that no page has, and what to write in their place."""
NO_PAGE = {"NAME.md"}
FOLDERS = "checks|completions|crates|data|desk|docs|examples|include|man|page|reference|scripts"
PLACE = re.compile(rf"(?:\.\./)*((?:{FOLDERS})/[\w./-]*)")
IN_CRATE = re.compile(r"(?:must-fail|more-mutations|proofs|specs|src)/[\w./-]*")
MUTATION = re.compile(r"(balise_\w+)/(\w+)")


def blanked(text: str, pattern: re.Pattern[str]) -> str:
    """The text with each match taken out, but for its line feeds."""
    return pattern.sub(lambda found: "\n" * found[0].count("\n"), text)


def headings(page: Path) -> set[str]:
    """The names by which a link leads to the headings of a page."""
    names: set[str] = set()
    for title in re.findall(r"^#+ (.*)$", blanked(page.read_text(), FENCED), re.MULTILINE):
        plain = re.sub(r"[^\w\- ]", "", title.lower()).replace(" ", "-")
        number = 0
        name = plain
        while name in names:
            number += 1
            name = f"{plain}-{number}"
        names.add(name)
    return names


def bad_link(page: Path, link: str) -> bool:
    """Whether a link leads nowhere in the repository."""
    if "://" in link:
        return False
    path, _, heading = link.partition("#")
    to = page.parent / path if path else page
    if not to.exists():
        return True
    return bool(heading) and heading not in headings(to)


def is_there(top: Path, word: str) -> bool:
    """Whether a word in code is no file or mutation of the repository, or one that exists."""
    if IN_CRATE.fullmatch(word):
        names = (word, f"{word}.antt")
        crates = (top / "crates").iterdir()
        return "NAME" in word or any((crate / name).exists() for crate in crates for name in names)
    place, mutation = PLACE.fullmatch(word), MUTATION.fullmatch(word)
    if place is not None:
        return "/out/" in word or (top / place[1]).exists()
    if mutation is not None:
        crate = top / "crates" / mutation[1]
        folders = ("must-fail", "more-mutations")
        return not crate.exists() or any((crate / folder / f"{mutation[2]}.edit").exists() for folder in folders)
    return True


def faults(top: Path, page: Path) -> list[tuple[int, str]]:
    """What is wrong in a page, each with its line."""
    text = blanked(page.read_text(), FENCED)
    found: list[tuple[int, str]] = []

    def add(place: int, what: str) -> None:
        found.append((text.count("\n", 0, place) + 1, what))

    for link in LINK.finditer(text):
        if bad_link(page, link[1]):
            add(link.start(), f"the link {link[1]} leads nowhere")
    for name in NAMED.finditer(LINK.sub(lambda link: " " * len(link[0]), text)):
        if name[0] not in NO_PAGE and not any((each / name[0]).exists() for each in (top, page.parent)):
            add(name.start(), f"there is no page {name[0]}")
    for code in CODE.finditer(text):
        first = code[0].strip("`").partition(" ")[0]
        if not is_there(top, first):
            add(code.start(), f"there is no {first}")
    prose = CODE.sub(lambda code: " " * len(code[0]), text)
    for words, plainer in WORDS.items():
        for word in re.finditer(rf"\b({words})\b", prose):
            add(word.start(), f"'{word[0]}': write {plainer}")
    return sorted(found)


def main(arguments: list[str]) -> int:
    top = Path(arguments[0]).resolve() if arguments else TOP
    ours = (*top.glob("*.md"), *(page for name in ("*", "*/*") for page in top.glob(f"{name}/*.md")))
    pages = sorted(page for page in ours if "out" not in page.parts)
    if len(arguments) > 1 or not pages:
        print("usage: pages.py [FOLDER]: the top of a repository that has pages", file=sys.stderr)
        return 2
    wrong = 0
    for page in pages:
        for line, what in faults(top, page):
            wrong += 1
            print(f"{page.relative_to(top)}:{line}: {what}")
    print(f"pages: {len(pages)}, {wrong} faults")
    return 1 if wrong else 0


if __name__ == "__main__":
    sys.exit(main(sys.argv[1:]))
