"""The examples of the pages: docs/FORMATS.md, docs/GUIDE.md, man/baliseplan.1 and man/balisefacts.1."""

import re
from collections.abc import Iterator
from dataclasses import dataclass

from runs import Missing

ESCAPES = (("\\-", "-"), ("\\e", "\\"))


@dataclass(frozen=True)
class Shell:
    """Blocks to run in one shell: the name, the code, and what it prints. Some files are there first."""

    blocks: list[tuple[str, str, str]]
    files: tuple[tuple[str, str], ...] = ()
    tools: tuple[str, ...] = ()


@dataclass(frozen=True)
class Run:
    """One run of a program by the formats' page. If it isn't whole, the end of the output isn't told."""

    name: str
    flags: list[str]
    lines: list[str]
    status: int
    due: list[str]
    is_whole: bool = False
    of_facts: bool = False
    """Whether the program is balisefacts."""


@dataclass(frozen=True)
class Block:
    """A fenced block: its line, the words after the fence, and its lines. `follows`: directly after the one before."""

    line: int
    words: list[str]
    lines: list[str]
    follows: bool


def blocks_of(page: str) -> Iterator[Block]:
    """The fenced blocks of a page, in order."""
    block, alone = None, True
    for number, line in enumerate(page.splitlines(), 1):
        if line.startswith("```") and block is None:
            block = Block(number, line[3:].split(), [], not alone)
        elif line == "```" and block is not None:
            yield block
            block, alone = None, False
        elif block is not None:
            block.lines.append(line)
        elif line:
            alone = True
    if block is not None:
        raise Missing(f"the block at line {block.line} has no end")


def guide(page: str) -> Shell:
    """Each `sh` block, which prints the `text` block that follows it, or nothing."""
    blocks: list[tuple[str, str, str]] = []
    after_code = False
    for block in blocks_of(page):
        if block.words == ["text"] and after_code and block.follows:
            name, code, _ = blocks[-1]
            blocks[-1] = (name, code, "".join(line + "\n" for line in block.lines))
        elif block.words == ["sh"]:
            blocks.append((f"line {block.line}", "\n".join(block.lines), ""))
        after_code = block.words == ["sh"]
    return Shell(blocks, tools=("awk", "cmp", "diff", "dot", "jq", "paste", "python3"))


def manual(page: str) -> Shell:
    """What stands between .EX and .EE in the section EXAMPLES.

    A line that begins with '$ ' is a command, '> ' goes on with it, and the others are what it prints. The first command
    is `cat FILE`, and gives the file.
    """
    commands: list[tuple[str, list[str]]] = []
    is_example = False
    section = page.partition(".SH EXAMPLES\n")[2].partition("\n.SH ")[0]
    for line in section.splitlines():
        for escaped, plain in ESCAPES:
            line = line.replace(escaped, plain)
        if line in (".EX", ".EE"):
            is_example = line == ".EX"
        elif is_example and line.startswith("$ "):
            commands.append((line[2:], []))
        elif is_example and line.startswith("> "):
            commands[-1] = (commands[-1][0] + "\n" + line[2:], [])
        elif is_example:
            commands[-1][1].append(line)
    blocks = [(command, command, "".join(line + "\n" for line in due)) for command, due in commands]
    if not blocks or not blocks[0][0].startswith("cat "):
        raise Missing("the manual page has no examples")
    file = (blocks[0][0].removeprefix("cat "), blocks[0][2])
    return Shell(blocks, (file,))


def formats(page: str) -> Iterator[Run]:
    """The examples of the formats' page, in order."""
    plans: dict[str, list[str]] = {}
    blocks = [block for block in blocks_of(page) if block.words and block.words[0] not in ("text", "sh")]
    while blocks:
        block = blocks.pop(0)
        kind, words = block.words[0], block.words[1:]
        if kind == "plan" and len(words) == 1:
            plans[words[0]] = block.lines
        elif kind in ("input", "facts") and words and blocks and blocks[0].words[0] == "output":
            output, of_facts = blocks.pop(0), kind == "facts"
            status = int(output.words[1]) if output.words[1:] else 0
            before = [*plans.get(words[0], ()), "edits"] if of_facts else []
            yield Run(f"line {block.line}", words[1:], before + block.lines, status, output.lines, True, of_facts)
        elif kind in ("replies", "each") and words and words[0] in plans:
            yield from short_runs(block, plans[words[0]])
        else:
            raise Missing(f"line {block.line} of the page: no such example: {' '.join(block.words)}")


def short_runs(block: Block, plan: list[str]) -> Iterator[Run]:
    """Lines LEFT => RIGHT: all commands of one run, or one run each."""
    pairs = []
    for place, line in enumerate(block.lines, block.line + 1):
        left, arrow, right = line.partition(" =>")
        if not arrow:
            raise Missing(f"line {place} of the page: it has no ' =>'")
        pairs.append((place, parts_of(left), parts_of(right.strip())))
    if block.words[0] == "replies":
        lefts = [part for _, left, _ in pairs for part in left]
        rights = [part for _, _, right in pairs for part in right]
        pairs = [(block.line, ["edits", *lefts], rights)]
    for place, lefts, rights in pairs:
        yield Run(f"line {place}", block.words[2:], [*plan, *lefts], status_of(rights), rights)


def parts_of(text: str) -> list[str]:
    """The lines that a text stands for: ' | ' ends a line, and {x*3} is xxx."""
    text = re.sub(r"\{(.)\*(\d+)\}", lambda found: found[1] * int(found[2]), text)
    return text.split(" | ") if text else []


def status_of(answers: list[str]) -> int:
    """The exit status that goes with these answers."""
    for status, word in ((3, "fault "), (2, "bad "), (1, "refused ")):
        if any(answer.startswith(word) for answer in answers):
            return status
    return 0
