"""Reads the code of the repository, crates/*/src/**/*.rt, as text: its functions with their contracts, types and imports.

The language is close to Rust, and laid out by a formatter: an item ends with a bracket at its own indentation, and a
contract is what stands between the signature and the bracket that opens the body.
"""

import re
from collections.abc import Iterator
from dataclasses import dataclass, field
from pathlib import Path
from typing import NamedTuple

from trace_specs import Scope, used


class Type(NamedTuple):
    """A type or a trait: its crate, the path of its module, and its name."""

    crate: str
    module: str
    name: str


@dataclass(eq=False)
class Function:
    """A function. `owner` is the type or trait that it is of, `trait` the trait that it is an implementation of."""

    file: "File"
    name: str
    owner: str
    trait: str
    is_public: bool
    is_test: bool
    line: int
    text: str
    signature: str
    contract: str
    body: str
    scope: Scope

    @property
    def label(self) -> str:
        return f"{self.owner}::{self.name}" if self.owner else self.name

    @property
    def returns(self) -> str:
        return self.signature.rpartition("->")[2] if "->" in self.signature else ""

    @property
    def is_law(self) -> bool:
        """Whether it has no parameter and no code: it is there for its contract."""
        return self.body == "{}" and "()" in self.signature


@dataclass
class Block:
    """What a type, an implementation or a trait says besides its functions: for contracts, all that is in braces."""

    name: str
    trait: str
    text: str
    scope: Scope


@dataclass
class File:
    """A file: its crate, the path of its module, and what stands in it."""

    crate: str
    module: str
    path: Path
    text: str
    imports: dict[str, list[str]]
    public_imports: set[str]
    scope: Scope
    types: dict[str, str] = field(default_factory=dict)
    functions: list[Function] = field(default_factory=list)
    blocks: list[Block] = field(default_factory=list)
    values: dict[str, str] = field(default_factory=dict)
    modules: set[str] = field(default_factory=set)


IMPORT = re.compile(r"^(pub(?:\(\w+\))? )?use ([^;]+);", re.MULTILINE)
FUNCTION = re.compile(r'^( *)((?:pub(?:\(\w+\))? |const |final |unsafe |extern "C" )*)fn (\w+)')
OPENED = re.compile(r"^(?:pub(?:\(\w+\))? )?(impl|trait)\b(?:<[^{]*?>(?= ))?\s*([^{]*)")
TYPE = re.compile(r"^(?:pub(?:\(\w+\))? )?(?:struct|enum|trait|type) (\w+)")
VALUE = re.compile(r"^(?:pub(?:\(\w+\))? )?(?:const|static) (\w+): (.*?) =", re.MULTILINE | re.DOTALL)


def flat(tree: str, before: tuple[str, ...] = ()) -> Iterator[tuple[str, list[str]]]:
    """The names that an import gives, each with its path."""
    depth, start = 0, 0
    for place, sign in enumerate(tree + ","):
        depth += (sign == "{") - (sign == "}")
        if sign != "," or depth:
            continue
        item = tree[start:place].strip()
        start = place + 1
        head, brace, inner = item.partition("{")
        if brace:
            yield from flat(inner.rpartition("}")[0], (*before, *filter(None, head.strip().split("::"))))
        elif item:
            path, _, alias = item.partition(" as ")
            parts = [*before, *path.split("::")]
            parts = parts[:-1] if parts[-1] == "self" else parts
            yield alias or parts[-1], parts


def last_line(lines: list[str], at: int, indent: str) -> int:
    """The line where the item that begins at a line ends: a bracket, or a semicolon, at its own indentation."""
    first = lines[at].rstrip()
    if first.endswith(("{}", ";")) and first.count("{") == first.count("}"):
        return at
    ends = (f"{indent}}}", f"{indent}{{}}")
    clauses = (f"{indent}    ensures", f"{indent}    requires", f"{indent})")
    for place in range(at + 1, len(lines)):
        line = lines[place]
        # A function of a trait that has no body ends with its last clause.
        if line.startswith(ends) or (line.endswith(";") and line.startswith(clauses)):
            return place
    return len(lines) - 1


def parts_of(lines: list[str], indent: str) -> tuple[str, str, str]:
    """The signature, the contract and the body of a function."""
    clauses = (f"{indent}    requires", f"{indent}    ensures")
    clause = next((at for at, line in enumerate(lines) if line.startswith(clauses)), 0)
    opens = next((at for at, line in enumerate(lines) if line.startswith((f"{indent}{{", f"{indent}}}"))), len(lines))
    if clause and clause < opens:
        return "\n".join(lines[:clause]), "\n".join(lines[clause:opens]), "\n".join(lines[opens:]).strip()
    end = next((at for at, line in enumerate(lines) if line.endswith(("{", "{}", ";"))), len(lines) - 1)
    body = "{" + "\n".join(lines[end + 1 :]) if lines[end].endswith("{") else "{}"
    return "\n".join(lines[: end + 1]).rstrip("{ "), "", body


def owner_of(head: str) -> tuple[str, str]:
    """The type and the trait of an implementation's head, as in `Walk for Walker<'a, V>`."""
    trait, found, name = head.partition(" for ")
    name = name if found else head
    return re.sub(r"^&(?:'\w+ )?(?:mut )?|[<:{ ].*", "", name.strip()), trait.strip() if found else ""


def read_block(file: File, lines: list[str], at: int, end: int) -> None:
    """The functions of lines, and what stands there besides them. The first line may be the head of an implementation."""
    opened = OPENED.match(lines[at])
    owner, trait = owner_of(opened[2]) if opened else ("", "")
    rest = [] if opened is None or opened[1] == "impl" else [lines[at]]
    scope = file.scope.joined(used("\n".join(lines[at:end]))) if opened else file.scope
    place = at
    while place <= end:
        found = FUNCTION.match(lines[place])
        if found is None or len(found[1]) != (4 if opened else 0):
            rest.append(lines[place])
            place += 1
            continue
        close = min(last_line(lines, place, found[1]), end)
        above = lines[max(place - 4, 0) : place]
        is_test = any(line.strip() == "#[test]" for line in above)
        text = lines[place : close + 1]
        signature, contract, body = parts_of(text, found[1])
        is_public = found[2].startswith("pub ")
        parts = (place + 1, "\n".join(text), signature, contract, body, scope)
        file.functions.append(Function(file, found[3], owner, trait, is_public, is_test, *parts))
        place = close + 1
    file.blocks.append(Block(owner, trait, "\n".join(rest), scope))


def read_file(crate: str, path: Path, source: Path) -> File:
    text = path.read_text()
    parts = [*path.relative_to(source).with_suffix("").parts]
    module = "" if parts in (["lib"], ["main"]) else "::".join(parts)
    file = File(crate, module, path, text, {}, set(), used("\n".join(re.findall(r"^ghost use .*$", text, re.MULTILINE))))
    for public, tree in IMPORT.findall(re.sub(r"^ *ghost use.*$", "", text, flags=re.MULTILINE)):
        names = dict(flat(" ".join(tree.split())))
        file.imports |= names
        file.public_imports |= set(names) if public else set()
    file.values = {name: kind for name, kind in VALUE.findall(text)}
    file.modules = set(re.findall(r"^pub mod (\w+);", text, re.MULTILINE))
    lines = text.splitlines()
    at = 0
    while at < len(lines):
        declared = TYPE.match(lines[at])
        is_block = OPENED.match(lines[at]) and not lines[at].endswith("{}")
        end = last_line(lines, at, "") if declared or is_block or FUNCTION.match(lines[at]) else at
        if declared:
            file.types[declared[1]] = "\n".join(lines[at : end + 1])
        if declared is None or is_block:
            read_block(file, lines, at, end)
        at = end + 1
    return file


@dataclass
class Code:
    """All files, by crate and module."""

    files: dict[tuple[str, str], File]

    def resolved(self, crate: str, module: str, name: str, depth: int = 0) -> Type | None:
        """The type, trait or function that a name means in a module; none where it is of no crate here."""
        file = self.files.get((crate, module))
        if file is None or depth > 9:
            return None
        if name in file.types or any(each.name == name and not each.owner for each in file.functions):
            return Type(crate, module, name)
        path = file.imports.get(name)
        if path is None or len(path) < 2:
            return None
        return self.at(crate, module, path, depth + 1)

    def at(self, crate: str, module: str, path: list[str], depth: int = 0) -> Type | None:
        """The same of a path."""
        home, steps = self.home(crate, module, path[:-1])
        found = self.resolved(home, steps, path[-1], depth)
        return found if found or len(path) < 2 else None

    def home(self, crate: str, module: str, path: list[str]) -> tuple[str, str]:
        """The crate and the module that a path means."""
        steps = [part for part in module.split("::") if part]
        if path and (path[0], "") in self.files and path[0] not in steps:
            return path[0], "::".join(path[1:])
        if path and path[0] == "crate":
            return crate, "::".join(path[1:])
        if path and path[0] == "self":
            return crate, "::".join([*steps, *path[1:]])
        while path and path[0] == "super":
            steps, path = steps[:-1], path[1:]
        inner = "::".join([*steps, *path])
        alias = self.files[(crate, module)].imports.get(path[0]) if path and (crate, inner) not in self.files else None
        if alias and alias[0] != path[0]:
            return self.home(crate, module, [*alias, *path[1:]])
        return crate, inner

    def functions(self) -> Iterator[Function]:
        for file in self.files.values():
            yield from file.functions

    def public_calls(self, crate: str) -> list[Function]:
        """The functions that a crate's users can call: those of exported types, and of exported modules."""
        root = self.files[(crate, "")]
        exported = {Type(crate, "", each.name) for each in root.functions}
        for name in root.public_imports:
            found = self.resolved(crate, "", name)
            exported |= {found} if found else set()
        calls = []
        for (home, module), file in self.files.items():
            for each in file.functions if home == crate else ():
                holder = self.resolved(crate, module, each.owner) if each.owner else Type(crate, module, each.name)
                opened = holder in exported or (module in root.modules and not each.owner)
                if each.is_public and not each.trait and opened and each.body:
                    calls.append(each)
        return calls


def read_code(top: Path) -> Code:
    code = Code({})
    for source in sorted(top.glob("crates/*/src")):
        crate = source.parent.name
        for path in sorted(source.rglob("*.rt")):
            file = read_file(crate, path, source)
            code.files[(crate, file.module)] = file
    return code
