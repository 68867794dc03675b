"""Joins what the repository's text says: which call's contract cites a definition, which mutations and tests a call has."""

import json
import re
from collections.abc import Iterable
from dataclasses import dataclass, field
from pathlib import Path
from typing import Any

from trace_calls import Index, reached
from trace_code import Code, File, Function, read_code
from trace_specs import Key, Specs, Variant, bound, computed_by, names_in, read_specs

RULES = "balise_rules"
OF_PROGRAMS = ("balise_bench", "baliseplan")
CLAUSE = re.compile(r"^\s*(?:requires|ensures)\*? ?\w* ?\{", re.MULTILINE)
GHOST = re.compile(r"^\s*ghost (?!use\b)[^\n]*", re.MULTILINE)
NUMBERED = re.compile(r"packet (\d+), ")
DIGITS = re.compile(r'codes "([0-9a-f]{2,})"')


@dataclass
class Call:
    """A public call: what its contract cites, and its mutations and tests, the nearest first."""

    function: Function
    cites: set[Key]
    mutations: list[str] = field(default_factory=list)
    tests: list[str] = field(default_factory=list)

    @property
    def crate(self) -> str:
        return self.function.file.crate

    @property
    def name(self) -> str:
        """Its name in the data: with its crate."""
        return f"{self.crate}::{self.function.label}"


@dataclass
class Row:
    """A row of docs/DEFINITIONS.md: its heading, what it is of, its sections of the standard, and its definitions."""

    heading: str
    notion: str
    section: str
    keys: list[Key]


@dataclass
class Links:
    """All of it. `reasons` has the reasons of the data, `read` the heading of docs/FORMATS.md that has a module's rules."""

    specs: Specs
    code: Code
    index: Index
    calls: dict[str, list[Call]]
    rows: list[Row]
    reasons: list[dict[str, Any]]
    read: dict[str, str]
    citing: dict[Key, set[Key]] = field(default_factory=dict)
    contracts: dict[Key, list[Call]] = field(default_factory=dict)
    blocks: dict[Key, set[str]] = field(default_factory=dict)
    private: set[Key] = field(default_factory=set)
    computed: dict[Key, list[Key]] = field(default_factory=dict)
    elsewhere: dict[str, dict[str, list[str]]] = field(default_factory=dict)
    faults: list[str] = field(default_factory=list)
    row_count: int = 0

    def all_calls(self) -> list[Call]:
        return [call for calls in self.calls.values() for call in calls]


def cited(function: Function, specs: Specs) -> set[Key]:
    """The definitions that a contract names. What binds a name in it hides a definition of that name."""
    text = CLAUSE.sub("", function.contract)
    parameters = set(re.findall(r"\b([a-z_]\w*):", function.signature))
    keys, made = names_in(text, function.scope, specs.cases, bound(text) | parameters)
    homes = {Variant(f"{case.crate}.{case.module}", case.name): home for case, home in specs.owners.items()}
    return {key for key in keys | {homes[each] for each in made if each in homes} if key in specs.definitions}


def is_code(crate: str) -> bool:
    return not crate.endswith("_tests") and not crate.startswith(OF_PROGRAMS) and crate != "balise_tests"


def owners_of(old: str, functions: list[Function], text: str) -> list[Function]:
    """The function that the old text of a mutation is of: the first that has it as a line, else as a part of one. Where it
    is a constant, the functions that name that."""
    whole = [each for each in functions if old in each.text.splitlines()]
    some = whole or [each for each in functions if old.strip() in each.text]
    constant = re.match(r"\s*(?:pub(?:\(\w+\))? )?(?:const|static) (\w+):", old)
    if not some and constant and old.strip() in text:
        return [each for each in functions if re.search(rf"\b{constant[1]}\b", each.body)]
    return some[:1]


def mutations(top: Path, code: Code, faults: list[str]) -> dict[Function, list[str]]:
    """The mutations of each function."""
    files = {file.path: file for file in code.files.values()}
    found: dict[Function, list[str]] = {}
    for edit in sorted(top.glob("crates/*/must-fail/*.edit")):
        parts = [line.partition(": ") for line in edit.read_text().splitlines()]
        path = edit.parents[1] / next(value for name, _, value in parts if name == "file")
        file = files.get(path)
        olds = [value for name, _, value in parts if name == "old"]
        owners = [each for old in olds for each in (owners_of(old, file.functions, file.text) if file else ())]
        if not owners:
            faults.append(f"{edit.relative_to(top)}: its old text is in no function")
        for owner in dict.fromkeys(owners):
            found.setdefault(owner, []).append(edit.stem)
    return found


class Reach:
    """What the calls of a crate come to inside it: what they call, and how the types that this names implement the traits
    that go over something."""

    def __init__(self, index: Index, crate: str) -> None:
        self.index = index
        own = [each for each in index.code.functions() if each.file.crate == crate]
        self.inside = set(own)
        # What a type's own functions call of it shows by itself.
        self.named = {each: index.types_in(each.text, each.file) - index.types_in(each.owner, each.file) for each in own}
        over = [each for each in own if re.match(r"Walk|Visit|Layout|Iterator|Serialize|Repeated", each.trait)]
        self.over = {each: index.types_in(each.owner, each.file) for each in over}

    def of(self, function: Function) -> list[Function]:
        """The functions that a call comes to, the nearest first."""
        found = reached(self.index, function, self.inside)
        queue = list(found)
        for each in queue:
            for one, types in self.over.items():
                if one not in found and types & self.named.get(each, frozenset()):
                    more = reached(self.index, one, self.inside)
                    queue += [new for new in more if new not in found]
                    found = {new: found[each] + steps + 5 for new, steps in more.items()} | found
        own = (each for each in found if each in self.inside)
        return sorted(own, key=lambda each: (found[each], each.file.path, each.line))


def join_mutations(top: Path, links: Links) -> None:
    found = mutations(top, links.code, links.faults)
    for crate, calls in links.calls.items():
        left = {each: names for each, names in found.items() if each.file.crate == crate}
        reach = Reach(links.index, crate)
        for call in calls:
            near = reach.of(call.function)
            call.mutations = list(dict.fromkeys(name for each in near for name in found.get(each, ())))
            for each in near:
                left.pop(each, None)
        links.elsewhere[crate] = {}
        for each, names in left.items():
            where = f"{each.trait} for {each.owner}" if each.trait else each.label
            links.elsewhere[crate].setdefault(where, []).extend(names)


def join_tests(links: Links) -> None:
    """The tests of each call: those of its crate's tests and of whole runs; where there is none, those of other crates."""
    functions = list(links.code.functions())
    by_function = {call.function: call for call in links.all_calls()}
    found: dict[Function, list[tuple[int, str, str]]] = {}
    inside: dict[str, set[Function]] = {}
    for each in functions:
        if not is_code(each.file.crate) or each.file.module.split("::")[0] == "tests":
            inside.setdefault(each.file.crate, set()).add(each)
    for test in (each for each in functions if each.is_test):
        for each, steps in reached(links.index, test, inside[test.file.crate]).items():
            if each in by_function:
                found.setdefault(each, []).append((steps, test.file.crate, test.name))
    for function, tests in found.items():
        crate = function.file.crate
        own = [test for test in tests if test[1] in (crate, f"{crate}_tests", "balise_tests")]
        near = sorted(own or tests, key=lambda test: (test[1] == "balise_tests", test[0], test[2]))
        names = [name if home in (crate, f"{crate}_tests") else f"{home}::{name}" for _, home, name in near]
        by_function[function].tests = list(dict.fromkeys(names))


def packets_of(text: str) -> set[int]:
    """The numbers of the packets in the digits of a definition: of telegrams, and of packets alone."""
    numbers: set[int] = set()
    for digits in DIGITS.findall(text):
        bits = "".join(f"{int(digit, 16):04b}" for digit in digits)
        at = 50 if len(digits) >= 13 and digits[2:6] in ("007f", "04ff", "157f", "247f") else 0
        while at + 23 <= len(bits) and (number := int(bits[at : at + 8], 2)) not in (0, 255):
            numbers.add(number)
            at += max(int(bits[at + 10 : at + 23], 2), 23)
    return numbers


def join_rows(links: Links) -> None:
    """The worked rows that come to each definition. A packet's table is come to where the digits have such a packet."""
    definitions = links.specs.definitions
    tables = {key: int(found[1]) for key, each in definitions.items() if (found := NUMBERED.match(each.comment))}
    rows = [key for key in definitions if key.crate == RULES and key.module.endswith("Rows") and key in links.contracts]
    links.row_count = len(rows)
    for row in rows:
        seen = computed_by(links.specs, row, set(tables)) | {row}
        numbers = set().union(*(packets_of(definitions[key].text) for key in seen if key in definitions))
        for key in computed_by(links.specs, row, {key for key, number in tables.items() if number not in numbers}):
            links.computed.setdefault(key, []).append(row)


def table_rows(text: str) -> Iterable[tuple[str, dict[str, str]]]:
    """The rows of a page's tables, each with the heading that it stands under."""
    heading = ""
    names: list[str] = []
    for line in text.splitlines():
        if line.startswith("## "):
            heading = line[3:]
        cells = [cell.strip() for cell in line.strip()[1:-1].split("|")] if line.startswith("|") else []
        if not cells:
            names = []
        elif not names:
            names = cells
        elif not line.startswith("|---"):
            yield heading, dict(zip(names, cells))


def read_rows(top: Path, specs: Specs, code: Code, faults: list[str]) -> list[Row]:
    """The rows of docs/DEFINITIONS.md with the definitions that they name."""
    types = {name for file in code.files.values() for name in file.types}
    rows = []
    for heading, cells in table_rows((top / "docs" / "DEFINITIONS.md").read_text()):
        if "definition" not in cells:
            continue
        row = Row(heading, cells["notion"], cells.get("section", ""), [])
        for names, modules in re.findall(r"((?:[^()]*?`[^`]+`)+)[^()]*?\(([^)]*)\)", cells["definition"]):
            crates = re.findall(r"balise_\w+", modules)
            homes = [key for key in specs.definitions if key.module in re.findall(r"\b[A-Z]\w+", modules)]
            homes = [key for key in homes if key.crate in crates or not crates]
            for name in re.findall(r"`([^`]+)`", names):
                found = [key for key in homes if key.name == name]
                row.keys += found[:1]
                if not found and name not in types:
                    faults.append(f"docs/DEFINITIONS.md: there is no definition {name} ({modules})")
        rows.append(row)
    return rows


def read_links(top: Path) -> Links:
    specs, code = read_specs(top), read_code(top)
    faults = list(specs.missing)
    data = json.loads((top / "data" / "traces.json").read_text())
    tiers = re.findall(r"^(\w+)(?: staticlib)?:", (top / "crates.txt").read_text(), re.MULTILINE)
    crates = [crate for crate in tiers if is_code(crate) and (crate, "") in code.files]
    calls = {crate: [Call(each, cited(each, specs)) for each in code.public_calls(crate)] for crate in crates}
    rows = read_rows(top, specs, code, faults)
    links = Links(specs, code, Index(code), calls, rows, data["without"], data["read"], faults=faults)
    for definition in specs.definitions.values():
        for key in definition.cites:
            links.citing.setdefault(key, set()).add(definition.key)
    for call in links.all_calls():
        for key in call.cites:
            links.contracts.setdefault(key, []).append(call)
    for file in code.files.values():
        if is_code(file.crate):
            join_private(top, links, file)
    join_mutations(top, links)
    join_tests(links)
    join_rows(links)
    return links


def join_private(top: Path, links: Links, file: File) -> None:
    """What a file cites besides public contracts: private ones, invariants. And what it cites that isn't there."""
    specs = links.specs
    for function in file.functions:
        links.private |= cited(function, specs)
    for block in file.blocks:
        for text in GHOST.findall(block.text):
            for key in names_in(text, block.scope, specs.cases, bound(text))[0]:
                links.blocks.setdefault(key, set()).add(block.name)
    given = {key for block in file.blocks for key in block.scope.definitions.values()}
    for key in sorted(given - set(specs.definitions) - set(specs.cases)):
        if (key.crate, "") in links.code.files:
            links.faults.append(f"{file.path.relative_to(top)}: {key.name} isn't in {key.module} of {key.crate}")
