"""Reads the definitions of the repository, crates/*/specs/*.antt, as text: what each cites, and what a worked row computes.

The language is close to Agda. A module is a file. Its definitions stand at the beginning of a line, each after its
comment; a name of another module comes through a line `use`.
"""

import re
from dataclasses import dataclass, field
from pathlib import Path
from typing import NamedTuple


class Key(NamedTuple):
    """A definition: its crate, its module and its name."""

    crate: str
    module: str
    name: str


class Variant(NamedTuple):
    """A case of a type that the code declares, or of one that a definition declares."""

    home: str
    name: str


@dataclass
class Scope:
    """What names stand for: definitions, modules (in crate and module) and cases."""

    definitions: dict[str, Key] = field(default_factory=dict)
    modules: dict[str, tuple[str, str]] = field(default_factory=dict)
    cases: dict[str, Variant] = field(default_factory=dict)

    def joined(self, other: "Scope") -> "Scope":
        both = (self.definitions | other.definitions, self.modules | other.modules, self.cases | other.cases)
        return Scope(*both)


@dataclass
class Clause:
    """A case of a definition: the cases of types that it matches, those that it makes, and the definitions it cites."""

    matched: set[Variant]
    made: set[Variant]
    cites: set[Key]


@dataclass
class Definition:
    key: Key
    comment: str
    line: int
    text: str
    cites: set[Key]
    clauses: list[Clause]


USE = re.compile(
    r"^[ \t]*(?:ghost )?(?:pub )?use Rattle\.(\w+)\.specs\.([A-Za-z_][\w.]*?)(?:\.\{([^}]*)\})?(?: as (\w+))?;?[ \t]*$",
    re.MULTILINE,
)
WORD = re.compile(r"(?<![\w.'◌-])([A-Za-z_][\w'-]*)(?:\.([A-Za-z_][\w'-]*))?")
START = re.compile(r"(?:  )?(?:abbrev|unfoldable|opaque) (?:pub )?([\w'-]+)|pub (?:record|data) ([\w'-]+)|pub ([\w'-]+) :")
CASE = re.compile(r"^  ([A-Za-z_]\w*) :", re.MULTILINE)
FIELD = re.compile(r"^  pub [\w'-]+ :|(?<=[{;])\s*[\w'-]+ =(?!=)", re.MULTILINE)
BINDER = re.compile(r"[({]([\w' ]+) :|λ ((?:[\w']+ )*[\w']+)\.")


def used(text: str) -> Scope:
    """The names that the lines `use` of a text give."""
    scope = Scope()
    for crate, path, names, alias in USE.findall(text):
        parts = path.split(".")
        if alias:
            scope.modules[alias] = (crate, path)
        for name in re.findall(r"[A-Za-z_][\w'-]*(?: as [\w'-]+)?", names):
            first, _, own = name.partition(" as ")
            if parts[-1] == "TheVariants":
                scope.cases[own or first] = Variant(f"{crate}.{parts[-2]}", first)
            elif parts[0] not in ("declared", "contracts"):
                scope.definitions[own or first] = Key(crate, path, first)
    return scope


def bound(text: str) -> set[str]:
    """The names that binders of a text give."""
    return {name for pair in BINDER.findall(text) for name in " ".join(pair).split()}


def names_in(text: str, scope: Scope, cases: dict[Key, Variant], hidden: set[str]) -> tuple[set[Key], set[Variant]]:
    """The definitions that a text names, and the cases of types. A case that is imported as a definition is one."""
    keys: set[Key] = set()
    variants: set[Variant] = set()
    for word in WORD.finditer(text):
        name, after = word[1], word[2]
        if name in hidden:
            continue
        if name in scope.cases:
            variants.add(scope.cases[name])
        key = scope.definitions.get(name)
        if name in scope.modules and after:
            key = Key(*scope.modules[name], after)
        if key in cases:
            variants.add(cases[key])
        elif key is not None:
            keys.add(key)
    return keys, variants


@dataclass
class Module:
    """A file of definitions: the comment at its head, what names stand for in it, and the text of each definition."""

    crate: str
    name: str
    head: str
    scope: Scope
    texts: dict[Key, tuple[str, int, list[str]]]
    cases: dict[Key, Variant]


def comment_over(lines: list[str], at: int) -> str:
    above: list[str] = []
    while at > 0 and lines[at - 1].startswith("-- "):
        at -= 1
        above.insert(0, lines[at][3:])
    return " ".join(above)


def module_of(crate: str, path: Path) -> Module:
    text = path.read_text()
    lines = text.splitlines()
    starts = [(at, next(filter(None, found.groups()))) for at, line in enumerate(lines) if (found := START.match(line))]
    first_use = next((at for at, line in enumerate(lines) if line.startswith("use ")), 0)
    module = Module(crate, path.stem, comment_over(lines, first_use), used(text), {}, {})
    for place, (at, name) in enumerate(starts):
        end = starts[place + 1][0] if place + 1 < len(starts) else len(lines)
        inner = "  " if lines[at].startswith("  ") else ""
        body = [line.removeprefix(inner) for line in lines[at:end] if line and not line.startswith("--")]
        key = Key(crate, path.stem, name)
        module.texts[key] = (comment_over(lines, at), at + 1, body)
        module.scope.definitions[name] = key
        if body[0].startswith("pub data"):
            for case in CASE.findall("\n".join(body)):
                module.cases[Key(crate, path.stem, case)] = Variant(f"{crate}.{path.stem}", case)
    for case in module.cases:
        module.scope.definitions[case.name] = case
    return module


def split_clauses(name: str, body: list[str]) -> list[tuple[str, str]]:
    """The left and the right sides of a definition's clauses."""
    clauses: list[list[str]] = []
    for line in body[1:]:
        if line.startswith(f"{name} ") and " =" in line:
            clauses.append([line[len(name) :]])
        elif clauses:
            clauses[-1].append(line)
    pairs = []
    for lines in clauses:
        left, _, right = "\n".join(lines).replace(" =\n", " = \n", 1).partition(" = ")
        pairs.append((left, right))
    return pairs


def definition_of(module: Module, key: Key, cases: dict[Key, Variant], owners: dict[Key, Key]) -> Definition:
    comment, line, body = module.texts[key]
    text = FIELD.sub("", "\n".join(body))
    pairs = split_clauses(key.name, body)
    clauses: list[Clause] = []
    cites: set[Key] = set()
    for left, right in pairs:
        _, matched = names_in(left, module.scope, cases, set())
        known = module.scope.definitions
        lower = {name for name in re.findall(r"(?<![\w.])[a-z_][\w']*", left) if known.get(name) not in cases}
        right = FIELD.sub("", right)
        keys, made = names_in(right, module.scope, cases, bound(right) | lower)
        clauses.append(Clause(matched, made, keys))
        cites |= keys | {home for home in map(homes(owners), matched | made) if home}
    head = text if not pairs else body[0].partition(" : ")[2]
    cites |= names_in(head, module.scope, cases, bound(head))[0]
    return Definition(key, comment, line, "\n".join(body), cites - {key}, clauses)


class homes:
    """The definition that declares a case, if one does."""

    def __init__(self, owners: dict[Key, Key]) -> None:
        self.by_case = {Variant(f"{case.crate}.{case.module}", case.name): home for case, home in owners.items()}

    def __call__(self, case: Variant) -> Key | None:
        return self.by_case.get(case)


@dataclass
class Specs:
    """All definitions, the comment at the head of each module, and the cases that definitions declare, with their home."""

    definitions: dict[Key, Definition]
    heads: dict[tuple[str, str], str]
    cases: dict[Key, Variant]
    owners: dict[Key, Key]
    missing: list[str]


def owner_of(module: Module, case: Key) -> Key:
    """The definition that declares a case."""
    for key, (_, _, body) in module.texts.items():
        if body[0].startswith("pub data") and re.search(rf"^  {case.name} :", "\n".join(body), re.MULTILINE):
            return key
    raise KeyError(case)


def read_specs(top: Path) -> Specs:
    """The definitions of all crates, and the names that modules take from others which don't have them."""
    modules = [module_of(path.parts[-3], path) for path in sorted(top.glob("crates/*/specs/*.antt")) if path.stem != "Lib"]
    cases = {case: variant for module in modules for case, variant in module.cases.items()}
    owners = {case: owner_of(module, case) for module in modules for case in module.cases}
    specs = Specs({}, {}, cases, owners, [])
    for module in modules:
        specs.heads[(module.crate, module.name)] = module.head
        for key in module.texts:
            specs.definitions[key] = definition_of(module, key, cases, owners)
    for module in modules:
        for key in module.scope.definitions.values():
            if key not in specs.definitions and key not in cases and (top / "crates" / key.crate).exists():
                place = f"crates/{module.crate}/specs/{module.name}.antt"
                specs.missing.append(f"{place}: {key.name} isn't in {key.module} of {key.crate}")
    return specs


def computed_by(specs: Specs, row: Key, without: set[Key]) -> set[Key]:
    """The definitions that a worked row comes to: through clauses whose cases the row has, or what it computes makes.

    It doesn't go on to those of `without`.
    """
    live: set[Variant] = set()
    seen = {row}
    done: set[tuple[Key, int]] = set()
    grew = True
    while grew:
        grew = False
        for key in list(seen):
            definition = specs.definitions.get(key)
            for place, clause in enumerate(definition.clauses if definition else ()):
                if (key, place) in done or not clause.matched <= live:
                    continue
                done.add((key, place))
                grew = True
                live |= clause.made
                seen |= clause.cites - without
    return seen - {row}
