#!/usr/bin/env python3
"""Checks docs/TRACES.md: from each rule to its definitions, calls, worked rows and pages; from each call to its
definitions, mutations and tests.

usage: traces.py [--write] [FOLDER]

FOLDER is the top of the repository, else the one that this script is in. The page is made of the repository's text alone
(trace_specs.py, trace_code.py, trace_calls.py, trace_links.py), and of data/traces.json: what rightly has no row, with a
reason each, and where docs/FORMATS.md has the rules of a module. --write writes the page.

Status 0: all is right. 1: something isn't, one line each: the page isn't what the sources say; something has no row and
no reason, or a reason and a row; something names a definition that isn't there. 2: wrong usage.
"""

import re
import sys
from collections.abc import Iterable
from pathlib import Path
from typing import Any

from trace_links import RULES, Call, Links, read_links
from trace_specs import Key

TOP = Path(__file__).resolve().parents[2]
PAGE = Path("docs", "TRACES.md")
SECTION = re.compile(r"packets 5 and 136 in chapter 7|chapter 7|\b[3478]\.\d(?:\.\d)*")
OWN = re.compile(r"this project's")
HEAD = """# Traces

This page answers two questions. What carries a rule: its definitions, the public calls whose contracts cite them, the worked rows that compute them, and where a user reads it. And what a change of a rule or of a call touches: the contracts, mutations and tests that go with it. It is for a safety assessor, and for whoever changes a rule.

`scripts/check/traces.py --write` makes it of the repository's own text, and `make check` looks whether it still says what the sources say. Don't edit it. [DEFINITIONS.md](DEFINITIONS.md) says what each definition is, in the order in which they need one another; [WRONG_BODIES.md](WRONG_BODIES.md) says what the mutations are.

How to read the tables:

- A **call** is a public function of a crate, with its type: `Plan::set_field`. It is listed where its contract names the definition. "by `x`" means that no contract names it, but one names `x`, which cites it. "type `Plan`" means that it stands in what the type states once for all its calls: its value, its invariant, or how it implements a trait.
- A **helper** is a definition that serves one other definition of its module alone. It stands in that one's row.
- A **worked row** is listed where it comes to the definition: through clauses for cases that the row has. The text doesn't say which branch of an `if` is taken. Only the tables of packets are looked at more closely: a row is listed where its digits have such a packet.
- A **mutation** is a file of the crate's `must-fail/`. Those in the call's own text come first, then those in private functions that it comes to.
- A **test** is listed where its text comes to the call through functions of its own crate. Where a test of another crate is meant, it stands with that crate's name. Which function a text calls is found by the names of types, so a call by a type parameter isn't seen.
- "and 3 more" shortens a long list, the nearest first. The other direction has all: a call's row names each definition that its contract cites.
"""

LAWS = "A law has no parameters and no code: only its contract counts, so it has no mutation and no test."
SECTIONS = "The sections of UNISIG SUBSET-026 that are used, as the comments of the definitions and DEFINITIONS.md name them."
VARIABLES = (
    "Chapter 7, for users in [Variables](FORMATS.md#variables): `name_of` and `width_of` (Variables), and the forms of Packets "
    "and Telegram that have the variable."
)
ABOVE = (
    "Those that [DEFINITIONS.md](DEFINITIONS.md) names, and those whose comment names a section of the standard. The others are "
    "in the rows of the calls."
)
REASONS = "From `data/traces.json`. Everything else has its row, or `scripts/check/traces.py` fails."


def code(name: str) -> str:
    return f"`{name}`"


def some(names: Iterable[str], most: int) -> str:
    """Names, no more than so many of them."""
    each = list(dict.fromkeys(names))
    if len(each) <= most + 1:
        return ", ".join(each)
    return f"{', '.join(each[:most])} and {len(each) - most} more"


def table(*columns: str) -> list[str]:
    return [f"| {' | '.join(columns)} |", f"|{'---|' * len(columns)}"]


def line(*cells: str) -> str:
    return f"| {' | '.join(cells)} |"


def anchor(heading: str) -> str:
    return re.sub(r"[^\w\- ]", "", heading.lower()).replace(" ", "-")


def called(call: Call) -> str:
    return code(call.function.label if call.function.owner else f"{call.crate}::{call.function.label}")


class Page:
    """The text of the page."""

    def __init__(self, links: Links) -> None:
        self.links = links
        self.definitions = links.specs.definitions
        self.rows = {key: row for row in reversed(links.rows) for key in row.keys}
        self.lines = HEAD.splitlines()

    def text(self) -> str:
        self.sections()
        self.variables()
        self.modules()
        self.upper_rules()
        self.say("## Calls", LAWS)
        for crate, calls in self.links.calls.items():
            if calls:
                self.crate(crate, calls)
        self.reasons()
        return "\n".join(self.lines) + "\n"

    def say(self, *lines: str) -> None:
        """Adds lines, with an empty one before each."""
        for each in lines:
            self.lines += ["", each] if each else [""]

    def section_of(self, key: Key) -> str:
        """The section of the standard that a definition is of: its own comment's, else its module's."""
        comment = self.definitions[key].comment
        if OWN.search(comment):
            return "own"
        return ", ".join(dict.fromkeys(SECTION.findall(comment))) or self.section_of_module(key.crate, key.module)

    def section_of_module(self, crate: str, module: str) -> str:
        """The section of a module: that of its head, else those that docs/DEFINITIONS.md has for its definitions."""
        head = self.links.specs.heads[(crate, module)]
        rows = [row.section for key, row in self.rows.items() if key[:2] == (crate, module)]
        if OWN.search(head):
            return "own"
        found = SECTION.findall(head) or [part for text in rows for part in SECTION.findall(text)]
        return ", ".join(dict.fromkeys(found)) or "own"

    def sections(self) -> None:
        """Which modules and definitions are of each section."""
        found: dict[str, list[str]] = {}
        for crate, module in self.links.specs.heads:
            if crate == RULES and (module.endswith("Rows") or module == "Examples"):
                continue
            of_module = self.section_of_module(crate, module)
            if of_module != "own" or crate == RULES:
                name = module if crate == RULES else f"{module} ({crate})"
                for part in of_module.split(", "):
                    found.setdefault(part, []).append(name)
            for key in (key for key in self.definitions if key[:2] == (crate, module)):
                comment = self.definitions[key].comment
                if (parts := SECTION.findall(comment)) or OWN.search(comment):
                    for part in parts or ["own"]:
                        found.setdefault(part, []).append(f"{code(key.name)} of {module} ({crate})")
        self.say("## Sections of the standard", SECTIONS, "")
        self.lines += table("section", "modules and definitions")
        for part in sorted(found, key=lambda each: (each == "own", each)):
            title = "this project's own" if part == "own" else part
            self.lines.append(line(title, ", ".join(dict.fromkeys(found[part]))))

    def variables(self) -> None:
        """Each variable: its width, and the packets' tables and the header that have it."""
        names, widths = (self.definitions[Key(RULES, "Variables", name)].text for name in ("name_of", "width_of"))
        width = dict(re.findall(r"^width_of (\w+) = (\d+)$", widths, re.MULTILINE))
        self.say("### Variables of the standard", VARIABLES, "")
        self.lines += table("variable", "bits", "in")
        homes_of = ((RULES, "Packets"), (RULES, "Telegram"))
        forms = {key: each for key, each in self.definitions.items() if key[:2] in homes_of}
        for variant, name in re.findall(r'^name_of (\w+) = codes "(\w+)"$', names, re.MULTILINE):
            homes = [code(key.name) for key, each in forms.items() if re.search(rf"(plain|valued) {variant}\b", each.text)]
            self.lines.append(line(name, width[variant], ", ".join(homes)))

    def is_direct(self, key: Key) -> bool:
        return key in self.links.contracts or key in self.links.blocks

    def helpers(self) -> dict[Key, Key]:
        """The definitions that serve one other definition of their module alone, with that one."""
        found = {}
        for key in self.definitions:
            users = self.links.citing.get(key, set())
            (user,) = users if len(users) == 1 else (key,)
            if user != key and user[:2] == key[:2] and not self.is_direct(key) and key not in self.rows:
                found[key] = user
        return found

    def named_by(self, key: Key) -> list[str]:
        """The calls with code whose contracts name a definition, and the types whose invariants do."""
        calls = [called(call) for call in self.links.contracts.get(key, ()) if not call.function.is_law]
        return calls + [f"type {code(name)}" for name in sorted(self.links.blocks.get(key, ())) if name]

    def laws_of(self, key: Key) -> list[str]:
        laws = [call for call in self.links.contracts.get(key, ()) if call.function.is_law]
        return [called(call) for call in laws if call.function.file.module != "rows"]

    def calls_of(self, key: Key) -> str:
        """The calls whose contracts name a definition, or else the nearest ones that cite it; and its laws."""
        calls, laws = self.named_by(key), self.laws_of(key)
        parts = [some(calls, 6)] if calls else []
        seen, queue = {key}, [key]
        while queue and not parts:
            users = sorted({user for each in queue for user in self.links.citing.get(each, ())} - seen)
            named = [user for user in users if self.named_by(user)]
            parts += [f"by {code(user.name)}: {some(self.named_by(user), 3)}" for user in named[:3]]
            parts += [f"and by {len(named) - 3} more"] if len(named) > 3 else []
            laws += [law for user in users for law in self.laws_of(user)]
            seen |= set(users)
            queue = users
        if laws:
            parts.append(f"laws: {some(laws, 2)}")
        if not parts:
            parts.append("private contracts" if key in self.links.private else "worked rows alone")
        return "; ".join(parts)

    def modules(self) -> None:
        """The definitions of the rules, by module."""
        self.say("## Definitions of the rules", "Those of `crates/balise_rules/specs`, but for the worked rows themselves.")
        folded = self.helpers()
        for crate, module in self.links.specs.heads:
            if crate != RULES or module.endswith("Rows") or module == "Examples":
                continue
            keys = [key for key in self.definitions if key[:2] == (crate, module)]
            read = self.links.read.get(module)
            pages = [f"[{read[1:].replace('-', ' ')}](FORMATS.md{read})"] if read else []
            heads = dict.fromkeys(self.rows[key].heading for key in keys if key in self.rows)
            pages += [f"[{head}](DEFINITIONS.md#{anchor(head)})" for head in heads]
            section = self.section_of_module(crate, module).replace("own", "this project's own")
            self.say(f"### {module}", f"Section: {section}. To read: {', '.join(pages) or 'its comments'}.", "")
            self.lines += table("definition", "calls", "worked rows")
            for key in keys:
                if key not in folded:
                    self.definition(key, [each for each in keys if self.root(each, folded) == key and each != key])

    def root(self, key: Key, folded: dict[Key, Key]) -> Key:
        for _ in folded:
            if key not in folded:
                break
            key = folded[key]
        return key

    def definition(self, key: Key, helpers: list[Key]) -> None:
        names = code(key.name) + (f" with {', '.join(code(each.name) for each in helpers)}" if helpers else "")
        own = self.section_of(key)
        if own != self.section_of_module(key.crate, key.module):
            names += f" ({own})"
        rows = self.links.computed.get(key, [])
        shown = "each" if len(rows) == self.links.row_count else some((code(row.name) for row in rows), 4)
        self.lines.append(line(names, self.calls_of(key), shown))

    def upper_rules(self) -> None:
        """The definitions of other crates that a page or a section of the standard names."""
        self.say("## Definitions of the crates above", ABOVE)
        by_crate: dict[str, list[Key]] = {}
        for key in self.definitions:
            named = SECTION.search(self.definitions[key].comment)
            if key.crate != RULES and (key in self.rows or named):
                by_crate.setdefault(key.crate, []).append(key)
        for crate, keys in by_crate.items():
            self.lines += ["", f"### Definitions of {crate}", "", *table("definition", "section", "calls", "to read")]
            for key in keys:
                row = self.rows.get(key)
                page = f"[{row.heading}](DEFINITIONS.md#{anchor(row.heading)})" if row else ""
                self.lines.append(line(f"{code(key.name)} ({key.module})", self.section_of(key), self.calls_of(key), page))

    def crate(self, crate: str, calls: list[Call]) -> None:
        self.lines += ["", f"### {crate}", "", *table("call", "definitions of its contract", "mutations", "tests")]
        for call in calls:
            homes: dict[str, list[str]] = {}
            for key in sorted(call.cites):
                home = key.module if key.crate in (crate, RULES) else f"{key.crate} {key.module}"
                homes.setdefault(home, []).append(code(key.name))
            cites = "; ".join(f"{home}: {', '.join(names)}" for home, names in homes.items())
            if call.function.is_law:
                mutations, tests = "law", "law"
            else:
                mutations, tests = (some(map(code, names), 4) for names in (call.mutations, call.tests))
            cites = cites or ("the library's alone" if call.function.contract else "none")
            self.lines.append(line(code(call.function.label), cites, mutations or "none", tests or "none"))
        left = self.links.elsewhere[crate]
        if left:
            shown = "; ".join(f"{code(where)}: {', '.join(map(code, names))}" for where, names in sorted(left.items()))
            self.lines += ["", f"Mutations that no public call comes to by its text: {shown}."]

    def reasons(self) -> None:
        self.say("## What has no row, and why", REASONS, "")
        self.lines += table("without", "what", "why")
        for reason in self.links.reasons:
            self.lines.append(line(f"a {reason['without']}", ", ".join(map(code, reason["of"])), reason["why"]))


def lacking(links: Links) -> dict[str, set[str]]:
    """What has no row, by what it lacks."""
    found: dict[str, set[str]] = {"contract": set(), "mutation": set(), "test": set(), "citation": set()}
    for call in links.all_calls():
        if not call.function.contract:
            found["contract"].add(call.name)
        if not call.function.is_law and not call.mutations:
            found["mutation"].add(call.name)
        if not call.function.is_law and not call.tests:
            found["test"].add(call.name)
    for key in links.specs.definitions:
        if key.crate == RULES and not (key in links.citing or key in links.private or key in links.blocks):
            found["citation"].add(f"{key.module}.{key.name}")
    return found


def unexplained(links: Links) -> Iterable[str]:
    """What has no row and no reason, and reasons for nothing."""
    lacks = lacking(links)
    given: dict[str, set[str]] = {}
    reason: dict[str, Any]
    for reason in links.reasons:
        given.setdefault(reason["without"], set()).update(reason["of"])
    for what, names in lacks.items():
        for name in sorted(names - given.get(what, set())):
            yield f"{name} has no {what}, and data/traces.json gives no reason"
        for name in sorted(given.get(what, set()) - names):
            yield f"data/traces.json: {name} has a {what}, or is gone"
    for what in sorted(set(given) - set(lacks)):
        yield f"data/traces.json: there is nothing that is without a {what}"
    modules = {module for crate, module in links.specs.heads if crate == RULES}
    for module in sorted(set(links.read) - modules):
        yield f"data/traces.json: there is no module {module}"


def differences(path: Path, text: str) -> Iterable[str]:
    """The first lines of the page that aren't as they should be."""
    had = path.read_text().splitlines() if path.exists() else []
    due = text.splitlines()
    if had == due:
        return
    yield f"{PAGE}: it isn't what the sources say: run scripts/check/traces.py --write"
    for sign, ours, others in (("-", had, set(due)), ("+", due, set(had))):
        for each in [each for each in ours if each not in others][:5]:
            yield f"    {sign} {each[:150]}"


def main(arguments: list[str]) -> int:
    writes = arguments[:1] == ["--write"]
    rest = arguments[1:] if writes else arguments
    top = Path(rest[0]).resolve() if rest else TOP
    if len(rest) > 1 or not (top / "data" / "traces.json").exists():
        print("usage: traces.py [--write] [FOLDER]: the top of a repository that has data/traces.json", file=sys.stderr)
        return 2
    links = read_links(top)
    text = Page(links).text()
    if writes:
        (top / PAGE).write_text(text)
    faults = [*links.faults, *unexplained(links), *differences(top / PAGE, text)]
    for fault in faults:
        print(fault)
    calls, definitions = len(links.all_calls()), len(links.specs.definitions)
    print(f"traces: {calls} calls, {definitions} definitions, {len(faults)} faults")
    return 1 if faults else 0


if __name__ == "__main__":
    sys.exit(main(sys.argv[1:]))
