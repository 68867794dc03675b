"""Finds which functions a function calls, by the text alone.

Each name of a function's body gets a set of types that it may have: those that its declaration, or the answer of the
call that it comes from, names. A method is looked for in these types. So a call is missed only where the text doesn't
say what it is of, as with a trait that only a type parameter has.
"""

import re
from collections.abc import Iterable
from functools import cached_property

from trace_code import Code, File, Function, Type

Types = frozenset[Type]
NONE: Types = frozenset()
TOKEN = re.compile(
    r"""//[^\n]*|b?"(?:\\.|[^"\\])*"|b?'(?:\\.|[^'\\])'|'\w+|[A-Za-z_]\w*|\d\w*|::|->|=>|==|!=|<=|>=|&&|\|\||\.\.=?|\S"""
)
PAIRS = {"(": ")", "[": "]", "{": "}"}
WORDS = "as break const continue else false fn if in loop move mut pub ref return static true unsafe where while"
NO_NAMES = set(WORDS.split())


def tokens_of(text: str) -> list[str]:
    return [each for each in TOKEN.findall(text) if not each.startswith(("//", '"', 'b"', "'", "b'"))]


def closing(tokens: list[str], at: int) -> int:
    """The place of the bracket that closes the one at a place."""
    depth = 0
    for place in range(at, len(tokens)):
        depth += (tokens[place] in "([{") - (tokens[place] in ")]}")
        if depth == 0:
            return place
    return len(tokens)


def until(tokens: list[str], at: int, ends: Iterable[str]) -> int:
    """The next place of one of some tokens, outside of brackets."""
    while at < len(tokens) and tokens[at] not in ends:
        at = closing(tokens, at) + 1 if tokens[at] in PAIRS else at + 1
    return min(at, len(tokens))


class Index:
    """The functions of all types, and the types of their fields."""

    def __init__(self, code: Code) -> None:
        self.code = code
        self.methods: dict[Type, dict[str, list[Function]]] = {}
        self.free: dict[Type, Function] = {}
        self.cache: dict[tuple[str, str, str], Types] = {}
        self.called: dict[Function, list[Function]] = {}
        for each in code.functions():
            file = each.file
            if not each.owner:
                self.free[Type(file.crate, file.module, each.name)] = each
            # A method of a trait is looked for in the trait too, where it may be that of each implementation.
            for owner in filter(None, (each.owner, re.sub(r"<.*", "", each.trait))):
                for home in self.types_in(owner, file):
                    self.methods.setdefault(home, {}).setdefault(each.name, []).append(each)

    def types_in(self, text: str, file: File) -> Types:
        """The types that a text of a file names."""
        found: Types = NONE
        for name in set(re.findall(r"\b[A-Z]\w*", text)):
            key = (file.crate, file.module, name)
            if key not in self.cache:
                self.cache[key] = self.meant(name, file)
            found |= self.cache[key]
        return found

    def meant(self, name: str, file: File) -> Types:
        home = self.code.resolved(file.crate, file.module, name)
        if home is None:
            return NONE
        declared = self.code.files[(home.crate, home.module)]
        text = declared.types.get(home.name, "")
        alias = re.match(r"(?:pub(?:\(\w+\))? )?type \w+ = (.*);", text)
        return self.types_in(alias[1], declared) if alias else frozenset({home})

    @cached_property
    def fields(self) -> dict[Type, dict[str, Types]]:
        """The types of each field of each type, and under `*` all of them."""
        found: dict[Type, dict[str, Types]] = {}
        for file in self.code.files.values():
            for name, text in file.types.items():
                body = text.partition("{")[2] or text.partition("(")[2]
                fields = dict(re.findall(r"^    (?:pub(?:\(\w+\))? )?(\w+): (.*?),$", body, re.MULTILINE))
                home = Type(file.crate, file.module, name)
                found[home] = {each: self.types_in(kind, file) for each, kind in fields.items()}
                found[home]["*"] = self.types_in(body, file)
        return found

    def inside(self, types: Types, name: str) -> Types:
        """The types of a field of some types; of all fields where none has the name."""
        named = [self.fields[each][name] for each in types if name in self.fields.get(each, {})]
        return NONE.union(*named) if named else types

    def calls_of(self, function: Function) -> list[Function]:
        """The functions that a function's text calls, in the order in which they stand in the repository."""
        if function not in self.called:
            reader = Body(self, function)
            reader.region(0, len(reader.tokens))
            self.called[function] = sorted(reader.found - {function}, key=lambda each: (each.file.path, each.line))
        return self.called[function]


class Body:
    """Goes over a function's body, with the types that each name may have."""

    def __init__(self, index: Index, function: Function) -> None:
        self.index = index
        self.function = function
        self.tokens = tokens_of(function.body)
        self.found: set[Function] = set()
        self.own = index.types_in(function.owner, function.file) if function.owner else NONE
        self.names: dict[str, Types] = {"self": self.own, "Self": self.own}
        self.arms: list[tuple[int, int, Types]] = []
        self.depth = 0
        self.round = 0
        self.arm = 0
        self.parameters()

    def parameters(self) -> None:
        signature = self.function.signature
        bounds = dict(re.findall(r"\b([A-Z]\w*): ([^,>]+)", signature))
        for name, kind in re.findall(r"\b([a-z_]\w*): ([^\n]*?)(?=,\s|,?\s*\)|$)", signature):
            kind += " ".join(bounds.get(each, "") for each in re.findall(r"\b[A-Z]\w*", kind))
            self.names[name] = self.index.types_in(kind, self.function.file)

    def within(self, at: int, lent: Types = NONE) -> tuple[Types, int]:
        """Goes over what stands in the bracket that opens at a place, and gives the place after it."""
        close = closing(self.tokens, at)
        self.round += 1
        types = self.region(at + 1, close, lent)
        self.round -= 1
        return types, close + 1

    def region(self, at: int, end: int, lent: Types = NONE) -> Types:
        """Goes over some tokens. `lent` is what a closure among them is given."""
        types = NONE
        while at < end:
            found, at = self.step(at, end, lent)
            types |= found
        return types

    def step(self, at: int, end: int, lent: Types) -> tuple[Types, int]:
        token = self.tokens[at]
        if token == "let":
            return self.let(at)
        if token == "for":
            return self.loop(at)
        if token == "match":
            opens = until(self.tokens, at + 1, "{")
            types = self.region(at + 1, opens)
            self.arms.append((self.depth + 1, self.round, types))
            return NONE, opens
        if token in ("|", "||") and self.tokens[at - 1] in ("(", ",", "=", "move"):
            closes = at if token == "||" else until(self.tokens, at + 1, "|")
            self.bind(self.tokens[at + 1 : closes], lent)
            return NONE, closes + 1
        if token in ("{", "}", "=>", ","):
            self.in_match(token, at)
            return NONE, at + 1
        if token in ("(", "[") or (re.match(r"[A-Za-z_]", token) and token not in NO_NAMES):
            return self.chain(at)
        return NONE, at + 1

    def in_match(self, token: str, at: int) -> None:
        """Follows brackets, and the arms of a match: what stands before `=>` is a pattern."""
        self.depth += (token == "{") - (token == "}")
        if self.arms and self.depth < self.arms[-1][0]:
            self.arms.pop()
        if not self.arms or self.depth != self.arms[-1][0] or (token == "," and self.round != self.arms[-1][1]):
            return
        if token == "=>":
            self.bind(self.tokens[self.arm : at], self.arms[-1][2])
        self.arm = at + 1

    def let(self, at: int) -> tuple[Types, int]:
        equals = until(self.tokens, at + 1, ("=", ";"))
        is_test = self.tokens[at - 1] in ("if", "while", "&&")
        end = until(self.tokens, equals + 1, ("{", "&&") if is_test else (";", "else"))
        if not is_test and "match" in self.tokens[equals : equals + 2]:
            end = until(self.tokens, equals + 1, ";")
        pattern = self.tokens[at + 1 : equals]
        types = self.region(equals + 1, end)
        if ":" in pattern:
            types |= self.index.types_in(" ".join(pattern[pattern.index(":") :]), self.function.file)
        self.bind(pattern, types)
        return NONE, max(end, at + 1)

    def loop(self, at: int) -> tuple[Types, int]:
        word = until(self.tokens, at + 1, ("in",))
        opens = until(self.tokens, word + 1, ("{",))
        types = self.region(word + 1, opens)
        self.bind(self.tokens[at + 1 : word], types | self.method(types, "next"))
        return NONE, max(opens, at + 1)

    def bind(self, pattern: list[str], types: Types) -> None:
        """Gives the names of a pattern their types: those of a field of that name, else of what the pattern takes apart."""
        apart = types
        if any(re.match(r"[A-Z]", each) and each not in ("Some", "Ok", "Err", "None") for each in pattern):
            apart = types.union(*(self.index.fields.get(each, {}).get("*", NONE) for each in types))
        for name in pattern:
            if re.match(r"[a-z_]", name) and name not in NO_NAMES:
                inside = self.index.inside(types, name) if "{" in pattern else types
                self.names[name] = inside if inside != types else apart

    def chain(self, at: int) -> tuple[Types, int]:
        """A name or a bracket, and the fields and calls after it."""
        tokens = self.tokens
        if tokens[at] in PAIRS:
            types, at = self.within(at)
        else:
            types, at = self.name(at)
        while at < len(tokens):
            if tokens[at] in ("(", "["):
                if tokens[at] == "[":
                    types |= self.method(types, "index") | self.method(types, "index_mut")
                _, at = self.within(at, types)
            elif tokens[at] == "." and at + 1 < len(tokens):
                types, at = self.after_dot(types, at + 1)
            elif tokens[at] == "?":
                at += 1
            else:
                break
        return types, at

    def after_dot(self, types: Types, at: int) -> tuple[Types, int]:
        tokens, name = self.tokens, self.tokens[at]
        at += 1
        if tokens[at : at + 2] == ["::", "<"]:
            at = until(tokens, at, ("(",))
        if tokens[at : at + 1] != ["("]:
            return self.index.inside(types, name), at
        found = self.method(types, name)
        return found, self.within(at, types)[1]

    def method(self, types: Types, name: str) -> Types:
        """What a call of a method gives. One that no type here has is the library's, and gives some of the same types."""
        candidates = {each for home in types for each in self.index.methods.get(home, {}).get(name, ())}
        self.found |= candidates
        return NONE.union(*(self.given(each, types) for each in candidates)) if candidates else types

    def given(self, function: Function, types: Types) -> Types:
        found = self.index.types_in(function.returns, function.file)
        if re.search(r"\bSelf\b", function.returns):
            found |= self.index.types_in(function.owner, function.file)
        return found | types if re.search(r"\b[A-Z]\b", function.returns) else found

    def name(self, at: int) -> tuple[Types, int]:
        """A name or a path at a place: what it may be, and the place after it."""
        tokens = self.tokens
        path = [tokens[at]]
        at += 1
        while tokens[at : at + 1] == ["::"] and at + 1 < len(tokens):
            if tokens[at + 1] == "<":
                at = until(tokens, at, ("(", ";", ","))
                break
            path.append(tokens[at + 1])
            at += 2
        if tokens[at : at + 1] == ["!"] and tokens[at + 1 : at + 2] and tokens[at + 1] in PAIRS:
            return self.within(at + 1)
        return self.meant(path), at

    def meant(self, path: list[str]) -> Types:
        file = self.function.file
        if len(path) == 1 and path[0] in self.names:
            return self.names[path[0]]
        if len(path) == 1 and path[0] in file.values:
            return self.index.types_in(file.values[path[0]], file)
        home = self.index.code.at(file.crate, file.module, path) if len(path) > 1 else None
        home = home or (self.index.code.resolved(file.crate, file.module, path[0]) if len(path) == 1 else None)
        if home in self.index.free:
            function = self.index.free[home]
            self.found.add(function)
            return self.given(function, NONE)
        if len(path) == 1:
            return frozenset({home}) if home else NONE
        types = self.own if path[-2] == "Self" else self.index.types_in(path[-2], file)
        return self.method(types, path[-1])


def reached(index: Index, start: Function, inside: set[Function]) -> dict[Function, int]:
    """The functions that a function comes to through those of a set, each with the number of calls on the way."""
    found = {start: 0}
    queue = [start]
    for each in queue:
        for called in index.calls_of(each) if each in inside or each is start else ():
            if called not in found:
                found[called] = found[each] + 1
                queue.append(called)
    return found
