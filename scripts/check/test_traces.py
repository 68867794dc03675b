"""Tests of what traces.py reads out of text. Run them here: python3 -m pytest test_traces.py (on Debian: python3-pytest)"""

from pathlib import Path

from trace_calls import Index, reached
from trace_code import Code, Function, read_code
from trace_links import cited, owners_of, packets_of
from trace_specs import Key, Specs, computed_by, read_specs

NUMBERS = """-- Numbers (SUBSET-026, chapter 7).
use Rattle.std.specs.Prelude.{ℕ, ◌+◌}

-- one more
abbrev pub next : ℕ → ℕ
next n = n + 1

pub data Asked : Type 0 where
  Up : ℕ → Asked
  Off : Asked

-- what is answered
abbrev pub answer : Asked → ℕ
answer (Up n) =
    twice (next n)
answer Off = nought

abbrev pub twice : ℕ → ℕ
twice next = next + next

abbrev pub nought : ℕ
nought = 0
"""
ROWS = """-- Worked rows.
use Rattle.balise_a.specs.Numbers.{answer, Up}
use Rattle.balise_a.specs.Numbers as numbers

abbrev pub IsTwo : Type 0
IsTwo = answer (Up 0) ≡ numbers.twice 1

pub record Has (next : ℕ) : Type 0 where
  pub answer : next ≡ 1
"""
LIB = """//! A crate.
mod held;
pub mod laws;
pub use held::{Held as Kept, start};
"""
HELD = """//! What is held.
ghost use Rattle.balise_a.specs.Numbers.{next, twice};

/// What is held.
pub struct Held {
    inner: Option<Inner>,
}

struct Inner {
    count: u32,
}

impl Held {
    ghost use Rattle.balise_a.specs.Numbers as numbers;

    /// The answer.
    pub fn answer(
        &self,
        more: u32,
    ) -> u32
        requires small { more < 10 }
        ensures {
            result ≡ numbers.answer more
        }
    {
        match &self.inner {
            Some(inner) => inner.grown(more),
            None => LIMIT,
        }
    }

    pub(crate) fn hidden(&self) -> u32 {
        helped()
    }
}

const LIMIT: u32 = 7;

impl Inner {
    // It is longer.
    fn grown(&self, next: u32) -> u32
        ensures { result ≡ twice next }
    {
        self.count + helped()
    }
}

fn helped() -> u32 {
    1
}

/// Begins.
pub fn start() -> Held
{
    Held { inner: None }
}
"""
LAWS = """//! Laws.
ghost use Rattle.balise_a.specs.Rows.{IsTwo};

pub fn is_two()
    ensures { IsTwo }
{}
"""
TESTS = """//! Tests.
use balise_a::{Kept, start};

fn asked(kept: &Kept) -> u32 {
    kept.answer(3)
}

#[test]
fn answers(rt: HostRuntime) {
    let kept = start();
    assert!(rt; asked(&kept) == 3);
}
"""


def written(top: Path) -> tuple[Specs, Code]:
    """Two crates of these texts."""
    texts = {
        "balise_a/specs/Numbers.antt": NUMBERS,
        "balise_a/specs/Rows.antt": ROWS,
        "balise_a/src/lib.rt": LIB,
        "balise_a/src/held.rt": HELD,
        "balise_a/src/laws.rt": LAWS,
        "balise_a_tests/src/lib.rt": TESTS,
    }
    for name, text in texts.items():
        path = top / "crates" / name
        path.parent.mkdir(parents=True, exist_ok=True)
        path.write_text(text)
    return read_specs(top), read_code(top)


def number(name: str, module: str = "Numbers") -> Key:
    return Key("balise_a", module, name)


def function(code: Code, label: str) -> Function:
    return next(each for each in code.functions() if each.label == label)


def test_definitions_with_what_they_cite(tmp_path: Path) -> None:
    specs, _ = written(tmp_path)
    answer = specs.definitions[number("answer")]
    assert answer.comment == "what is answered"
    assert answer.cites == {number("Asked"), number("twice"), number("next"), number("nought")}
    assert specs.heads[("balise_a", "Numbers")] == "Numbers (SUBSET-026, chapter 7)."
    assert not specs.missing


def test_what_binds_a_name_hides_a_definition(tmp_path: Path) -> None:
    specs, _ = written(tmp_path)
    assert specs.definitions[number("twice")].cites == set()
    assert specs.definitions[number("Has", "Rows")].cites == set()


def test_a_row_comes_to_clauses_of_its_cases_alone(tmp_path: Path) -> None:
    specs, _ = written(tmp_path)
    assert computed_by(specs, number("IsTwo", "Rows"), set()) == {number("answer"), number("twice"), number("next")}
    assert number("next") not in computed_by(specs, number("IsTwo", "Rows"), {number("next")})


def test_a_name_that_is_not_there(tmp_path: Path) -> None:
    written(tmp_path)
    path = tmp_path / "crates/balise_a/specs/Numbers.antt"
    path.write_text(path.read_text().replace("pub answer :", "pub answered :"))
    assert read_specs(tmp_path).missing == ["crates/balise_a/specs/Rows.antt: answer isn't in Numbers of balise_a"]


def test_public_calls_and_their_contracts(tmp_path: Path) -> None:
    specs, code = written(tmp_path)
    assert [each.label for each in code.public_calls("balise_a")] == ["Held::answer", "start", "is_two"]
    assert cited(function(code, "Held::answer"), specs) == {number("answer")}
    assert cited(function(code, "Inner::grown"), specs) == {number("twice")}
    assert function(code, "is_two").is_law and not function(code, "start").is_law
    assert function(code, "start").contract == "" and "inner: None" in function(code, "start").body


def test_calls_by_types(tmp_path: Path) -> None:
    _, code = written(tmp_path)
    index = Index(code)
    assert [each.label for each in index.calls_of(function(code, "Held::answer"))] == ["Inner::grown"]
    assert [each.label for each in index.calls_of(function(code, "Inner::grown"))] == ["helped"]
    inside = {each for each in code.functions() if each.file.crate == "balise_a_tests"}
    found = reached(index, function(code, "answers"), inside)
    assert {each.label: steps for each, steps in found.items()} == {"answers": 0, "asked": 1, "start": 1, "Held::answer": 2}


def test_the_function_of_a_mutation(tmp_path: Path) -> None:
    _, code = written(tmp_path)
    file = function(code, "helped").file

    def labels(old: str) -> list[str]:
        return [each.label for each in owners_of(old, file.functions, file.text)]

    assert labels("self.count + helped()") == ["Inner::grown"]
    assert labels("        helped()") == ["Held::hidden"]
    assert labels("const LIMIT: u32 = 7;") == ["Held::answer"]
    assert labels("not there") == []


def test_packets_in_digits() -> None:
    assert packets_of('codes "a1007f80a03250900f82" ++ padded 16') == {66}
    assert packets_of('codes "42403e0a"') == {66}
    assert packets_of('codes "a1007f80a0327f" ++ padded 19') == set()
