#!/usr/bin/env python3
"""Tests the checks: runs each with programs that are wrong on purpose, which it has to find. usage: selftest.py PROGRAM

A wrong program is PROGRAM with one of its calls changed: see WRONG. Each check is run over small inputs, with PROGRAM
itself, which has to be right (0), and with each wrong program that it is to find (1). So a check that can't fail shows,
and so does one that hangs where the program does. Needs cc and the tools of the checks.
Ends with 0; with 1 if a check didn't find a wrong program; with 2 if a check couldn't be run.
"""

import os
import shlex
import shutil
import subprocess
import sys
import tempfile
from collections.abc import Iterator
from concurrent.futures import ThreadPoolExecutor
from dataclasses import dataclass
from pathlib import Path

import planted_facts
import planted_fields
from planted import FAULTS
from runs import NOT_RUN, RIGHT, WRONG, Missing, ended, need
from wrong_dists import WRONG_DISTS

HERE = Path(__file__).resolve().parent
TOP = HERE.parents[1]
KINDS = {
    "77": "always ends with 77",
    "drops": "drops a line",
    "adds": "prints a line too much",
    "hangs": "hangs",
    "ignores": "ignores a failed write",
    "1": "always ends with 1",
    "warns": "prints to standard error",
    "needs": "needs memory for each read",
    "slow": "takes time that grows with the square of the input",
}
"""The kinds of wrong programs, in the order of the enumeration in wrong_calls.c."""
SECONDS = {"hangs": "1"}
"""What a run may take, where it isn't 30 s."""
MOST = 300
OUTPUT = "77 drops adds hangs"
"""What each check finds that looks at all of the output."""


@dataclass(frozen=True)
class Check:
    """A check of a program, over small inputs, and the kinds of wrong programs that it has to find."""

    name: str
    words: tuple[str, ...]
    finds: str


PYTHON = sys.executable
PLAN = str(TOP / "examples" / "refused.plan")
CHECKS = (
    *(
        Check(f"examples.py {kind}", (PYTHON, "examples.py", "{}", kind), f"{OUTPUT} {more}")
        for kind, more in {
            "examples": "1 warns",
            "rows": "1 warns",
            "formats": "1 warns",
            "guide": "warns",
            "manual": "warns",
            "strike": "",
        }.items()
    ),
    Check("statuses.sh", ("bash", "statuses.sh", "{}"), f"{OUTPUT} ignores 1 warns"),
    Check("pairs.sh", ("bash", "pairs.sh", "{}", "6"), f"{OUTPUT} warns"),
    Check("no_growth.py", (PYTHON, "no_growth.py", "{}"), f"{OUTPUT} needs"),
    Check("refuse_growths.py", (PYTHON, "refuse_growths.py", "{}", PLAN, "--own-flags"), "77 hangs 1 warns needs"),
    Check("fail_devices.py", (PYTHON, "fail_devices.py", "{}", PLAN), "77 hangs ignores 1 warns"),
    Check("damage_inputs.py", (PYTHON, "damage_inputs.py", "{}", PLAN), f"{OUTPUT} 1 warns"),
    Check("compare.py", (PYTHON, "../../reference/compare.py", "{}", "1", "20", "-j", "1"), f"{OUTPUT} 1 warns"),
    Check("hostile_loads.py", (PYTHON, "../bench/hostile_loads.py", "{}", "drops-of-the-first"), "77 hangs 1 slow"),
    Check("desk.sh", ("bash", "desk.sh", "{}", "--week"), f"{OUTPUT} 1"),
)
"""The checks that run a program. {} is its place."""

Task = tuple[str, str, list[str], int, str]
"""A check, the program that it is run with, its words, the status that is due, and what a run may take."""


def compile_c(made: Path, source: str, *flags: str) -> Path:
    subprocess.run(["cc", "-O2", "-o", made, *flags, HERE / source], check=True)
    return made


def wrong_programs(program: str, folder: Path) -> dict[str, Path]:
    """A wrong program of each kind."""
    made = {}
    for number, kind in enumerate(KINDS):
        calls = compile_c(folder / f"{kind}.so", "wrong_calls.c", "-shared", "-fPIC", f"-DWRONG={number}")
        names = (f'-DPROGRAM="{program}"', f'-DWRONG_CALLS="{calls}"')
        made[kind] = compile_c(folder / f"baliseplan_{kind}", "wrong_program.c", "-static", *names)
    return made


def of_programs(program: str, folder: Path) -> Iterator[Task]:
    """Each check with the program and with each wrong one that it has to find."""
    wrong = wrong_programs(program, folder)
    keep = str(folder / "differences")
    for check in CHECKS:
        more = ["--keep", keep] if check.name == "compare.py" else []
        for kind in ("", *check.finds.split()):
            tried = str(wrong[kind]) if kind else program
            words = [word.replace("{}", tried) for word in check.words] + more
            yield check.name, KINDS.get(kind, "is right"), words, WRONG if kind else RIGHT, SECONDS.get(kind, "30")


def of_tests(folder: Path) -> Iterator[Task]:
    """The checks of pages, tables and tests, which run no program: over copies that are damaged."""
    ample = "test_with_ample_memory"
    yield "test_growths.py", "is right", growths(folder, 0, 0), RIGHT, "30"
    yield "test_growths.py", "is right, with ample memory", growths(folder, 0, 1, ample), RIGHT, "30"
    yield "test_growths.py", "ends badly without memory", growths(folder, 0, 1), WRONG, "30"
    yield "test_growths.py", "doesn't see that memory isn't ample", growths(folder, 0, 0, ample), WRONG, "30"
    yield "test_growths.py", "always ends with 77", growths(folder, 77, 77), WRONG, "30"
    page = folder / "pages" / "README.md"
    page.parent.mkdir()
    page.write_text("[a page](docs/NOT_THERE.md)\n")
    yield "pages.py", "has a link that leads nowhere", [PYTHON, "pages.py", str(page.parent)], WRONG, "30"
    yield from of_traces(folder)
    yield "dist_files.py", "is right", [PYTHON, "wrong_dists.py", "right"], RIGHT, "30"
    for kind, (what, *_) in WRONG_DISTS.items():
        yield "dist_files.py", what, [PYTHON, "wrong_dists.py", kind], WRONG, "30"
    yield "variables.py", "has two variables exchanged", variables(folder / "table"), WRONG, "30"
    unittest = ("-m", "unittest", "-q", "test_reference.WorkedExamples")
    yield "test_reference.py", "pads with ones", reference(folder / "1", PYTHON, "the padding is ones", *unittest), WRONG, "120"
    laws = ("-m", "pytest", "-q", "-p", "no:cacheprovider", "test_laws.py")
    strike = "a strike leaves later edits on the anchor that is gone"
    yield from of_fields(folder)
    yield from of_facts(folder)
    yield "test_laws.py", "strikes wrongly", reference(folder / "2", debian_python(), strike, *laws), WRONG, "120"


TRACES = (
    ("has lost a row of its page", "docs/TRACES.md", "| `Session::undo` |", None, ""),
    ("has a definition renamed", "crates/balise_rules/specs/Plan.antt", "reserved", "withheld", ""),
    ("has a call without its contract", "crates/balise_plan/src/plan.rt", "        ensures { result ≡ self.now.changes }\n", "", "--write"),
    ("has lost the only mutation of a call", "crates/balise_plan/must-fail/count_is_half.edit", None, None, "--write"),
)
"""Damaged repositories: what is wrong, a file, and the text in it that is replaced; None takes out the line or the file.
Where the page is written anew, it is what the sources say, and something has no row."""


MORE_MUTATIONS = (
    ("has a line changed that a mutation changes", "crates/balise_view/src/packet.rt", "self.known.serialize(out)?;", "true.serialize(out)?;"),
    ("has a mutation in both folders", "crates/balise_view/must-fail/known_always.edit", "", "file: src/packet.rt\n"),
)
"""Damaged repositories: what is wrong, a file, and the text in it that is replaced; with none, all of the file."""


def of_traces(folder: Path) -> Iterator[Task]:
    """traces.py and more_mutations.py over copies of the repository."""
    right = traced(folder / "traces", "")
    yield "traces.py", "is right", [PYTHON, "traces.py", str(right)], RIGHT, "30"
    for number, (kind, name, old, new, option) in enumerate(TRACES):
        top = traced(folder / f"traces_{number}", name)
        damaged = top / name
        if old is None:
            damaged.unlink()
        else:
            text = damaged.read_text()
            lines = text.splitlines(keepends=True)
            taken = "".join(line for line in lines if not line.startswith(old))
            damaged.write_text(taken if new is None else text.replace(old, new))
        yield "traces.py", kind, [PYTHON, "traces.py", *option.split(), str(top)], WRONG, "30"
    look = [PYTHON, "more_mutations.py", "--look", "--top"]
    yield "more_mutations.py", "is right", [*look, str(right)], RIGHT, "30"
    for number, (kind, name, old, new) in enumerate(MORE_MUTATIONS):
        top = traced(folder / f"mutations_{number}", name)
        damaged = top / name
        damaged.write_text(damaged.read_text().replace(old, new) if old else new)
        yield "more_mutations.py", kind, [*look, str(top)], WRONG, "30"


def traced(top: Path, changed: str) -> Path:
    """A copy of the repository as traces.py reads it. The crate of the file that is to be changed is one of its own."""
    (top / "crates").mkdir(parents=True)
    (top / "data").symlink_to(TOP / "data")
    (top / "crates.txt").symlink_to(TOP / "crates.txt")
    shutil.copytree(TOP / "docs", top / "docs")
    for crate in (TOP / "crates").iterdir():
        to = top / "crates" / crate.name
        if f"crates/{crate.name}/" in changed:
            shutil.copytree(crate, to, ignore=shutil.ignore_patterns("out", "proofs"))
        else:
            to.symlink_to(crate)
    return top


def of_fields(folder: Path) -> Iterator[Task]:
    """The checks of fields, which run the reference: with copies that are wrong, and with other programs."""
    late = "a fault stands one bit too late"
    yield "test_fields.py", late, reference(folder / "3", PYTHON, late, "-m", "unittest", "-q", "test_fields.Faults"), WRONG, "120"
    missing = "Missing has the line of the last field"
    tests = ("-m", "unittest", "-q", "test_spelling.FieldsToDigits")
    yield "test_spelling.py", missing, reference(folder / "4", PYTHON, missing, *tests), WRONG, "120"
    right = reference_program("balisefields.py")
    for program, does, due, seconds in right_and_wrong(right):
        words = [PYTHON, "../../reference/compare_fields.py", program, "1", "40", "--show", "1", "-j", "1"]
        yield "compare_fields.py", does, words, due, seconds
    # The script hands no argument on, so it has no way back.
    for end, does, due in (("", "has no way back", RIGHT), (" | sed 2d", "explains, and drops a line", WRONG)):
        words = [PYTHON, "../../reference/compare_fields.py", script(right + end), "1", "40", "--explain-only", "-j", "1"]
        yield "compare_fields.py", does, words, due, "30"


def of_facts(folder: Path) -> Iterator[Task]:
    """The checks of facts, in the same way."""
    for number, (fault, tests) in enumerate(
        (("dependents without the last", "Edits"), ("needs and changes are exchanged", "Places"), ("a telegram has the tag of its place", "Tags"))
    ):
        words = reference(folder / f"facts_{number}", PYTHON, fault, "-m", "unittest", "-q", f"test_facts.{tests}")
        yield "test_facts.py", fault, words, WRONG, "120"
    for program, does, due, seconds in right_and_wrong(reference_program("balisefacts.py")):
        words = [PYTHON, "../../reference/compare_facts.py", program, "1", "3", "-j", "1", "--keep", str(folder / "facts")]
        yield "compare_facts.py", does, words, due, seconds


def reference_program(name: str) -> str:
    return shlex.join([PYTHON, str(TOP / "reference" / name)])


def right_and_wrong(right: str) -> tuple[tuple[str, str, int, str], ...]:
    """A program of the reference, and wrong ones of it: what each does, the status that is due, and what a run may take."""
    return (
        (right, "is right", RIGHT, "30"),
        ("true", "prints nothing", WRONG, "30"),
        ("cat", "prints what it reads", WRONG, "30"),
        (script(f'{right} "$@" | sed 2d'), "drops a line", WRONG, "30"),
        (script(f'{right} "$@"; exit 77'), "always ends with 77", WRONG, "30"),
        (script(f'{right} "$@"; status=$?; echo >&2; exit $status'), "prints to standard error", WRONG, "30"),
        (script("exec sleep 100"), "hangs", WRONG, "1"),
    )


def script(text: str) -> str:
    """A script of the shell as a program."""
    return shlex.join(["sh", "-c", text, "sh"])


def growths(folder: Path, with_memory: int, without: int, test: str = "test") -> list[str]:
    """The script over a program of one test, with the statuses of the test."""
    statuses = (f"-DWITH_MEMORY={with_memory}", f"-DWITHOUT_MEMORY={without}")
    program = compile_c(folder / f"test_{with_memory}_{without}", "wrong_test.c", *statuses)
    return [PYTHON, "test_growths.py", str(program), test]


def variables(top: Path) -> list[str]:
    """The script over a copy of its crate, in which two variables of the table are exchanged."""
    crate = Path("crates", "balise_rules")
    for name in ("src/variable.rt", "proofs/VariableNames.antt"):
        (top / crate / name).parent.mkdir(parents=True, exist_ok=True)
        shutil.copy(TOP / crate / name, top / crate / name)
    (top / "scripts" / "tables").mkdir(parents=True)
    shutil.copy(TOP / "scripts" / "tables" / "variables.py", top / "scripts" / "tables")
    source = top / crate / "src" / "variable.rt"
    head, table = source.read_text().split("static BY_PLACE", 1)
    first, second = [line for line in table.splitlines() if line.startswith("    Var::")][:2]
    table = table.replace(first, "@", 1).replace(second, first, 1).replace("@", second, 1)
    source.write_text(f"{head}static BY_PLACE{table}")
    return [PYTHON, str(top / "scripts" / "tables" / "variables.py"), "--check"]


def debian_python() -> str:
    """A Python that has pytest and Hypothesis."""
    found = subprocess.run(["bash", "python.sh", "pytest", "hypothesis"], cwd=HERE, capture_output=True, text=True)
    if found.returncode != 0:
        raise Missing(found.stderr.strip())
    return found.stdout.strip()


def reference(top: Path, python: str, planted: str, *tests: str) -> list[str]:
    """Tests of the reference over a copy in which a fault is planted."""
    top.mkdir()
    for name in ("checks", "docs", "examples", "scripts", "man"):
        (top / name).symlink_to(TOP / name)
    shutil.copytree(TOP / "reference", top / "reference", ignore=shutil.ignore_patterns("__pycache__", ".*"))
    faults = (*FAULTS, *planted_fields.SOUND, *planted_fields.DAMAGED, *planted_facts.FAULTS)
    fault = next(fault for fault in faults if fault.name == planted)
    module = top / "reference" / fault.module
    module.write_text(module.read_text().replace(fault.old, fault.new))
    return ["env", "-C", str(top / "reference"), python, *tests]


def judged(task: Task) -> tuple[str, int]:
    """What is wrong with a check, and what it ended with."""
    name, program, words, due, seconds = task
    environment = {**os.environ, "CHECK_SECONDS": seconds, "PYTHONDONTWRITEBYTECODE": "1"}
    try:
        done = subprocess.run(words, cwd=HERE, env=environment, capture_output=True, stdin=subprocess.DEVNULL, timeout=MOST)
    except subprocess.TimeoutExpired:
        return f"{name}, with a program that {program}: no end after {MOST} s", WRONG
    if done.returncode == due:
        return "", RIGHT
    shown = (done.stdout + done.stderr).decode("utf-8", "replace")[-600:]
    fault = f"{name}, with a program that {program}: status {done.returncode}, and {due} is due\n{shown}"
    return fault, NOT_RUN if done.returncode == NOT_RUN else WRONG


def judged_again(task: Task) -> tuple[str, int]:
    """The same, once more where it is wrong: another task may have held a run up. A check that can't fail shows twice."""
    found = judged(task)
    return judged(task) if found[1] == WRONG else found


def main() -> int:
    if len(sys.argv) != 2 or not os.access(sys.argv[1], os.X_OK):
        raise Missing("usage: selftest.py PROGRAM")
    need("cc", "bats", "dot", "jq")
    with tempfile.TemporaryDirectory() as temporary:
        folder = Path(temporary)
        tasks = [*of_programs(os.path.abspath(sys.argv[1]), folder), *of_tests(folder)]
        ends = {RIGHT: 0, WRONG: 0, NOT_RUN: 0}
        with ThreadPoolExecutor(len(os.sched_getaffinity(0))) as pool:
            for number, (fault, end) in enumerate(pool.map(judged_again, tasks), 1):
                ends[end] += 1
                sys.stderr.write(f"\r{number} of {len(tasks)}")
                if fault:
                    print(fault, flush=True)
    print(f"self-test: {len(tasks)} runs of checks, {ends[WRONG]} wrong, {ends[NOT_RUN]} not run")
    return WRONG if ends[WRONG] else NOT_RUN if ends[NOT_RUN] else RIGHT


if __name__ == "__main__":
    sys.exit(ended(main))
