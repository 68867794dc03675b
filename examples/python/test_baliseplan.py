"""Tests of the module: `python3 -m pytest` in this folder, once `make shared` has built the library."""

from __future__ import annotations

import pickle
import shutil
import subprocess
import sys
import threading
from pathlib import Path

import pytest

import baliseplan
from baliseplan import _library
from baliseplan._library import library_path

EXAMPLES = Path(__file__).resolve().parents[1]
PLANS = sorted(EXAMPLES.glob("*.plan"))
FLAGS = {"--quiet": 1, "--stop": 2, "--journal": 4, "--json": 8}
BASE = "plan 1\ngroup\na1007f80a03250900f82ffffffffffffffffffffffffffffffffc0\n"
SET = "set 5.100 0 0 NID_TSR 0 9"
DONE = "plan 1\ngroup\na1007f80a03250900f84ffffffffffffffffffffffffffffffffc0\n"


def flags_of(plan: Path) -> int:
    file = plan.with_suffix(".flags")
    return sum(FLAGS[word] for word in file.read_text().split()) if file.exists() else 0


def texts(replies: list[baliseplan.Reply]) -> list[str]:
    return [reply.text for reply in replies]


def test_a_command() -> None:
    result = baliseplan.run(BASE, [SET], view=True)
    assert texts(result.replies) == ["ok 1"]
    assert (result.plan, result.journal) == (DONE, "journal 2 2\n1 set b0/0/b0 NID_TSR 0 9 5\n")
    assert result.groups[0]["number"] == 100
    assert not result.refused


def test_no_commands() -> None:
    assert baliseplan.run(BASE).plan == BASE
    assert baliseplan.run(BASE, "").replies == []
    assert baliseplan.run("plan 1\n", view=True).groups == []


def test_goes_on_from_a_journal() -> None:
    first = baliseplan.run(BASE, [SET])
    second = baliseplan.run(BASE, ["undo"], first.journal)
    assert (texts(second.replies), second.plan) == (["undone 1"], BASE)


def test_bytes_and_a_last_line_without_an_end() -> None:
    assert baliseplan.run(BASE.encode().rstrip(), [SET.encode()]).plan == DONE


@pytest.mark.parametrize("commands", ["undo", "undo\n", b"undo", ["undo"], ("undo",), iter(["undo"])])
def test_commands_as_a_text_or_a_list(commands: object) -> None:
    result = baliseplan.run(BASE, commands)  # type: ignore[arg-type]
    assert texts(result.replies) == ["refused 23 NothingToUndo"]


def test_a_text_of_two_commands() -> None:
    assert texts(baliseplan.run(BASE, f"{SET}\nundo\n").replies) == ["ok 1", "undone 1"]


def test_a_refused_command() -> None:
    result = baliseplan.run(BASE, ["undo", SET])
    first, second = result.replies
    assert (first.refused, first.number, first.name) == (True, 23, "NothingToUndo")
    assert (second.number, second.name) == (1, None)
    assert result.refused


def test_stops() -> None:
    result = baliseplan.run(BASE, ["undo", SET], stop=True)
    assert (len(result.replies), result.plan) == (1, BASE)


def test_reviews_of_a_turn() -> None:
    base = (EXAMPLES / "line.base").read_text()
    result = baliseplan.run(base, ["turn 5.300", "undo"])
    assert [len(reply.reviews) for reply in result.replies] == [6, 0]
    assert result.plan == base


def test_no_view_unless_asked_for() -> None:
    result = baliseplan.run(BASE)
    with pytest.raises(ValueError, match="view=True"):
        assert result.groups


def test_a_bad_plan() -> None:
    with pytest.raises(baliseplan.BadInput) as caught:
        baliseplan.run("plan 1\ngroup\nxyz\n")
    assert (caught.value.line, caught.value.number, caught.value.name) == (3, 2, "BadHex")
    assert str(caught.value) == "line 3: 2 BadHex"


def test_a_fault_keeps_what_was_answered() -> None:
    with pytest.raises(baliseplan.Fault) as caught:
        baliseplan.run(BASE, [SET, "x" * 4097])
    assert (caught.value.number, caught.value.name, str(caught.value)) == (29, "InputTooLong", "fault 29 InputTooLong")
    assert (caught.value.output, texts(caught.value.replies)) == (b"ok 1\n", ["ok 1"])


@pytest.mark.parametrize("output, replies", [(b"", []), (b"ok 1\nok", ["ok 1"]), (b"ok 1\nplan 1\ngroup\n", ["ok 1"])])
def test_replies_before_a_fault(output: bytes, replies: list[str]) -> None:
    assert texts(baliseplan.Fault(30, output).replies) == replies


@pytest.mark.parametrize("error", [baliseplan.BadInput(3, 2, "BadHex"), baliseplan.Fault(29, b"ok 1\n")])
def test_exceptions_are_pickled(error: baliseplan.Error) -> None:
    again = pickle.loads(pickle.dumps(error))
    assert (type(again), str(again), vars(again)) == (type(error), str(error), vars(error))


def test_a_pool_over_a_bad_plan_raises() -> None:
    code = """if __name__ == "__main__":
        import baliseplan, multiprocessing
        with multiprocessing.get_context("spawn").Pool(1) as pool:
            try:
                pool.map(baliseplan.run, ["plan 1\\n", "plan 2\\n"])
            except baliseplan.BadInput as error:
                print(error)"""
    ended = subprocess.run([sys.executable, "-c", code], capture_output=True, text=True, timeout=60)
    assert ended.stdout == "line 1: 1 BadLine\n", ended.stderr


def test_errors_of_the_caller() -> None:
    with pytest.raises(ValueError):
        baliseplan.run(BASE, ["undo\nredo"])
    with pytest.raises(ValueError):
        baliseplan.run(BASE + "edits\n")


@pytest.mark.parametrize("flags", [baliseplan.FLAGS + 1, 1 << 32, (1 << 32) + 1, -1])
def test_flags_that_are_none(flags: int) -> None:
    with pytest.raises(ValueError):
        baliseplan.run_bytes(BASE.encode(), flags)


@pytest.mark.parametrize("plan", PLANS, ids=[plan.stem for plan in PLANS])
def test_examples(plan: Path) -> None:
    assert baliseplan.run_bytes(plan.read_bytes(), flags_of(plan))[1] == plan.with_suffix(".out").read_bytes()


def test_an_empty_input() -> None:
    assert baliseplan.run_bytes(b"") == (2, b"bad 1 1 BadLine\n")


def test_an_output_longer_than_the_first_guess() -> None:
    commands = b"undo\n" * 100_000
    status, output = baliseplan.run_bytes(BASE.encode() + b"edits\n" + commands)
    assert (status, output.count(b"refused 23 NothingToUndo\n")) == (1, 100_000)


def test_texts() -> None:
    assert baliseplan.version() == "0.1.0"
    assert baliseplan.strerror(30) == "out of memory"


def test_threads() -> None:
    data = (EXAMPLES / "turned_group.plan").read_bytes()
    due = baliseplan.run_bytes(data, 12)
    seen: list[tuple[int, bytes]] = []

    def calls() -> None:
        seen.extend({baliseplan.run_bytes(data, 12) for _ in range(500)})

    threads = [threading.Thread(target=calls) for _ in range(4)]
    for thread in threads:
        thread.start()
    for thread in threads:
        thread.join()
    assert seen == [due] * 4


def test_a_module_that_was_copied_finds_its_library(tmp_path: Path) -> None:
    found = Path(library_path()).resolve()
    module = Path(shutil.copytree(Path(baliseplan.__file__).parent, tmp_path / "baliseplan"))
    code = "import baliseplan; print(baliseplan.run_bytes(b''), baliseplan.__file__)"
    due = f"(2, b'bad 1 1 BadLine\\n') {module / '__init__.py'}\n"
    assert ran(code, tmp_path, {"BALISEPLAN_LIBRARY": str(found)}) == due
    shutil.copy(found, module / "libbaliseplan.so.1")
    assert ran(code, tmp_path, {}) == due


def test_a_module_in_an_unpacked_archive_finds_its_library(tmp_path: Path) -> None:
    module = Path(shutil.copytree(Path(baliseplan.__file__).parent, tmp_path / "examples" / "python" / "baliseplan"))
    for name in ("include/baliseplan.h", "lib/libbaliseplan.so.1"):
        (tmp_path / name).parent.mkdir()
        (tmp_path / name).touch()
    code = "from baliseplan._library import library_path; print(library_path())"
    assert ran(code, module.parent, {}) == f"{tmp_path / 'lib' / 'libbaliseplan.so.1'}\n"


def test_a_module_near_the_root_finds_its_library(monkeypatch: pytest.MonkeyPatch) -> None:
    monkeypatch.setattr(_library, "__file__", "/baliseplan/_library.py")
    monkeypatch.setenv("BALISEPLAN_LIBRARY", "/named.so")
    assert library_path() == "/named.so"
    monkeypatch.delenv("BALISEPLAN_LIBRARY")
    assert library_path() == "libbaliseplan.so.1"


def test_says_how_to_name_a_library_that_is_nowhere() -> None:
    code = "import baliseplan; baliseplan.version()"
    with pytest.raises(AssertionError, match="set BALISEPLAN_LIBRARY to the path of libbaliseplan.so.1"):
        ran(code, Path(__file__).parent, {"BALISEPLAN_LIBRARY": "/nowhere.so"})


def ran(code: str, folder: Path, environment: dict[str, str]) -> str:
    """What the code prints, run in a folder. Nothing is loaded from elsewhere."""
    words = [sys.executable, "-B", "-c", code]
    ended = subprocess.run(words, cwd=folder, env=environment, capture_output=True, text=True, timeout=60)
    assert ended.returncode == 0, ended.stderr
    return ended.stdout
