"""Each message and status: wrong commands, arguments and folders; and what begins a folder."""

from __future__ import annotations

from pathlib import Path

import pytest
from conftest import TOP, Desk, call, files


@pytest.mark.parametrize(
    ("command", "text"),
    [
        ("sett 5.200 1 0 V_TSR 0 6", "did you mean set?"),
        ("set 5.200 1 0 V_TSR 6", "K is missing: `set 5.200 1 0 V_TSR 0 6`"),
        ("set 5.200 1 0 V_TRS 0 6", "did you mean V_TSR"),
        ("set 5.200 1 0 V_TRS 0 30km/h", "the engine knows no variable V_TRS; did you mean V_TSR"),
        ("set 5.300 1 0 D_TRACKCOND 0 300m", "5.300 1 0 is packet 44 (data of applications outside ETCS), which the engine keeps"),
        ("set 5.300 1 0 Q_SCALE 0 1", "only its Q_DIR can be set. Delete it, and insert other digits"),
        ("set 5.300 1 0 D_TSR 0 300m", "only its Q_DIR can be set"),
        ("put 41 5.200 1 0 M_LEVELTR=2", "M_LEVELTR says what follows it, and `put` writes the shortest packet 41"),
        ("set 5.201 1 0 V_TSR 0 6", "did you mean 5.200"),
        ("set 5.200 2 0 V_TSR 0 6", "has no telegram 2: 0 to 1"),
        ("set 5.200 1 4 V_TSR 0 6", "0 is packet 65"),
        ("set 5.200 1 0 V_TSR 0 200", "at most 127, in 7 bits"),
        ("set 5.200 1 0 V_TSR 3 2", "K is from 0 to 0"),
        ("set 5.200 0 0 N_ITER 0 2", "N_ITER says what follows it"),
        ("seth 5.200 1 N_PIG 1", "M_DUP, M_MCOUNT, Q_LINK can be set"),
        ("insert 5.200 1 0 41408e000000000000 x", "the form is `insert C.N PIG AT HEX`"),
        ("insert 5.200 1 0 41408e00000000000000", "more or fewer digits"),
        ("insert 5.100 0 0 41408e000000000000", "bits left, too few for the packet"),
        ("add 9 00", "more or fewer digits"),
        ("renumber 6.1 2", "no group 6.1"),
        ("renumber 5.100 400", "there is a group 5.400 already"),
        ("renumber 5.100 16383", "16383 is no number for a group"),
        ("move 5.300 0 0 0", "the packet stands there already"),
        ("delete 5.400 0 9", "0 is packet 5"),
        ("strike 4", "no standing edit"),
        ("undo", "no edit stands"),
        ("redo", "nothing was undone or struck"),
    ],
)
def test_a_refused_command(desk: Desk, line: Path, command: str, text: str) -> None:
    before = files(line)
    result = desk("do", command)
    assert (result.exit_code, text in result.output) == (1, True), result.output
    assert files(line) == before


def test_a_number_that_a_link_names(desk: Desk) -> None:
    assert desk("do", "drop 5.300").exit_code == 0
    assert "a link names 5.300 already, though no group has it: 5.100 0 0 NID_BG 1" in desk("do", "renumber 5.400 300").output


def test_arguments_and_folders(desk: Desk, line: Path, tmp_path: Path) -> None:
    cases: list[tuple[list[object], int, str]] = [
        (["do"], 64, "there is no command to do"),
        (["do", "-f", tmp_path / "none"], 2, "can't be read"),
        (["do", "-f", tmp_path / "none", "undo"], 64, "not both"),
        (["undo"], 1, "no edit stands"),
        (["redo"], 1, "nothing was undone"),
        (["show", "5.201"], 1, "did you mean 5.200"),
        (["log", "--group", "5.9"], 64, "no group 5.9"),
        (["nonsense"], 64, "No such command"),
        (["diff", "one"], 64, "give two plans"),
        (["diff", "one", "two"], 2, "can't be read"),
        (["verify", tmp_path / "none"], 64, "is no folder"),
        (["report", "-o", tmp_path / "none" / "report.html"], 3, "can't be written"),
        (["diff", "--request", tmp_path / "none"], 2, "can't be read"),
    ]
    for words, status, text in cases:
        result = desk(*words)
        assert (result.exit_code, text in result.output) == (status, True), (words, result.exit_code, result.output)
    (tmp_path / "empty").mkdir()
    assert call("-C", tmp_path / "empty", "log").exit_code == 64
    assert call("verify", tmp_path / "empty").exit_code == 64


def test_a_bad_plan_or_journal(line: Path, desk: Desk, tmp_path: Path) -> None:
    good = (TOP / "examples" / "line.base").read_bytes()
    for data, text in (
        (b"plan 1\ngroup\n00\n", "line 3, `00`: there are more or fewer digits"),
        (b"", "The file is empty."),
        (b"\xef\xbb\xbf" + good, "A byte-order mark"),
        (good.replace(b"\n", b"\r\n"), "carriage return"),
        (good[:-1], "has no line feed"),
        (good + b"edits\n", "a line `edits`"),
        (good + b"group\n", "line 14, `group`: a group has no telegram"),
        (good.decode().encode("utf-16"), "UTF-16"),
        (b"journal 2 1\n", "line 1, `journal 2 1`"),
    ):
        bad = tmp_path / "bad.plan"
        bad.write_bytes(data)
        result = call("init", bad, tmp_path / "new")
        assert (result.exit_code, text in result.output) == (2, True), result.output
        assert not (tmp_path / "new").exists()
    (line / "journal").write_text("journal 2 2\n1 set b0/0/b9 V_TSR 0 6 8\n")
    result = desk("status")
    assert result.exit_code == 2
    assert "the journal, line 2, `1 set b0/0/b9 V_TSR 0 6 8`: the journal doesn't fit the plan" in result.output


def test_init_begins_where_one_stands(tmp_path: Path, monkeypatch: pytest.MonkeyPatch) -> None:
    here = tmp_path / "here"
    here.mkdir()
    monkeypatch.chdir(here)
    assert call("init", TOP / "examples" / "line.base").exit_code == 0
    assert sorted(path.name for path in here.iterdir()) == [".plandesk", "base.plan", "journal", "line.plan", "reviews"]
    before = files(here)
    result = call("init", TOP / "examples" / "line.base")
    assert result.exit_code == 0  # the same files are there already
    assert call("do", "undo").exit_code == 1
    assert call("do", "turn 5.300").exit_code == 0
    result = call("init", TOP / "examples" / "line.base")
    assert (result.exit_code, "has a journal already" in result.output) == (64, True)
    assert call("undo").exit_code == 0
    assert files(here)[1] == before[1]
    (here / "below").mkdir()
    monkeypatch.chdir(here / "below")
    assert call("status").exit_code == 0  # the folder is found upwards


def test_init_takes_over_a_folder_that_was_kept_by_hand(week: Desk, line: Path, tmp_path: Path) -> None:
    hand = tmp_path / "hand"
    hand.mkdir()
    for name in ("base.plan", "journal", "line.plan"):
        (hand / name).write_bytes((line / name).read_bytes())
    result = call("-C", hand, "init", hand / "base.plan", "--journal", hand / "journal")
    assert (result.exit_code, "The journal has a turn, edit 5. What that left" in result.output) == (0, True)
    assert call("-C", hand, "verify", "--engine-only").exit_code == 0
    assert "No review is open\nTurns without a review: 5. They left none" in call("-C", hand, "reviews").output
    assert call("-C", hand, "report", "--engine-only", "-o", tmp_path / "report.html").exit_code == 0
    assert "Turns without a review: 5." in (tmp_path / "report.html").read_text()
    (hand / "reviews").write_bytes((line / "reviews").read_bytes())
    assert call("-C", hand, "reviews").output == week("reviews").output != ""
    assert "Turns without" not in week("reviews").output
    (hand / "line.plan").write_text("mine")
    assert call("-C", hand, "init", hand / "base.plan", "--journal", hand / "journal").exit_code == 64
    assert (hand / "line.plan").read_text() == "mine"


def test_init_with_capital_letters(tmp_path: Path) -> None:
    plan = tmp_path / "capitals.plan"
    text = (TOP / "examples" / "line.base").read_text()
    plan.write_text("".join(l.upper() if l[0] == "a" else l for l in text.splitlines(True)))
    result = call("init", plan, tmp_path / "new")
    assert (result.exit_code, "capital letters" in result.output) == (0, True)
    assert (tmp_path / "new" / "base.plan").read_text() == text


def test_a_plan_changed_by_hand_is_found(week: Desk, line: Path) -> None:
    plan = line / "line.plan"
    good = plan.read_text()
    plan.write_text(good.replace("a1007f80a0fa", "a1007f00a0fa"))
    result = week("do", "undo")
    assert (result.exit_code, "isn't what the engine makes" in result.output) == (2, True)
    assert week("status").exit_code == 2
    assert "M_MCOUNT" in week("diff", "--line").output
    assert week("verify", "--engine-only").exit_code == 1
    assert week("report", "--engine-only", "-o", line.parent / "report.html").exit_code == 1
    assert week("restore").exit_code == 0
    assert plan.read_text() == good
    assert "already" in week("restore").output
    base = line / "base.plan"
    base.write_text(base.read_text().replace("a1007f80a0fa", "A1007F80A0FA"))
    assert week("log").exit_code == 2
