"""A week's work on a line: do, undo, redo, strike and reviews."""

from __future__ import annotations

import json
from pathlib import Path

from conftest import Desk, files, plain
from plandesk.engine import Engine

PARTS = ["insert 5.200 1 1 41408e000000000000", "set 5.200 1 1 Q_SCALE 0 1", "set 5.200 1 1 V_TSR 0 60km/h"]


def test_nothing_is_kept_where_one_is_refused(desk: Desk, line: Path) -> None:
    before = files(line)
    result = desk("do", "set 5.200 1 0 V_TSR 0 6", "set 5.200 0 0 L_TSR 0 450")
    assert result.exit_code == 1
    assert "Nothing was kept: 1 of 2 commands was refused" in result.output
    assert "5.200 0 0 is packet 5 (linking) without L_TSR; L_TSR stands at 5.200 1 0" in result.output
    assert files(line) == before


def test_keep_accepted(desk: Desk, line: Path) -> None:
    result = desk("do", "--keep-accepted", "set 5.200 1 0 V_TSR 0 6", "set 5.200 0 0 L_TSR 0 450")
    assert result.exit_code == 1
    assert (line / "journal").read_text() == "journal 2 2\n1 set b1/1/b0 V_TSR 0 6 8\n"


def test_a_trial_keeps_nothing(week: Desk, line: Path) -> None:
    before = files(line)
    for words in (["do", "turn 5.300"], ["undo", "2"], ["strike", "1"], ["strike", "3", "--with-dependents"]):
        assert week(*words, "--dry-run").exit_code == 0
    assert files(line) == before


def test_the_files_are_what_the_engine_prints(week: Desk, line: Path, engine: Engine, base: str) -> None:
    journal, plan, _ = files(line)
    run = engine.run(base, journal)
    assert (run.plan, run.journal) == (plan, journal)
    assert (line / "base.plan").read_text() == base


def test_units_and_short_forms(week: Desk, line: Path) -> None:
    lines = (line / "journal").read_text().splitlines()
    assert lines[1:5] == [
        "1 set b1/1/b0 V_TSR 0 6 8",
        "2 set b1/1/b0 L_TSR 0 450 300",
        "3 insert b1/1 b0 41408e8302bc00c818",
        "4 renumber b1 250 200",
    ]


def test_put_is_one_edit_or_none(desk: Desk, line: Path) -> None:
    before = files(line)
    result = desk("do", "put 65 5.200 1 1 NID_TSR=600")
    assert (result.exit_code, "at most 255" in result.output) == (1, True)
    assert "did you mean V_TSR" in desk("do", "put 65 5.200 1 1 V_TRS=6").output
    for words in ("put 65 5.200 1 1 V_TSR=6 V_TSR=7", "put 65 5.200 1 1 V_TSR", "put 44 5.200 1 1", "put 65 5.200"):
        assert desk("do", words).exit_code == 1
    assert files(line) == before
    assert desk("do", "put", "65", "5.200", "1", "1", "D_TSR=70.5m", "Q_SCALE=0").exit_code == 0
    assert "D_TSR 0 705 70.5 m" in plain(desk("show", "5.200").output)


def test_a_unit_that_does_not_fit(desk: Desk) -> None:
    for command, words in (
        ("set 5.200 1 0 V_TSR 0 33km/h", "no whole number of steps: 6 or 7"),
        ("set 5.200 1 0 V_TSR 0 33m", "V_TSR isn't in m"),
        ("set 5.200 1 0 V_TSR 0 900km/h", "more than the largest amount, 600 km/h"),
        ("set 5.200 1 0 L_TSR 0 450.5m", "no whole number of steps: 450 or 451"),
        ("set 5.200 1 0 L_TSR 0 450km/h", "L_TSR isn't in km/h"),
    ):
        result = desk("do", command)
        assert (result.exit_code, words in result.output) == (1, True), result.output


def test_a_unit_goes_by_the_scale_at_that_moment(desk: Desk, line: Path) -> None:
    commands = ["set 5.200 1 0 Q_SCALE 0 2", "set 5.200 1 0 L_TSR 0 450m", "set 5.200 1 0 V_TSR 0 30km/h"]
    assert desk("do", *commands).exit_code == 0
    assert "2 set b1/1/b0 L_TSR 0 45 300\n" in (line / "journal").read_text()


def test_what_follows_a_refused_command_is_doubtful(desk: Desk) -> None:
    desk("do", "put 65 5.200 1 1 NID_TSR=6")
    result = desk("do", "--keep-accepted", "insert 5.200 1 1 41408e000000000000", "set 5.200 1 1 V_TSR 0 9")
    assert "Look at ok 2" in result.output
    desk("undo", "2")
    result = desk("do", "turn 5.300")
    assert "The undone edits 1, 2 were discarded for good" in result.output


def test_undo_is_exact(week: Desk, line: Path) -> None:
    before = files(line)
    result = week("undo", "3")
    assert result.output.startswith("undone 10  5.400 0 1 D_LINK 700 → 703 (700 m → 703 m)\n")
    assert files(line) != before
    assert week("redo", "3").exit_code == 0
    assert files(line) == before
    for words, text in ((["redo"], "nothing was undone"), (["undo", "99"], "only 10 can be taken back")):
        result = week(*words)
        assert (result.exit_code, text in result.output) == (1, True)


def test_undo_after_a_strike_says_which(week: Desk) -> None:
    result = week("strike", "1")
    assert "`plandesk redo` brings back, and not undo" in result.output
    result = week("undo")
    assert "undo takes back edit 10 (5.400 0 1 D_LINK" in result.output
    assert "and not the strike of edit 1" in result.output
    assert "the strike" not in week("undo").output


def test_a_strike_names_what_depends(desk: Desk, line: Path) -> None:
    assert desk("do", *PARTS, "turn 5.300").exit_code == 0
    before = files(line)
    result = desk("strike", "1")
    assert result.exit_code == 1
    assert "2 later edits depend on 1" in result.output
    assert "V_TSR 0 → 12 (0 km/h → 60 km/h) needs 1: V_TSR 0 of 5.200 1 1" in plain(result.output)
    assert "plandesk strike 1 --with-dependents" in result.output
    assert files(line) == before
    assert json.loads(desk("strike", "1", "--json").output) == {
        "struck": [], "order": [3, 2, 1], "dependents": [2, 3], "set_for_it": [],
        "needs": {"2": {"edit": 1, "place": "b1/1/n1.Q_SCALE.0"}, "3": {"edit": 1, "place": "b1/1/n1.V_TSR.0"}},
    }
    assert desk("strike", "1", "--with-dependents").exit_code == 0
    assert (line / "journal").read_text().endswith("undone 3\nundone 2\nundone 1\n")
    assert desk("redo", "3").exit_code == 0
    assert files(line) == before
    assert "there is no edit 77" in desk("strike", "77").output


def test_a_strike_a_week_later(week: Desk, line: Path) -> None:
    assert week("strike", "1").exit_code == 0
    assert "V_TSR" not in week("diff", "--group", "5.250").output.split("put in")[0]
    assert (line / "journal").read_text().endswith("undone 1\n")


def test_a_struck_turn_names_what_was_set_for_it(week: Desk) -> None:
    result = week("strike", "5")
    assert result.exit_code == 0
    assert "`plandesk strike 6 7 8 9 10` takes them back, too." in result.output


def test_reviews_stay_until_ticked(week: Desk) -> None:
    listed = json.loads(week("reviews", "--json").output)
    places = ["5.300 0 0", "5.300 1 0", "5.300 1 1", "5.100 0 0", "5.250 0 0", "5.400 0 1"]
    assert [review["place"] for review in listed] == places
    assert (listed[1]["then"], listed[1]["now"]) == ("850 m", "847 m")
    assert "5 reviews open, 1 ticked off" in week("reviews", "--done", "1").output
    assert "3 reviews open" in week("reviews", "--done", "2", "3").output
    assert "4 reviews open" in week("reviews", "--reopen", "2").output
    week("do", "renumber 5.300 333")
    assert json.loads(week("reviews", "--json", "--all").output)[0]["place"] == "5.333 0 0"
    week("undo", "7")
    assert "No review is open" in week("reviews").output
    week("redo", "7")
    assert "4 reviews open" in week("reviews").output
    assert week("reviews", "--done", "99").exit_code == 64
    assert week("reviews", "3").exit_code == 64


def test_reviews_as_commands(week: Desk) -> None:
    lines = week("reviews", "--commands").output
    assert lines.startswith("set 5.300 1 0 D_LINK 0 847m  # 2: D_LINK of 5 linking, to 5.250\n")
    assert week("do", "-f", "-", text=lines).exit_code == 0


def test_missing_links_are_said(desk: Desk) -> None:
    result = desk("do", "drop 5.300")
    assert "3 links name a group that isn't in the plan now: 5.100 → 5.300" in result.output
    assert "isn't in the plan" not in desk("do", "set 5.200 1 0 V_TSR 0 6").output


def test_commands_from_a_file(desk: Desk, line: Path) -> None:
    text = "\ufeff# monday\r\nset 5.200 1 0  V_TSR 0 6   # slower\r\n\r\nturn 5.300\r\n"
    (line.parent / "monday").write_bytes(text.encode())
    assert desk("do", "-f", line.parent / "monday").exit_code == 0
    assert desk("do", "-", text="undo\nundo\n").exit_code == 0
    assert desk("do", "set", "5.200", "1", "0", "V_TSR", "0", "6", "turn", "5.300").exit_code == 0
    assert json.loads(desk("status", "--json").output)["standing"] == 2
    (line.parent / "tuesday").write_text("turn 5.300\nset 5.200 0 0 V_TSR 0 6\n")
    assert "tuesday:2" in desk("do", "-f", line.parent / "tuesday").output


def test_add_after_a_group(desk: Desk, line: Path, base: str) -> None:
    other = base.splitlines()[2].replace("a1007f80a032", "a1007f80a0c9", 1)
    assert desk("do", f"add after 5.200 {other}").exit_code == 0
    assert "1 add b1 " in (line / "journal").read_text()
    assert desk("do", f"add after 5.201 {other}").exit_code == 1
