"""status, log, show, links and diff."""

from __future__ import annotations

import json
from pathlib import Path

from conftest import Desk, call, plain
from plandesk.engine import Engine


def test_status(week: Desk, line: Path) -> None:
    data = json.loads(week("status", "--json").output)
    assert (data["groups"], data["standing"], data["open_reviews"], data["missing_links"]) == (5, 10, 6, 1)
    assert (data["next_undo"], data["next_redo"], data["whole"]) == (10, None, True)
    week("strike", "1")
    assert "9 stand (undo takes back 10), 1 undone or struck (redo brings back 1)" in week("status").output


def test_log(week: Desk) -> None:
    lines = week("log").output.splitlines()
    assert plain(lines[0]) == "1 5.250 1 0 V_TSR 8 → 6 (40 km/h → 30 km/h) 65 temporary speed restriction"
    assert lines[3].split() == ["4", "5.250", "renumbered", "200", "→", "250"]
    assert len(week("log", "--group", "5.300").output.splitlines()) == 3
    week("undo")
    data = json.loads(week("log", "--json").output)
    assert data[9]["state"] == "undone"
    assert len(json.loads(week("log", "--standing", "--json").output)) == 9
    assert "10 set b3/0/b1 D_LINK 0 703 700" in week("log", "--tags").output


def test_log_says_what_each_needs(desk: Desk) -> None:
    desk("do", "insert 5.200 1 1 41408e000000000000", "set 5.200 1 1 Q_SCALE 0 1", "set 5.200 1 1 V_TSR 0 9")
    data = json.loads(desk("log", "--json").output)
    assert [entry["needs"] for entry in data] == [[], [1], [1]]
    assert data[0]["dependents"] == [3, 2]
    assert "needs 1" in desk("log").output
    assert "needs" not in desk("log", "--no-dependencies").output


def test_show_and_links(week: Desk, line: Path) -> None:
    assert len(week("show").output.splitlines()) == 5
    assert "V_TSR 0 6 30 km/h" in plain(week("show", "5.250").output)
    assert "V_TSR" in week("show", "5.200", "--plan", line / "base.plan").output
    assert json.loads(week("show", "5.250", "--json").output)["telegrams"][1]["packets"][0]["number"] == 65
    assert "6.20  500 m  nominal  for trains nominal  not in this plan" in week("links", "--dangling").output
    assert len(week("links", "--to", "5.300").output.splitlines()) == 3
    assert json.loads(week("links", "--unknown", "--json").output)[0]["place"] == "5.300 0 0"
    assert "has numbers of groups" not in week("links", "--unknown").output


def test_packets_that_a_renumbering_does_not_follow(desk: Desk) -> None:
    assert "doesn't follow" not in desk("do", "renumber 5.200 250").output
    assert desk("do", "insert 5.100 0 1 5a804c03e8").exit_code == 0
    shown = desk("links", "--unknown").output
    assert "5.100 0 1  90  track ahead free up to level 2/3 transition  has numbers of groups" in shown
    assert [each["names_groups"] for each in json.loads(desk("links", "--unknown", "--json").output)] == [True, False]
    words = "1 packet has numbers of groups that a renumbering doesn't follow, so look at each: 5.100 0 1 (packet 90)"
    assert words in desk("do", "renumber 5.250 260").output
    assert words not in desk("do", "turn 5.260").output


def test_diff(week: Desk, line: Path) -> None:
    output = week("diff").output
    assert "5.200 → 5.250  by edits 1 to 4, 9, turn of 5.300 (edit 5)" in output
    assert "balise 1, packet 0 V_TSR 40 km/h → 30 km/h (8 → 6)" in plain(output)
    assert "65 temporary speed restriction: put in" in output
    assert len(week("diff", "--stat").output.splitlines()) == 4
    assert json.loads(week("diff", "--group", "5.400", "--json").output)[0]["by"] == "edit 10, turn of 5.300 (edit 5)"
    both = week("diff", line / "base.plan", line / "line.plan").output
    assert "5.200 → 5.250" in both
    assert week("diff", line / "base.plan", line / "base.plan").output == "No group differs.\n"


def test_diff_shows_bits_where_fields_can_not(desk: Desk, line: Path, tmp_path: Path, base: str) -> None:
    other = tmp_path / "other.plan"
    other.write_text(base.replace("ffffffc0\ngroup\na1027f80a064", "ffff7fc0\ngroup\na1027f80a064"))
    output = desk("diff", line / "base.plan", other).output
    assert "balise 0 padding balise 0, bits from packet 255 on:" in plain(output)
    assert "^" in output
    desk("do", "set 5.200 1 0 V_TSR 0 6")
    assert "balise 1, bits of packet 0:" in desk("diff", "--bits").output
    assert "^" not in desk("diff").output


def test_diff_shows_the_content_of_a_packet(line: Path, desk: Desk, tmp_path: Path, base: str, engine: Engine) -> None:
    texts = []
    for digits in ("2c0041a5", "2c0041a7"):
        path = tmp_path / digits
        path.write_text(engine.run(base, "", ["delete 5.300 1 0", f"insert 5.300 1 0 {digits}"]).plan)
        texts.append(path)
    output = desk("diff", *texts).output
    assert "balise 1, packet 0 content of 44 data of applications outside ETCS" in plain(output)
    assert "^" in output


def test_requests(week: Desk, line: Path) -> None:
    request = line.parent / "request"
    request.write_text("5.100, 5.200 5.300 5.500 # the change request\n")
    result = week("diff", "--request", request)
    assert result.exit_code == 1
    assert "Changed, but not in the request: 5.400" in result.output
    assert "turn of 5.300 (edit 5)" in result.output
    assert "In the request, but not changed: 5.500" in result.output
    assert json.loads(week("diff", "--request", request, "--json").output) == {"beyond": ["5.400"], "idle": ["5.500"]}
    request.write_text("5.100 5.250 5.300 5.400")
    assert week("diff", "--request", request).exit_code == 0
    request.write_text("5.100 nonsense")
    assert week("diff", "--request", request).exit_code == 64


def test_commands_of_a_difference(week: Desk, line: Path, tmp_path: Path) -> None:
    result = week("diff", "--commands")
    commands = [word for word in result.output.splitlines() if not word.endswith("of them")]
    assert "renumber 5.200 250" in commands
    assert "10 commands" in result.output or f"{len(commands)} commands" in result.output
    folder = tmp_path / "again"
    assert call("init", line / "base.plan", folder).exit_code == 0
    assert call("-C", folder, "do", "-f", "-", text="\n".join(commands)).exit_code == 0
    assert (folder / "line.plan").read_text() == (line / "line.plan").read_text()
    assert json.loads(week("diff", "--commands", "--json").output)["commands"] == commands
