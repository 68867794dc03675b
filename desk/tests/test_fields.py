"""Fields in place of digits: `plandesk fields`, `@FILE` in insert, add and replace."""

from __future__ import annotations

import random
from pathlib import Path

import pytest
from conftest import Desk, files
from plandesk.engine import Engine
from plandesk.items import to_edit
from plandesk.fields import find_fields
from plandesk.spelled import packet_digits, telegram_digits
from plandesk.view import bits_of, digits_of, telegrams_of

import random_plans

LINK = ["D_LINK 700", "Q_NEWCOUNTRY 0", "NID_BG 400", "Q_LINKORIENTATION 1", "Q_LINKREACTION 1", "Q_LOCACC 5"]
REVOKED = ["NID_PACKET 66", "Q_DIR 1", "NID_TSR 3"]
HEADER = [
    "telegram 210", "Q_UPDOWN 1", "M_VERSION 33", "Q_MEDIA 0", "N_PIG 0", "N_TOTAL 0", "M_DUP 0", "M_MCOUNT 255",
    "NID_C 5", "NID_BG 777", "Q_LINK 1",
]  # fmt: skip
PLANS = 40


@pytest.fixture(autouse=True)
def here(tmp_path: Path, monkeypatch: pytest.MonkeyPatch) -> Path:
    """Each test stands in a folder of its own, where it writes its files of fields."""
    monkeypatch.chdir(tmp_path)
    return tmp_path


def write(name: str, *lines: str) -> None:
    Path(name).write_text("".join(f"{line}\n" for line in lines))


def fields(desk: Desk, *words: object) -> list[str]:
    result = desk("fields", *words)
    assert result.exit_code == 0, result.output
    return result.output.splitlines()


def test_fields_of_a_packet_a_telegram_and_a_group(desk: Desk) -> None:
    assert fields(desk, "5.200", 1, 0) == [
        "packet 33", "NID_PACKET 0 65", "Q_DIR 0 1", "Q_SCALE 0 1", "NID_TSR 0 5", "D_TSR 0 200", "L_TSR 0 300",
        "Q_FRONT 0 0", "V_TSR 0 8",
    ]  # fmt: skip
    telegram = fields(desk, "5.300", 1)
    assert telegram[:3] == ["telegram 210", "Q_UPDOWN 0 1", "M_VERSION 0 33"]
    assert telegram[-4:] == ["NID_PACKET 0 44", "Q_DIR 0 1", "rest 9 d28", "end"]
    assert fields(desk, "5.300") == fields(desk, "5.300", 0) + telegram


def test_fields_of_another_plan_and_all_that_is_printed(week: Desk, line: Path, base: str) -> None:
    digits = base.splitlines()[5]
    assert fields(week, "5.200", 1, "--whole", "--plan", line / "base.plan") == find_fields().explain([digits])[0]
    whole = fields(week, "5.250", 1, 0, "--whole")
    assert whole[0] == "packet 33" and whole[3] == "10 13 L_PACKET 0 71"


def test_no_such_place(desk: Desk) -> None:
    for words, text in (
        (["5.201"], "the plan has no group 5.201; did you mean 5.200"),
        (["5.200", "2"], "5.200 has no telegram 2: 0 to 1"),
        (["5.200", "1", "4"], "5.200 1 has no packet 4: 0 to 0"),
    ):
        result = desk("fields", *words)
        assert (result.exit_code, text in result.output) == (1, True), result.output


def test_what_is_printed_gives_the_same_digits(desk: Desk, line: Path) -> None:
    """Each packet replaced by its own fields, and each group by its own: the plan stays as it is, bit for bit."""
    before = (line / "line.plan").read_text()
    for name, sizes in (("5.100", [1]), ("5.200", [2, 1]), ("5.300", [2, 1]), ("5.400", [2]), ("5.500", [2])):
        for pig, count in enumerate(sizes):
            for pkt in range(count):
                write("packet", *fields(desk, name, pig, pkt))
                assert desk("do", f"replace {name} {pig} {pkt} @packet").exit_code == 0
        write("group", *fields(desk, name))
        place = [group["group"] for group in _shown(desk)].index(name)
        assert desk("do", f"drop {name}", f"add {place} @group").exit_code == 0
    assert (line / "line.plan").read_text() == before
    assert desk("verify", "--engine-only").exit_code == 0


def _shown(desk: Desk) -> list[dict[str, str]]:
    import json

    found: list[dict[str, str]] = json.loads(desk("show", "--json").output)
    return found


def test_a_linking_packet_is_extended(desk: Desk, line: Path) -> None:
    write("links", *(each.replace("N_ITER 0 1", "N_ITER 0 2") for each in fields(desk, "5.100", 0, 0)), *LINK)
    result = desk("do", "replace", "5.100", "0", "0", "@links")
    assert (result.exit_code, "Kept: 2 commands. 2 edits" in result.output) == (0, True), result.output
    assert "5.100 0 0 NID_BG 2  →  5.400  2 150 m" in desk("links").output.replace("\u202f", " ")
    journal = (line / "journal").read_text().splitlines()
    assert journal[1] == "1 delete b0/0/b0 $"
    assert journal[2].startswith("2 insert b0/0 ") and journal[2].split(" ")[-1].startswith("0541")
    assert desk("undo", "2").exit_code == 0


def test_a_new_packet_of_several_elements(desk: Desk) -> None:
    element = ["D_GRADIENT {}", "Q_GDIR 1", "G_A {}"]
    lines = [each.format(*[at + 1] * 2) for at in range(2) for each in element]
    write("gradients", "# of the new survey", "packet", "NID_PACKET 21", "Q_DIR 1", "Q_SCALE 1", *lines[:3], "N_ITER 1", *lines[3:])
    result = desk("do", "insert 5.200 1 1 @gradients")
    assert result.exit_code == 0, result.output
    assert [each for each in fields(desk, "5.200", 1, 1) if each.startswith("G_A")] == ["G_A 0 1", "G_A 1 2"]


def test_a_new_group(desk: Desk, line: Path) -> None:
    write("group", *HEADER, "packet", *REVOKED, "end")
    result = desk("do", "add", "after", "5.200", "@group", "turn", "5.777")
    assert result.exit_code == 0, result.output
    assert [each["group"] for each in _shown(desk)][2:4] == ["5.777", "5.300"]
    assert (line / "line.plan").read_text().splitlines()[7].endswith("fc0")
    write("two", *HEADER[:5], "N_TOTAL 1", *HEADER[6:], "end", *HEADER[:4], "N_PIG 1", "N_TOTAL 1", *HEADER[6:], "end")
    assert "plan has a group with this identity already" in desk("do", "add 0 @two").output
    Path("two").write_text(Path("two").read_text().replace("777", "778"))
    assert "5.778 added a group of 2" in desk("do", "add 0 @two").output


def test_values_with_units(desk: Desk) -> None:
    """A distance goes by Q_SCALE before it in its packet."""
    write("tsr", "NID_PACKET 65", "Q_DIR 1", "Q_SCALE 2", "NID_TSR 6", "D_TSR 0 1.2km", "0 15 L_TSR 0 300m", "Q_FRONT 0", "V_TSR 60km/h")
    assert desk("do", "insert 5.200 1 0 @tsr").exit_code == 0
    assert fields(desk, "5.200", 1, 0)[5:7] + fields(desk, "5.200", 1, 0)[8:] == ["D_TSR 0 120", "L_TSR 0 30", "V_TSR 0 12"]
    for old, new, text in (
        ("V_TSR 60km/h", "V_TSR 61km/h", "line 8, `V_TSR 61km/h`: no whole number of steps: 12 or 13"),
        ("D_TSR 0 1.2km", "D_TSR 0 1205m", "line 5, `D_TSR 0 1205m`: no whole number of steps: 120 or 121"),
        ("Q_SCALE 2", "Q_SCALE 3", "line 5, `D_TSR 0 1.2km`: Q_SCALE gives no unit: enter the raw number"),
        ("Q_FRONT 0", "Q_FRONT 3m", "line 7, `Q_FRONT 3m`: Q_FRONT isn't in m"),
        ("Q_FRONT 0", "WIDTH 3m", "line 7, `WIDTH 3m`: no line of this form may stand here"),
    ):
        Path("wrong").write_text(Path("tsr").read_text().replace(old, new))
        result = desk("do", "insert 5.200 1 0 @wrong")
        assert (result.exit_code, text in result.output) == (1, True), result.output


def test_many_commands_with_files(desk: Desk, line: Path) -> None:
    """Each file goes by the plan that its command meets: a telegram's M_VERSION after groups came and went."""
    write("packet", *REVOKED)
    write("other", "packet 16", "NID_PACKET 44", "Q_DIR 1", "rest 2 8")
    write("first", *HEADER[:2], "M_VERSION 16", *HEADER[3:], "end")
    write(
        "commands", "insert 5.200 1 1 @packet", "add 0 @first", "insert 5.777 0 0 @other", "drop 5.777",
        "replace 5.200 1 1 @packet", "renumber 5.200 777", "insert 5.777 1 0 @packet", "replace 5.777 1 0 @packet",
    )  # fmt: skip
    result = desk("do", "-f", "commands")
    assert (result.exit_code, "Kept: 10 commands." in result.output) == (0, True), result.output
    write("commands", "insert 5.777 1 0 @other")
    assert "the telegram has M_VERSION 33" in desk("do", "-f", "commands").output


def test_fields_go_by_the_version_of_the_telegram(desk: Desk) -> None:
    """Packet 41 is known in versions 2.Y alone. The line `packet` may name the version that the telegram has."""
    assert desk("do", "add 0 @first").exit_code == 2  # there is no such file
    write("first", *HEADER[:2], "M_VERSION 16", *HEADER[3:], "end")
    assert desk("do", "add 0 @first").exit_code == 0
    write("level", "NID_PACKET 41", "Q_DIR 1", "Q_SCALE 1", "D_LEVELTR 500", "M_LEVELTR 2", "L_ACKLEVELTR 100", "N_ITER 0")
    assert desk("do", "--dry-run", "insert 5.200 1 0 @level").exit_code == 0
    result = desk("do", "insert 5.777 0 0 @level")
    assert (result.exit_code, "level, line 3, `Q_SCALE 1`: the fields end before it (TooMany)" in result.output) == (1, True)
    write("kept", "packet 16", "NID_PACKET 41", "Q_DIR 1", "rest 4 a0")
    assert "BadHex" in desk("do", "insert 5.777 0 0 @kept").output
    write("kept", "packet 16", "NID_PACKET 41", "Q_DIR 1", "rest 4 a")
    assert desk("do", "insert 5.777 0 0 @kept").exit_code == 0
    assert fields(desk, "5.777", 0, 0)[0] == "packet 16"
    result = desk("do", "insert 5.200 1 0 @kept")
    assert "kept, line 1, `packet 16`: the telegram has M_VERSION 33. Leave the number out" in result.output


@pytest.mark.parametrize(
    ("lines", "text"),
    [
        ([], "has no fields"),
        (["# nothing"], "has no fields"),
        (["", "NID_PACKET 66", "", "NID_TSR 3"], "line 4, `NID_TSR 3`: Q_DIR is due here (NotDue)"),
        (["NID_PACKET 66", "Q_DIR 1"], "ends after line 2: NID_TSR is due there (Missing)"),
        (["NID_PACKET 66", "Q_DIR 1", "NID_TRS 3"], "line 3, `NID_TRS 3`: no variable has this name; did you mean NID_TSR"),
        (["NID_PACKET 66", "Q_DIR 1", "NID_TSR 300"], "line 3, `NID_TSR 300`: the value doesn't fit: NID_TSR is at most 255, in 8 bits (TooWide)"),
        (["packet 33", *REVOKED, "Q_DIR 1"], "line 5, `Q_DIR 1`: the fields end before it (TooMany)"),
        (["packet", *REVOKED[:2], "L_PACKET 30", REVOKED[2]], "line 1, `packet`: L_PACKET isn't the packet's length, 31: leave its line out"),
        ([*REVOKED, "rest 1 0"], "line 4, `rest 1 0`: a packet that is known has no bits after its fields (BitsLeft)"),
        (["NID_PACKET 44", "Q_DIR 1", "rest 3 0f"], "line 3, `rest 3 0f`: its digits"),
        (["NID_PACKET 44", "Q_DIR 1", f"rest 8200 {'0' * 2050}"], "line 1, `NID_PACKET 44`: the packet is longer than L_PACKET can say (TooLong)"),
        (["NID_PACKET 255", "Q_DIR 1"], "line 1, `NID_PACKET 255`: no packet has this number (NoFields)"),
        (["NID_PACKET 21", "Q_DIR 1", "Q_SCALE x"], "line 3, `Q_SCALE x`: no line of this form may stand here (BadLine)"),
        ([*REVOKED, "packet 33", *REVOKED], "line 4, `packet 33`: one packet may stand here, and no more"),
        ([*REVOKED, "group"], "line 4, `group`: no line of a plan may stand here"),
        (HEADER, "line 1, `telegram 210`: a packet is due here, and no telegram"),
    ],
)  # fmt: skip
def test_a_refused_packet(desk: Desk, line: Path, lines: list[str], text: str) -> None:
    write("file", *lines)
    before = files(line), Path("file").read_bytes()
    for words in (["insert 5.200 1 0 @file"], ["undo", "replace 5.200 1 0 @file"], ["--keep-accepted", "turn 5.300", "insert 5.200 1 0 @file"]):
        result = desk("do", *words)
        assert (result.exit_code, text in result.output) == (1, True), result.output
    assert (files(line), Path("file").read_bytes()) == before


@pytest.mark.parametrize(
    ("lines", "text"),
    [
        (REVOKED, "line 1, `NID_PACKET 66`: a telegram is due here: `telegram 210` or `telegram 830`"),
        (["telegram 211"], "line 1, `telegram 211`: no line of this form may stand here (BadLine)"),
        (HEADER, "ends after line 11: `end` is due there (Missing)"),
        ([*HEADER[:3], *HEADER[4:], "end"], "line 4, `N_PIG 0`: Q_MEDIA is due here (NotDue)"),
        ([*HEADER[:10], "end"], "line 11, `end`: Q_LINK is due before it (Missing)"),
        ([*HEADER, "end", "padding 3 0"], "line 1, `telegram 210`: the telegram would have 61 bits; a line `padding` may be left out"),
        ([HEADER[0], "Q_UPDOWN 0", *HEADER[2:], "end"], "line 1, `telegram 210`: the telegram isn't one from a balise to a train"),
        ([*HEADER, "end", "packet 33", *REVOKED], "line 13, `packet 33`: a telegram is due here, and no packet"),
        (["plan 1", "group", *HEADER, "end"], "line 1, `plan 1`: a telegram is due here"),
        ([*HEADER, "end", "group", *HEADER, "end"], "line 13, `group`: no line of a plan may stand here"),
    ],
)  # fmt: skip
def test_a_refused_telegram(desk: Desk, line: Path, lines: list[str], text: str) -> None:
    write("file", *lines)
    before = files(line)
    for words in (["add 0 @file"], ["add after 5.300 @file"]):
        result = desk("do", *words)
        assert (result.exit_code, text in result.output) == (1, True), result.output
    assert files(line) == before


def test_commands_with_files(desk: Desk, line: Path) -> None:
    write("file", *REVOKED)
    before = files(line)
    for command, status, text in (
        ("insert 5.201 1 0 @file", 1, "the plan has no group 5.201; did you mean 5.200"),
        ("insert 5.200 2 0 @file", 1, "5.200 has no telegram 2: 0 to 1"),
        ("insert 5.200 1 9 @file", 1, "telegram 1 of 5.200 has no such place: 0 is packet 65"),
        ("insert 5.200 1 @file", 1, "the form is `insert C.N PIG AT HEX`"),
        ("insert 5.200 1 0 @none", 2, "none can't be read"),
        ("replace 5.200 1 @file", 1, "the form is `replace C.N PIG PKT HEX`"),
        ("replace 5.200 1 1 @file", 1, "has no such place"),
        ("replace 5.400 0 9 42403e06", 1, "has no such place"),
        ("add @file", 1, "the form is `add AT HEX ..`"),
    ):
        result = desk("do", command)
        assert (result.exit_code, text in result.output) == (status, True), result.output
    assert files(line) == before
    write("commands", "replace 5.200 1 0 42403e06", "delete 5.200 1 7")
    assert "commands:2" in desk("do", "-f", "commands").output


def test_a_replace_is_kept_as_a_whole_or_not_at_all(desk: Desk, line: Path) -> None:
    before = files(line)
    for command in ("replace 5.200 1 0 4240", "replace 5.200 1 1 42403e06"):
        result = desk("do", "--keep-accepted", "turn 5.300", command)
        assert (result.exit_code, "A replace is done as a whole or not at all." in result.output) == (1, True), result.output
    assert files(line) == before
    assert desk("do", "--keep-accepted", "turn 5.300", "replace 5.201 1 0 42403e06").exit_code == 1  # none of it is done
    assert (line / "journal").read_text() == "journal 2 2\n1 turn b2\n"


@pytest.mark.parametrize("seed", range(PLANS))
def test_random_telegrams_and_packets(seed: int, engine: Engine) -> None:
    """What is printed of a group and of a packet gives their digits again, whatever stands in them."""
    maker = random_plans.PlanMaker(random.Random(seed).randrange(1 << 30), random_plans.SIZES["medium"])
    plan = "\n".join(["plan 1", "group", *maker.group((5, 100)), ""])
    run = engine.run(plan)
    (digits,), program = telegrams_of(run.plan), find_fields()
    write("group", *(line for item in program.explain(digits) for line in to_edit(item)))
    assert telegram_digits(engine, "group") == list(digits)
    for telegram, text in zip(run.groups[0].telegrams, digits, strict=True):
        version, bits = dict(telegram.header)["M_VERSION"], bits_of(text, telegram.bits)
        for packet, start in zip(telegram.packets, telegram.starts(), strict=False):
            alone = digits_of(bits[start : start + packet.bits])
            write("packet", *to_edit(program.explain([f"packet {version} {alone}"])[0]))
            assert packet_digits(engine, "packet", version) == alone
