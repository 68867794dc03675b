"""Tests of the calls over fields: `python3 -m pytest` in this folder, once `make shared` has built the library."""

from __future__ import annotations

import threading

import pytest

import baliseplan
from baliseplan import Field, Refusal

TELEGRAM = "a1007f80a03250900f82ffffffffffffffffffffffffffffffffc0\n"
PACKET = "packet 33 42403e08\n"
EXPLAINED = "packet 33\n0 8 NID_PACKET 0 66\n8 2 Q_DIR 0 1\n10 13 L_PACKET 0 31\n23 8 NID_TSR 0 4\n"
LONG = "x" * 4097


def test_a_telegram() -> None:
    fields = baliseplan.explain(TELEGRAM)
    (item,) = fields.items
    assert (item.lines, fields.refused, item.refusal) == (fields.lines, False, None)
    assert [(field.name, field.value) for field in item.header][-3:] == [("NID_C", 5), ("NID_BG", 100), ("Q_LINK", 1)]
    assert [packet[-1] for packet in item.packets] == [Field(73, 8, "NID_TSR", 0, 5)]
    assert item.lines[-2:] == ["end", "padding 121 " + "f" * 30 + "8"]


def test_a_packet_by_itself() -> None:
    (item,) = baliseplan.explain(PACKET).items
    assert item.header == []
    assert item.packets == [
        [Field(0, 8, "NID_PACKET", 0, 66), Field(8, 2, "Q_DIR", 0, 1), Field(10, 13, "L_PACKET", 0, 31),
         Field(23, 8, "NID_TSR", 0, 4)]
    ]  # fmt: skip


def test_an_item_for_each_line() -> None:
    lines = ["plan 1", "group", TELEGRAM.rstrip(), "packet 33 00", "edits", PACKET.rstrip(), "packet 33 2c803960"]
    items = baliseplan.explain(lines).items
    heads = ["plan 1", "group", "telegram 210", "packet 33", "fault 2 BadHex - 8 digit", "packet 33", "packet 33"]
    assert [item.lines[0] for item in items] == heads
    assert items[-1].lines[-1] == "rest 5 b0"


def test_refused_digits() -> None:
    fields = baliseplan.explain(["packet 33 42403c00", "xyz"])
    first, second = fields.items
    assert fields.refused
    assert first.refusal == Refusal(8, "LayoutMismatch", 0, 23, "NID_TSR")
    assert [field.name for field in first.packets[0]] == ["NID_PACKET", "Q_DIR", "L_PACKET"]
    assert second.refusal == Refusal(2, "BadHex", None, 0, "digit")


def test_fields_to_digits() -> None:
    digits = baliseplan.spell(["packet 33", "NID_PACKET 66", "Q_DIR 1", "NID_TSR 4"])
    assert (digits.text, digits.lines, digits.refused) == (PACKET, [PACKET.rstrip()], False)


def test_refused_fields() -> None:
    digits = baliseplan.spell(["group", "packet 33", "NID_PACKET 66", "NID_TSR 0"])
    assert (digits.lines, digits.refused) == (["group", "bad 4 NotDue Q_DIR"], True)


@pytest.mark.parametrize("digits", [TELEGRAM, PACKET, "plan 1\ngroup\n" + TELEGRAM])
def test_there_and_back(digits: str) -> None:
    fields = baliseplan.explain(digits)
    assert baliseplan.spell(fields.text).text == digits
    assert baliseplan.spell(line for item in fields.items for line in item.lines).text == digits


def test_nothing() -> None:
    assert (baliseplan.explain("").items, baliseplan.spell([]).lines) == ([], [])
    assert baliseplan.explain_bytes(b"") == baliseplan.spell_bytes(b"") == (0, b"")


def test_a_text_as_bytes_and_a_last_line_without_an_end() -> None:
    assert baliseplan.explain(PACKET.encode().rstrip()).text == EXPLAINED
    assert baliseplan.spell_bytes(EXPLAINED.encode().rstrip()) == (0, PACKET.encode())


def test_a_fault_keeps_what_was_printed() -> None:
    with pytest.raises(baliseplan.Fault) as caught:
        baliseplan.explain([PACKET.rstrip(), LONG])
    assert (caught.value.number, caught.value.output) == (29, EXPLAINED.encode())
    with pytest.raises(baliseplan.Fault) as caught:
        baliseplan.spell(["group", *EXPLAINED.splitlines(), LONG])
    assert (caught.value.number, caught.value.output) == (29, b"group\n")


def test_an_element_of_two_lines() -> None:
    with pytest.raises(ValueError):
        baliseplan.explain([PACKET])


def test_an_output_longer_than_the_first_guess() -> None:
    assert baliseplan.explain_bytes(b"\n" * 10_000) == (1, b"fault 3 BadLength - 0 length\n" * 10_000)


def test_threads() -> None:
    seen: list[tuple[int, bytes]] = []

    def calls() -> None:
        seen.extend({baliseplan.explain_bytes(PACKET.encode()) for _ in range(500)})

    threads = [threading.Thread(target=calls) for _ in range(4)]
    for thread in threads:
        thread.start()
    for thread in threads:
        thread.join()
    assert seen == [(0, EXPLAINED.encode())] * 4
