"""Random plans and commands. The reference is the oracle for tags and dependents, which the desk asks balisefacts for."""

from __future__ import annotations

import os
from collections.abc import Sequence
from io import BytesIO
from pathlib import Path
from typing import Any

import pytest
from conftest import call, has_to_go
from plandesk.changes import session_diff
from plandesk.compose import compose
from plandesk.desk import State, load
from plandesk.engine import Engine
from plandesk.errors import BadInput, Refusal
from plandesk.folder import Folder
from plandesk.sentences import sentence

import random_inputs
import run as reference_run

COUNT = int(os.environ.get("PLANDESK_RANDOM", "60"))
"""Sessions; the check gives fewer with --quick."""
PAIRS = int(os.environ.get("PLANDESK_PAIRS", "200"))


def folder_of(seed: int, size: str, path: Path, engine: Engine) -> State | None:
    """A folder after the commands of a random input, kept where accepted. None where the input is bad."""
    text: str = random_inputs.make_input(seed, size).text.decode("latin-1")
    before, found, after = text.partition("\nedits\n")
    plan, _, journal = before.partition("\njournal ")
    if not found or not plan.startswith("plan 1"):
        return None
    (path / "plan").write_bytes(f"{plan}\n".encode("latin-1"))
    (path / "first").write_bytes((f"journal {journal}\n" if journal else "").encode("latin-1"))
    commands = [line for line in after.splitlines() if line.strip() and "#" not in line and len(line) < 4000]
    if call("init", path / "plan", path / "line", "--journal", path / "first").exit_code != 0:
        return None
    if commands:
        (path / "commands").write_bytes("\n".join(commands).encode("latin-1"))
        assert call("-C", path / "line", "do", "--keep-accepted", "-f", path / "commands").exit_code in (0, 1)
    return load(Folder(path / "line"), engine)


@pytest.mark.parametrize("seed", range(COUNT))
def test_a_random_session(seed: int, tmp_path: Path, engine: Engine) -> None:
    state = folder_of(seed, "medium" if seed % 4 == 0 else "small", tmp_path, engine)
    if state is None:
        return  # a bad input; most are good
    text = (state.base + state.run.journal + "edits\n").encode("latin-1")
    oracle = reference_run.read_session(reference_run.Lines(BytesIO(text).read))
    check_tags(state, oracle)
    check_dependents(state, oracle)
    for entry in state.journal.entries:
        assert str(sentence(entry, state.names))
    for tag, at in state.tags.groups.items():
        assert state.identities.last(tag) == state.groups[at].name
        assert list(state.groups.sizes(at)) == [len(telegram.packets) for telegram in state.groups[at].telegrams]
    changed = session_diff(state)
    before, after = state.base, state.run.plan
    assert bool(changed) or sorted(before.split("group\n")) == sorted(after.split("group\n"))
    composed = compose(engine, before, after)
    assert engine.run(before, "", composed.commands).plan == after
    for words in (["log", "--tags"], ["diff", "--bits"], ["show"], ["links"], ["reviews", "--all"], ["status"]):
        assert call("-C", tmp_path / "line", *words).exit_code == 0
    assert call("-C", tmp_path / "line", "report", "--engine-only", "-o", tmp_path / "report.html").exit_code == 0


def check_tags(state: State, oracle: Any) -> None:
    groups = oracle.plan.groups
    assert {group.tag: at for at, group in enumerate(groups)} == state.tags.groups
    packets = {
        (group.tag, telegram.tag, packet.tag): (at, pig, pkt)
        for at, group in enumerate(groups)
        for pig, telegram in enumerate(group.telegrams)
        for pkt, packet in enumerate(telegram.packets)
    }
    for path, place in packets.items():
        assert (state.tags.packet(path), state.tags.path(place)) == (place, path)
        assert state.tags.telegram(*path[:2]) == place[:2]
    shapes = state.tags.shapes
    assert sum(sum(shape.sizes) for shape in shapes.values()) == len(packets)
    assert [len(group.telegrams) for group in groups] == [len(shapes[at].telegrams) for at in range(len(groups))]


def check_dependents(state: State, oracle: Any) -> None:
    """What the desk would strike is just what has to go, and its strikes are accepted."""
    standing = [entry.serial for entry in state.journal.standing]
    for serial in standing:
        found = state.dependents.all_of(serial)
        assert set(found) == has_to_go(oracle.levels[-1], serial)
        check_reasons(state, serial, found)
    for serial in standing[:: max(1, len(standing) // 4)]:
        commands = [f"strike {each}" for each in (*state.dependents.all_of(serial), serial)]
        assert not state.engine.run(state.base, state.run.journal, commands, view=False).refused
        if len(commands) > 1:
            short = [*commands[:-2], commands[-1]]
            assert state.engine.run(state.base, state.run.journal, short, view=False).refused


def check_reasons(state: State, serial: int, found: Sequence[int]) -> None:
    """Each edit that would go has a reason: an earlier one that goes, and a place of it."""
    kinds = {entry.serial: entry.kind for entry in state.journal.standing}
    for each in found:
        earlier, place = state.dependents.reason(each, {serial, *found})
        assert earlier in (serial, *found) and earlier < each
        assert place or {kinds[earlier], kinds[each]} == {"insert", "delete"}


def random_plan(seed: int, engine: Engine) -> str | None:
    size = "medium" if seed % 5 == 0 else "small"
    text = random_inputs.make_input(seed, size).text.decode("latin-1")
    plan = text.partition("\nedits")[0].partition("\njournal ")[0] + "\n"
    try:
        return engine.run(plan, view=False).plan
    except (BadInput, ValueError):
        return None


def test_commands_between_random_plans(engine: Engine) -> None:
    """Commands that turn any plan into any other, or a word that there are none. Half of the pairs are alike."""
    plans: list[str] = []
    seed = 1000
    while len(plans) < PAIRS + 1:
        plan = random_plan(seed, engine)
        seed += 1
        if plan is not None:
            plans.append(plan)
    made = 0
    for at, (first, second) in enumerate(zip(plans, plans[1:], strict=False)):
        if at % 2:
            second = edited(engine, first, at)
        try:
            commands = compose(engine, first, second).commands
        except Refusal as refusal:
            assert "aren't shown" in refusal.message
            continue
        made += 1
        assert engine.run(first, "", commands, view=False).plan == second
    assert made >= 0.9 * PAIRS, made


def edited(engine: Engine, plan: str, seed: int) -> str:
    """The plan after the commands of a random input that are accepted there."""
    text = random_inputs.make_input(seed, "small").text.decode("latin-1")
    names = engine.run(plan).groups.names
    commands = [f"turn {name}" for name in names[seed % 3 :: 3]] + [f"renumber {names[0]} {9000 + seed}"] if names else []
    commands += [line for line in text.partition("\nedits\n")[2].splitlines() if line.strip() and len(line) < 4000]
    return engine.run(plan, "", commands, view=False).plan
