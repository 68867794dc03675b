"""Commands that turn one plan into another. Only what the engine proves right is given out.

A first draft goes from groups to packets to fields. The engine runs it; where a group isn't then as it has to be, it is
taken out and added anew with its digits, which is exact for any group. Then the engine runs all of it again.
"""

from __future__ import annotations

from collections.abc import Iterator, Sequence
from dataclasses import dataclass

from plandesk.compare import Plan, Side
from plandesk.compose_packets import Inexact, header_commands, packet_commands
from plandesk.engine import Engine, Run
from plandesk.errors import Refusal
from plandesk.matching import by_content, rising



@dataclass(frozen=True)
class Composed:
    """Commands that make B of A, exactly: the engine did it. `anew` says which groups lose their history, and why."""

    commands: tuple[str, ...]
    anew: dict[str, str]


def compose(engine: Engine, a_text: str, b_text: str) -> Composed:
    """The commands, or a Refusal where the engine doesn't make B of them."""
    a, b = engine.run(a_text), engine.run(b_text, name="the second plan")
    if a.plan == b.plan:
        return Composed((), {})
    whole = _whole_groups(engine, a_text, a, b)
    middle = engine.run(a_text, "", whole)
    anew: dict[str, str] = {}
    for _ in range(4):
        commands = [*whole, *_rest(middle, b, anew)]
        done = engine.run(a_text, "", commands)
        if done.plan == b.plan:
            return Composed(tuple(commands), anew)
        if not _learn(done, b, commands, anew):
            break
    refused = next((f"`{c}`: {r.text}" for c, r in zip(commands, done.replies, strict=False) if r.refused), "")
    raise Refusal(
        "the engine doesn't make the second plan of these commands, so they aren't shown" + (f" ({refused})" if refused else "")
    )


def _learn(done: Run, b: Run, commands: Sequence[str], anew: dict[str, str]) -> bool:
    """Puts down which groups didn't come out right. False where nothing new is learned."""
    made = dict(zip((g.name for g in done.groups), Plan.of(done.plan, done.groups).digits, strict=True))
    wanted = dict(zip((g.name for g in b.groups), Plan.of(b.plan, b.groups).digits, strict=True))
    size = len(anew)
    for name, digits in wanted.items():
        if made.get(name) != digits and name not in anew:
            refused = any(c.split(" ")[1:2] == [name] and r.refused for c, r in zip(commands, done.replies, strict=False))
            anew[name] = "an edit of it is refused" if refused else "bits differ that no command sets (padding)"
    return len(anew) > size


def _whole_groups(engine: Engine, a_text: str, a: Run, b: Run) -> list[str]:
    """Renumberings and turns that the engine accepts."""
    renumber, turn = [], []
    for pair in by_content(a.groups, b.groups):
        if pair.before is None or pair.after is None:
            continue
        old, new = a.groups[pair.before], b.groups[pair.after]
        if old.number != new.number:
            renumber.append(f"renumber {old.name} {new.number}")
        if pair.turned:
            turn.append(f"turn {new.name}")
    accepted: list[str] = []
    while renumber:
        replies = engine.run(a_text, "", [*accepted, *renumber], view=False).replies[len(accepted) :]
        good = [command for command, reply in zip(renumber, replies, strict=True) if not reply.refused]
        renumber = [command for command, reply in zip(renumber, replies, strict=True) if reply.refused]
        accepted += good
        if not good:
            break
    replies = engine.run(a_text, "", [*accepted, *turn], view=False).replies[len(accepted) :]
    return accepted + [command for command, reply in zip(turn, replies, strict=True) if not reply.refused]


def _rest(middle: Run, b: Run, anew: dict[str, str]) -> list[str]:
    """Groups out, groups in, and then what is inside them."""
    old, new = Plan.of(middle.plan, middle.groups), Plan.of(b.plan, b.groups)
    at = {group.name: i for i, group in enumerate(old.groups)}
    wanted = {group.name: i for i, group in enumerate(new.groups)}
    both = [name for name in wanted if name in at and name not in anew]
    inside: dict[str, list[str]] = {}
    for name in both:
        if old.digits[at[name]] != new.digits[wanted[name]]:
            try:
                inside[name] = list(_group(old, at[name], new, wanted[name]))
            except Inexact as reason:
                anew[name] = str(reason)
    both = [name for name in both if name not in anew]
    places = rising([at[name] for name in both])
    stay = {name for name in both if at[name] in places}
    for name in both:
        if name not in stay:
            anew[name] = "it stands in another place, and no command moves a group"
    drops = [f"drop {group.name}" for group in old.groups if group.name not in stay]
    adds = [
        f"add {i} {' '.join(new.digits[i])}" for i, group in enumerate(new.groups) if group.name not in stay
    ]
    edits = [command for name in both if name in stay for command in inside.get(name, [])]
    return [*drops, *adds, *edits]


def _group(a: Plan, at: int, b: Plan, to: int) -> Iterator[str]:
    old, new = a.groups[at], b.groups[to]
    if len(old.telegrams) != len(new.telegrams):
        raise Inexact("it has another number of telegrams")
    for pig, (was, now) in enumerate(zip(old.telegrams, new.telegrams, strict=True)):
        if was.bits != now.bits:
            raise Inexact(f"telegram {pig} has another length")
        here = f"{new.name} {pig}"
        yield from header_commands(here, was, now)
        yield from packet_commands(here, Side(was, a.bits(at, pig)), Side(now, b.bits(to, pig)))
