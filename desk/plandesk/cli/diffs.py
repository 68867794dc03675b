"""The command that shows what differs between two plans."""

from __future__ import annotations

from collections.abc import Sequence
from dataclasses import dataclass, field
from pathlib import Path
from typing import Any

import click
from rich.text import Text

from plandesk import folder as files, matching, out, show
from plandesk.causes import Request, causes, read_request
from plandesk.changes import session_diff
from plandesk.cli.base import complete_group, find_here, json_option, load, main
from plandesk.compare import GroupDiff, Part, Plan, compare, order_differs
from plandesk.compose import Composed, compose
from plandesk.engine import find_engine
from plandesk.errors import OK, REFUSED, Usage
from plandesk.rows import brief


@dataclass(frozen=True)
class Found:
    """The groups that differ, what each comes from, and whether the others stand in another order."""

    groups: list[GroupDiff]
    why: dict[str, str] = field(default_factory=dict)
    moved: bool = False


@main.command()
@click.argument("plans", nargs=-1, type=click.Path(path_type=Path), metavar="[A B]")
@click.option("--commands", is_flag=True, help="Print commands that turn A into B, checked by the engine.")
@click.option("--line", "stored", is_flag=True, help="Compare line.plan with what the engine makes of base and journal.")
@click.option("--stat", is_flag=True, help="Only the groups that differ, a line each.")
@click.option("--bits", is_flag=True, help="Show the bits of each changed part, too.")
@click.option(
    "--group", "only", metavar="C.N", multiple=True, shell_complete=complete_group,
    help="Only this group. May be given several times.",
)
@click.option(
    "--request", metavar="FILE", type=click.Path(path_type=Path),
    help="Compare with the groups that a change request names.",
)
@json_option
@click.pass_obj
def diff(
    where: Path | None, plans: tuple[Path, ...], commands: bool, stored: bool, stat: bool, bits: bool,
    only: tuple[str, ...], request: Path | None, as_json: bool,
) -> int:
    """Show what changed, field by field.

    Without A and B that is base.plan and line.plan, and a renumbered or turned group is known as what it was.

    Bits are shown where no field can say it: padding, and packets that the engine doesn't know. With
    --commands, the status is 1 where the engine can't make B of them; then nothing is printed to standard
    output. With --request, it is 1 where a group differs that the request doesn't name, or the other way round.
    """
    if len(plans) not in (0, 2):
        raise Usage("give two plans, or none for base.plan and line.plan")
    if commands:
        texts = [files.read_text(path) for path in plans] if plans else session_texts(where, stored)
        return print_commands(compose(find_engine(), texts[0], texts[1]), as_json)
    found = of_plans(plans) if plans else of_stored(where) if stored else of_session(where)
    if request is not None:
        return tell_request(read_request(files.read_text(request)), found, as_json)
    groups = [group for group in found.groups if not only or {group.name_before, group.name_after} & set(only)]
    if as_json:
        out.dump([diff_data(group) | {"by": found.why.get(group.name, "")} for group in groups])
    else:
        tell_diff(groups, found, stat, bits)
    return OK


def session_texts(where: Path | None, stored: bool) -> list[str]:
    folder = find_here(where)
    with folder.locked(alone=False):
        state = load(folder, strict=False)
    return [state.run.plan if stored else state.base, state.line]


def of_plans(plans: Sequence[Path]) -> Found:
    return of_texts([files.read_text(path) for path in plans], [str(path) for path in plans])


def of_stored(where: Path | None) -> Found:
    return of_texts(session_texts(where, True), ["the plan that the engine makes", files.LINE])


def of_texts(texts: Sequence[str], names: Sequence[str]) -> Found:
    engine = find_engine()
    a, b = (engine.run(text, name=name) for text, name in zip(texts, names, strict=True))
    pairs = matching.by_content(a.groups, b.groups)
    found = list(compare(pairs, Plan.of(a.plan, a.groups), Plan.of(b.plan, b.groups)))
    return Found(found, moved=order_differs(pairs))


def of_session(where: Path | None) -> Found:
    folder = find_here(where)
    with folder.locked(alone=False):
        state = load(folder, strict=False)
    found = session_diff(state)
    because = causes(found, state.names) if found else []
    return Found(found, {d.name: cause.words(state.names) for d, cause in zip(found, because, strict=True)})


def tell_diff(groups: Sequence[GroupDiff], found: Found, stat: bool, bits: bool) -> None:
    if stat:
        rows: list[list[out.Cell]] = []
        for group in groups:
            by = found.why.get(group.name, "")
            rows.append([group.title, ", ".join(group.words), brief(group), Text(f"by {by}" if by else "", "dim")])
        out.table(rows)
    else:
        show.diff_lines(groups, found.why, bits=bits)
    if found.moved:
        out.line(Text("Groups stand in another order.", "magenta"))
    elif not groups:
        out.line("No group differs.")


def tell_request(request: Request, found: Found, as_json: bool) -> int:
    beyond, idle = request.beyond(found.groups), request.idle(found.groups)
    if as_json:
        out.dump({"beyond": [group.title for group in beyond], "idle": idle})
    else:
        for group in beyond:
            by = found.why.get(group.name, "")
            note = f"  {brief(group)}" + (f"  by {by}" if by else "")
            out.line(Text("Changed, but not in the request: ", "bold red"), group.title, Text(note, "dim"))
        for name in idle:
            out.line(Text("In the request, but not changed: ", "bold yellow"), name)
        if not beyond and not idle:
            out.line("Just the groups of the request changed.")
    return REFUSED if beyond or idle else OK


def print_commands(composed: Composed, as_json: bool) -> int:
    if as_json:
        out.dump({"commands": list(composed.commands), "anew": composed.anew})
        return OK
    for command in composed.commands:
        print(command)
    for name, why in composed.anew.items():
        out.errors.print(Text(f"{name} is taken out and added anew: {why}", "yellow"))
    count = out.count(len(composed.commands), "command")
    out.errors.print(Text(f"{count}; the engine makes exactly the second plan of them", "dim"))
    return OK


def diff_data(group: GroupDiff) -> dict[str, Any]:
    telegrams = []
    for telegram in group.telegrams:
        if telegram.changed:
            parts = [part_data(part) for part in telegram.parts if part.changed]
            telegrams.append({"before": telegram.before, "after": telegram.after, "parts": parts})
    before, after = group.name_before or None, group.name_after or None
    return {"before": before, "after": after, "what": group.words, "telegrams": telegrams}


def part_data(part: Part) -> dict[str, Any]:
    fields = [{"name": c.name, "k": c.k, "before": c.before, "after": c.after} for c in part.shown]
    bits = {"bits_before": part.before, "bits_after": part.after} if part.content else {}
    places = {"pkt_before": part.place_before, "pkt_after": part.place_after} if part.kind == "packet" else {}
    return {"part": part.name, "note": part.note, **places, "fields": fields, **bits}
