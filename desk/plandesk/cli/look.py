"""Commands that show a line."""

from __future__ import annotations

from pathlib import Path
from typing import Any

import click
from rich.text import Text

from plandesk import folder as files, out, show
from plandesk.changes import changed_count
from plandesk.cli.base import complete_group, find_here, in_folder, json_option, load, main
from plandesk.desk import State
from plandesk.engine import find_engine
from plandesk.errors import BAD_INPUT, OK, Refusal, Usage
from plandesk.explain import near_groups
from plandesk.folder import Folder
from plandesk.journal import Entry
from plandesk.sentences import sentence
from plandesk.view import Group, Groups, Packet, kept_packets, links_of
from plandesk.vocabulary import meaning, names_groups, packet_name


@main.command()
@json_option
@in_folder(alone=False)
def status(folder: Folder, as_json: bool) -> int:
    """Say where the work stands."""
    state = load(folder, strict=False)
    data = status_data(folder, state)
    if as_json:
        out.dump(data)
    else:
        tell_status(state, data)
    return OK if state.whole else BAD_INPUT


def status_data(folder: Folder, state: State) -> dict[str, Any]:
    undone, standing = state.journal.undone, state.journal.standing
    return {
        "folder": str(folder.path),
        "groups": len(state.groups),
        "changed_groups": changed_count(state),
        "edits": len(state.journal.entries),
        "standing": len(standing),
        "undone": len(undone),
        "next_undo": standing[-1].serial if standing else None,
        "next_redo": undone[-1] if undone else None,
        "open_reviews": len(state.reviews.open(state.standing)),
        "missing_links": sum(link.missing for link in links_of(state.groups)),
        "whole": state.whole,
        "sha256": state.checksums,
    }


def tell_status(state: State, data: dict[str, Any]) -> None:
    out.heading(data["folder"])
    edits = f"{data['standing']:,} stand"
    if data["next_undo"]:
        edits += f" (undo takes back {data['next_undo']})"
    if data["undone"]:
        edits += f", {data['undone']:,} undone or struck (redo brings back {data['next_redo']})"
    open_, missing = data["open_reviews"], data["missing_links"]
    lost = f"{missing:,} {'names' if missing == 1 else 'name'} a group that isn't in the plan"
    bad = Text("line.plan or journal was changed by hand: see `plandesk diff --line`", "bold red")
    rows: list[list[out.Cell]] = [
        ["plan", f"{out.count(data['groups'], 'group')}, {data['changed_groups']:,} changed since base.plan"],
        ["edits", edits],
        ["reviews", Text(f"{open_} open", "yellow") if open_ else "none open"],
        ["links", Text(lost, "yellow") if missing else "all name a group of the plan"],
        ["files", "as the engine prints them" if state.whole else bad],
    ]
    out.table(rows, indent="  ")


@main.command()
@click.option("--standing", is_flag=True, help="Only the edits that stand.")
@click.option("--group", "only", metavar="C.N", shell_complete=complete_group, help="Only the edits of this group.")
@click.option("--tags", is_flag=True, help="Show each journal line too.")
@click.option("--no-dependencies", is_flag=True, help="Leave out what each needs; faster on a long journal.")
@json_option
@in_folder(alone=False)
def log(
    folder: Folder, standing: bool, only: str | None, tags: bool, no_dependencies: bool, as_json: bool
) -> int:
    """List the edits in words, by today's identities, and what each needs."""
    state = load(folder, strict=False)
    entries = state.journal.standing if standing else list(state.journal.entries)
    if only:
        entries = [entry for entry in entries if sentence(entry, state.names).group == only]
        if not entries and only not in state.groups.places:
            raise Usage(f"there is no group {only} in the plan or the journal{near_groups(only, state.groups)}")
    needed = not no_dependencies and bool(state.journal.standing)
    if as_json:
        out.dump([entry_data(entry, state, needed) for entry in entries])
        return OK
    tell_entries(entries, state, needed, tags)
    if state.journal.undone and not standing:
        which = ", ".join(map(str, state.journal.undone[::-1][:10]))
        out.line(Text(f"redo brings back {which}, in this order; a new edit discards them", "dim"))
    if not entries:
        out.line("No edit." if not only else f"No edit of {only}.")
    return OK


def entry_data(entry: Entry, state: State, needed: bool) -> dict[str, Any]:
    words = sentence(entry, state.names)
    return {
        "serial": entry.serial,
        "state": "undone" if entry.serial in state.journal.gone else "standing",
        "kind": entry.kind,
        "group": words.group,
        "place": words.place,
        "what": words.what,
        "detail": words.detail,
        "entry": entry.text,
        "needs": state.dependents.needed_by(entry.serial) if needed else [],
        "dependents": state.dependents.all_of(entry.serial) if needed else [],
    }


def tell_entries(entries: list[Entry], state: State, needed: bool, tags: bool) -> None:
    rows: list[list[out.Cell]] = []
    for entry in entries:
        words = sentence(entry, state.names)
        gone = entry.serial in state.journal.gone
        style = "dim" if gone else ""
        needs = state.dependents.needed_by(entry.serial) if needed else []
        rows.append(
            [
                Text(str(entry.serial), style),
                Text("undone" if gone else "", "yellow"),
                Text(words.place, "dim" if gone else "cyan"),
                Text(words.what, style),
                Text(words.packet, "dim"),
                Text(f"needs {out.listed(needs)}" if needs else "", "dim"),
            ]
        )
        if tags:
            rows.append(["", "", "", Text(out.short(entry.text, 100), "dim")])
    out.table(rows, right=frozenset({0}))


@main.command(name="show")
@click.argument("group", required=False, metavar="[C.N]", shell_complete=complete_group)
@click.option("--plan", "file", type=click.Path(path_type=Path), help="Look at this plan instead.")
@json_option
@click.pass_obj
def show_(where: Path | None, group: str | None, file: Path | None, as_json: bool) -> int:
    """Show all groups, or one with all its fields."""
    groups = plan_groups(where, file)
    if group is None:
        if as_json:
            out.dump([group_data(each) for each in groups])
        else:
            show.group_table(groups)
        return OK
    at = groups.places.get(group)
    if at is None:
        raise Refusal(f"the plan has no group {group}{near_groups(group, groups)}")
    if as_json:
        out.dump(group_data(groups[at]))
    else:
        show.group_lines(groups[at], at)
    return OK


def plan_groups(where: Path | None, file: Path | None) -> Groups:
    if file is not None:
        return find_engine().run(files.read_text(file), name=str(file)).groups
    folder = find_here(where)
    with folder.locked(alone=False):
        return load(folder, strict=False).groups


def group_data(group: Group) -> dict[str, Any]:
    telegrams = []
    for pig, telegram in enumerate(group.telegrams):
        packets = [packet_data(pkt, packet) for pkt, packet in enumerate(telegram.packets)]
        left = telegram.bits - telegram.used
        telegrams.append(
            {"pig": pig, "bits": telegram.bits, "left": left, "header": dict(telegram.header), "packets": packets}
        )
    return {"group": group.name, "telegrams": telegrams}


def packet_data(pkt: int, packet: Packet) -> dict[str, Any]:
    fields = [
        {"name": name, "k": k, "value": value, "means": meaning(name, value, packet.scale)}
        for name, k, value in packet.fields
    ]
    name = packet_name(packet.number)
    return {"pkt": pkt, "number": packet.number, "name": name, "known": packet.known, "fields": fields}


@main.command()
@click.option("--dangling", is_flag=True, help="Only those that name a group that isn't in the plan.")
@click.option("--to", "target", metavar="C.N", shell_complete=complete_group, help="Only those that name this group.")
@click.option("--unknown", is_flag=True, help="Instead, the packets that the engine doesn't know: it follows no number in them.")
@click.option("--plan", "file", type=click.Path(path_type=Path), help="Look at this plan instead.")
@json_option
@click.pass_obj
def links(
    where: Path | None, dangling: bool, target: str | None, unknown: bool, file: Path | None, as_json: bool
) -> int:
    """List which group each link names, and how far it is."""
    groups = plan_groups(where, file)
    if unknown:
        return tell_unknown(groups, as_json)
    found = [
        link for link in links_of(groups) if (link.missing or not dangling) and target in (None, link.target)
    ]
    if as_json:
        out.dump([vars(link) for link in found])
    elif found:
        show.links(found)
    else:
        out.line("No link." if not dangling else "No link names a group that isn't in the plan.")
    return OK


def tell_unknown(groups: Groups, as_json: bool) -> int:
    """A renumbering doesn't follow numbers of groups in these packets."""
    found = [(place, packet.number, packet_name(packet.number)) for place, packet in kept_packets(groups)]
    if as_json:
        keys = ("place", "number", "name", "names_groups")
        out.dump([dict(zip(keys, (*each, names_groups(each[1])), strict=True)) for each in found])
    elif found:
        marks = [Text("has numbers of groups" if names_groups(number) else "", "yellow") for _, number, _ in found]
        out.table([[Text(place, "cyan"), str(number), name, mark] for (place, number, name), mark in zip(found, marks, strict=True)])
    else:
        out.line("The engine knows all packets.")
    return OK
