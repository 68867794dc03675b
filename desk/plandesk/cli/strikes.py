"""The command that strikes edits, with what depends on them."""

from __future__ import annotations

from collections.abc import Collection, Sequence

import click
from rich.text import Text

from plandesk import desk, out
from plandesk.cli.base import complete_serial, in_folder, json_option, load, main
from plandesk.desk import State
from plandesk.errors import OK, REFUSED, Refusal
from plandesk.folder import Folder
from plandesk.places import place_words, room_words
from plandesk.sentences import sentence


@main.command()
@click.argument("serials", type=int, nargs=-1, required=True, metavar="N..", shell_complete=complete_serial)
@click.option("--with-dependents", is_flag=True, help="Strike first what depends on it, last first.")
@click.option("-n", "--dry-run", is_flag=True, help="Change nothing; only say what would be struck.")
@json_option
@in_folder(alone=True)
def strike(folder: Folder, serials: tuple[int, ...], with_dependents: bool, dry_run: bool, as_json: bool) -> int:
    """Take back edit N, and keep the later ones. `plandesk redo` brings it back.

    If later edits depend on N they are listed, each with an edit that it needs and the place where they meet,
    and nothing is changed. --with-dependents strikes them too.
    """
    state = load(folder)
    check_standing(state, serials)
    wanted = {*serials, *state.dependents.all_of(*serials)}
    order = sorted(wanted, reverse=True)
    more = [serial for serial in order if serial not in serials]
    stay = set_for(state, wanted)
    refused = bool(more) and not with_dependents
    if not refused:
        outcome = desk.tried(state, [f"strike {serial}" for serial in order], dry_run=dry_run)
        if outcome.run.refused:
            raise Refusal("the engine refused: " + next(r.text for _, r in outcome.pairs if r.refused))
    names = None if as_json else state.names
    if not refused:
        desk.keep(state, outcome)
    if names is None:
        struck = [] if refused or dry_run else order
        why = {str(serial): state.dependents.reason(serial, wanted) for serial in more[::-1]}
        meets = {serial: {"edit": earlier, "place": place} for serial, (earlier, place) in why.items()}
        out.dump(
            {"struck": struck, "order": order, "dependents": more[::-1], "needs": meets, "set_for_it": stay}
        )
    elif refused:
        tell_dependents(state, serials, order, more[::-1])
    else:
        tell_struck(state, order, stay, dry_run)
    return REFUSED if refused else OK


def check_standing(state: State, serials: Sequence[int]) -> None:
    for serial in serials:
        if serial not in state.standing:
            gone = serial in state.journal.by_serial
            what = f"edit {serial} is undone already" if gone else f"there is no edit {serial}"
            raise Refusal(what, "`plandesk log` lists the edits")


def table(state: State, numbers: Sequence[int], struck: Collection[int] = ()) -> None:
    """Edits in words; with those that are to be struck, what each needs of them."""
    rows: list[list[out.Cell]] = []
    for number in numbers:
        words = sentence(state.journal.by_serial[number], state.names)
        why = reason_words(state, number, struck) if struck else ""
        rows.append([str(number), Text(words.place, "cyan"), words.what, Text(why, "dim")])
    out.table(rows, indent="  ", right=frozenset({0}))


def reason_words(state: State, serial: int, struck: Collection[int]) -> str:
    """Which of the struck edits an edit needs, and the place where they meet."""
    earlier, place = state.dependents.reason(serial, struck)
    words = place_words(place, state.names) if place else room_words(state.journal.by_serial[serial], state.names)
    return f"needs {earlier}: {words}"


def tell_dependents(state: State, serials: Sequence[int], order: Sequence[int], more: Sequence[int]) -> None:
    verb = "depends" if len(more) == 1 else "depend"
    out.line(Text(f"{out.count(len(more), 'later edit')} {verb} on {out.listed(serials)}", "bold red"), ":")
    table(state, more, set(order))
    out.line()
    command = f"`plandesk strike {' '.join(map(str, serials))} --with-dependents`"
    out.line("Nothing was changed. ", Text(f"{command} strikes {out.listed(order)}.", "dim"))


def tell_struck(state: State, order: Sequence[int], stay: Sequence[int], dry_run: bool) -> None:
    count = f" {len(order)}" if len(order) > 1 else ""
    way_back = "" if dry_run else f"   (`plandesk redo{count}` brings back, and not undo)"
    words = "Would be struck" if dry_run else "Struck"
    out.line(Text(words, "bold green"), f": {out.listed(order)}", Text(way_back, "dim"))
    table(state, order)
    if stay:
        out.line()
        out.line(Text(f"Set for a turn that is struck, and {'would stay' if dry_run else 'still there'}:", "yellow"))
        table(state, stay)
        out.line(Text(f"`plandesk strike {' '.join(map(str, stay))}` takes them back, too.", "dim"))


def set_for(state: State, struck: set[int]) -> list[int]:
    """Later edits of values that a struck turn had put up for review. They don't depend on it, but belong to it."""
    places = {(item.path, item.variable, item.k): item.serial for item in state.reviews.items if item.serial in struck}
    found = []
    for entry in state.journal.standing:
        if entry.kind == "set" and entry.telegram is not None and entry.serial not in struck:
            path = (entry.group, entry.telegram, entry.packet)
            turn = places.get((path, entry.variable, entry.k))
            if turn is not None and turn < entry.serial:
                found.append(entry.serial)
    return found
