"""The command that lists what a turn left to look at, and ticks it off."""

from __future__ import annotations

from collections.abc import Sequence
from dataclasses import replace
from pathlib import Path
from typing import Any

import click
from rich.text import Text

from plandesk import folder as files, out
from plandesk.cli.base import find_here, json_option, load, main
from plandesk.desk import State
from plandesk.errors import OK, Usage
from plandesk.folder import Folder
from plandesk.reviews import Review
from plandesk.sentences import review_words
from plandesk.show import review_table


@main.command()
@click.option("--done", is_flag=True, help="Tick these off.")
@click.option("--reopen", is_flag=True, help="Take the ticks of these back.")
@click.option("--all", "everything", is_flag=True, help="Also those ticked off, and those of turns that are undone.")
@click.option("--commands", is_flag=True, help="Print the open distances as commands, ready for new values.")
@click.argument("numbers", type=int, nargs=-1, metavar="[N..]")
@json_option
@click.pass_obj
def reviews(
    where: Path | None, done: bool, reopen: bool, everything: bool, commands: bool, numbers: tuple[int, ...], as_json: bool
) -> int:
    """List what a turn left to look at, and tick it off.

    \b
    plandesk reviews
    plandesk reviews --commands > distances     # then put the values right, and
    plandesk do -f distances
    plandesk reviews --done 1 2 3
    """
    if done and reopen or bool(numbers) != (done or reopen):
        raise Usage("say which reviews, and what to do with them: --done or --reopen")
    folder = find_here(where)
    with folder.locked(alone=done or reopen):
        state = ticked(folder, numbers, done) if numbers else load(folder)
    open_ = state.reviews.open(state.standing)
    shown = list(state.reviews.items) if everything else open_
    if commands:
        print_commands(state, shown)
    elif as_json:
        out.dump([review_data(item, state) for item in shown])
    else:
        tell_reviews(state, shown, len(open_))
    return OK


def ticked(folder: Folder, numbers: Sequence[int], done: bool) -> State:
    state = load(folder)
    state = replace(state, reviews=state.reviews.marked(numbers, done))
    state.names  # what is shown is asked for before anything is kept
    folder.write({files.REVIEWS: state.reviews.text()})
    return state


def print_commands(state: State, shown: Sequence[Review]) -> None:
    for item in shown:
        words = review_words(item, state.names)
        if not item.opaque and words.now != "gone":
            value = words.now.replace("\u202f", "").replace(" ", "")
            print(f"set {words.place} {item.variable} {item.k} {value}  # {item.number}: {words.what}")


def tell_reviews(state: State, shown: Sequence[Review], count: int) -> None:
    if shown:
        review_table(state, shown)
        out.line()
    ticks = sum(item.done for item in state.reviews.items)
    words = f"{out.count(count, 'review')} open" if count else "No review is open"
    out.line(words, Text(f", {ticks} ticked off" if ticks else "", "dim"))
    if state.turns_without_review:
        which = out.listed(state.turns_without_review)
        out.line(Text(f"Turns without a review: {which}. They left none, or the journal was taken over without it.", "yellow"))


def review_data(item: Review, state: State) -> dict[str, Any]:
    words = review_words(item, state.names)
    status = "done" if item.done else "open" if item.serial in state.standing else "turn undone"
    return {
        "number": item.number,
        "state": status,
        "edit": item.serial,
        "place": words.place,
        "what": words.what,
        "then": words.then,
        "now": words.now,
    }
