"""The commands that make edits: do, undo and redo."""

from __future__ import annotations

import sys
from pathlib import Path

import click
from rich.text import Text

from plandesk import command_lines, desk, folder as files, out
from plandesk.cli.base import in_folder, json_option, load, main
from plandesk.cli.outcome import names_for, outcome_data, tell
from plandesk.desk import State
from plandesk.errors import OK, REFUSED, Refusal, Usage
from plandesk.folder import Folder
from plandesk.sentences import sentence
from plandesk.short_forms import Writer


@main.command()
@click.argument("words", nargs=-1, metavar="COMMAND..")
@click.option("-f", "--file", "source", type=click.Path(path_type=Path, allow_dash=True), help="Commands from a file.")
@click.option("--keep-accepted", is_flag=True, help="Keep what was accepted, though some were refused.")
@click.option("-n", "--dry-run", is_flag=True, help="Keep nothing; only show what would come of it.")
@json_option
@in_folder(alone=True)
def do(
    folder: Folder, words: tuple[str, ...], source: Path | None, keep_accepted: bool, dry_run: bool, as_json: bool
) -> int:
    """Do commands: all are kept, or nothing is.

    \b
    plandesk do set 5.200 1 0 V_TSR 0 30km/h turn 5.300
    plandesk do put 65 5.200 1 1 NID_TSR=6 D_TSR=700m L_TSR=100m V_TSR=60km/h
    plandesk do replace 5.100 0 0 @links               from a file of fields
    plandesk do -f monday
    plandesk do -                                      from standard input

    The commands are the engine's: set, seth, insert, delete, move, add, drop, renumber, turn, undo, redo,
    strike. A value may have its unit, `put` writes a new packet, `add after C.N` takes the place of a
    number, and `replace` a packet's. Digits may be given as fields in a file, @FILE: `plandesk fields`
    prints such. In a file, # begins a comment.
    """
    lines, where = given_lines(words, source)
    state = load(folder)
    written = Writer(state.engine, state.base, state.journal_text).write_out(lines)
    outcome = desk.tried(
        state, written.commands, keep_accepted=keep_accepted, dry_run=dry_run, origins=written.origins
    )
    after = desk.after_of(state, outcome)
    names = None if as_json else names_for(after, outcome)
    desk.keep(state, outcome)
    if names is None:
        out.dump(outcome_data(state, after, outcome))
    else:
        tell(state, after, outcome, names, [where[at] for at in written.origins] if where else [], dry_run)
    return REFUSED if outcome.run.refused else OK


def given_lines(words: tuple[str, ...], source: Path | None) -> tuple[list[str], list[str]]:
    """The lines, and where each stands in its file."""
    dash = words == ("-",) or str(source) == "-"
    if source is not None and words:
        raise Usage("give commands, or a file, not both")
    if source is None and not dash:
        lines, where = command_lines.split_words(words), []
    else:
        text = sys.stdin.buffer.read().decode("latin-1") if dash else files.read_text(source or Path())
        found = command_lines.split_lines(text)
        lines, where = [line.text for line in found], [f"{'-' if dash else source}:{line.number}" for line in found]
    if not lines:
        raise Usage("there is no command to do", "`plandesk do --help` has examples")
    return lines, where


@main.command()
@click.argument("count", type=click.IntRange(1), default=1)
@click.option("-n", "--dry-run", is_flag=True, help="Change nothing; only say which edits.")
@json_option
@in_folder(alone=True)
def undo(folder: Folder, count: int, dry_run: bool, as_json: bool) -> int:
    """Take back the last edit that stands, or the last COUNT.

    After a strike the last edit that stands isn't the struck one: `plandesk redo` takes a strike back.
    """
    return again(load(folder), "undo", count, dry_run, as_json)


@main.command()
@click.argument("count", type=click.IntRange(1), default=1)
@click.option("-n", "--dry-run", is_flag=True, help="Change nothing; only say which edits.")
@json_option
@in_folder(alone=True)
def redo(folder: Folder, count: int, dry_run: bool, as_json: bool) -> int:
    """Bring back what was undone or struck last, or the last COUNT."""
    return again(load(folder), "redo", count, dry_run, as_json)


def again(state: State, word: str, count: int, dry_run: bool, as_json: bool) -> int:
    serials = next_serials(state, word, count)
    if word == "undo" and not dry_run and not as_json:
        ask_after_strike(state, serials)
    outcome = desk.tried(state, [word] * count, dry_run=dry_run)
    if outcome.run.refused:
        raise Refusal("the engine refused: " + next(reply.text for _, reply in outcome.pairs if reply.refused))
    after = desk.after_of(state, outcome)
    names = None if as_json else (after if word == "redo" else state).names
    desk.keep(state, outcome)
    if names is None:
        out.dump(outcome_data(state, after, outcome))
        return OK
    rows: list[list[out.Cell]] = []
    for serial in serials:
        words = f"would be {word}ne" if dry_run else f"{word}ne"
        rows.append([Text(f"{words} {serial}", "green"), str(sentence(state.journal.by_serial[serial], names))])
    out.table(rows)
    return OK


def next_serials(state: State, word: str, count: int) -> list[int]:
    """The edits that would be taken back or brought back, in this order."""
    standing = [entry.serial for entry in state.journal.standing]
    have = (standing if word == "undo" else list(state.journal.undone))[::-1]
    if len(have) < count:
        if have:
            raise Refusal(f"only {len(have)} can {'be taken back' if word == 'undo' else 'come back'}")
        none = {"undo": "no edit stands", "redo": "nothing was undone or struck since the last edit"}
        raise Refusal(none[word])
    return have[:count]


def struck_last(state: State) -> int | None:
    """The edit that was struck last, where nothing was undone since: a later edit stands."""
    undone, standing = state.journal.undone, state.journal.standing
    return undone[-1] if undone and standing and standing[-1].serial > undone[-1] else None


def ask_after_strike(state: State, serials: list[int]) -> None:
    """An undo after a strike takes another edit back than some expect. Says which before, and asks at a terminal."""
    struck = struck_last(state)
    if struck is None:
        return
    words = sentence(state.journal.by_serial[serials[0]], state.names)
    note = f"undo takes back edit {serials[0]} ({words}), and not the strike of edit {struck}"
    out.errors.print(Text(f"{note}: `plandesk redo` brings back {struck}.", "yellow"))
    if sys.stdin.isatty() and sys.stdout.isatty():
        click.confirm(f"Take back edit {serials[0]}?", abort=True, err=True)
