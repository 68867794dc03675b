"""The commands that begin a folder and make it whole again."""

from __future__ import annotations

from pathlib import Path

import click
from rich.text import Text

from plandesk import desk, folder as files, out
from plandesk.cli.base import in_folder, json_option, load, main
from plandesk.cli.outcome import warn_missing
from plandesk.engine import Engine, Run, find_engine
from plandesk.errors import BadInput, Fault, Usage
from plandesk.folder import Folder
from plandesk.journal import read_journal
from plandesk.view import links_of


@main.command()
@click.argument("plan", type=click.Path(path_type=Path))
@click.argument("folder", type=click.Path(path_type=Path), required=False)
@click.option("--journal", type=click.Path(path_type=Path), help="Take over a journal that belongs to PLAN.")
@json_option
@click.pass_obj
def init(where: Path | None, plan: Path, folder: Path | None, journal: Path | None, as_json: bool) -> None:
    """Begin work on PLAN, in the folder where you stand or in FOLDER.

    The plan is kept as base.plan, which never changes. No file that is there is written over.
    """
    engine = find_engine()
    base = first_plan(engine, plan)
    kept = files.read_text(journal) if journal else ""
    run = engine.run(base, kept, name=str(plan))
    path = folder or where or Path()
    texts = {files.BASE: base, files.JOURNAL: run.journal, files.LINE: run.plan, files.REVIEWS: "reviews 1\n"}
    refuse_to_replace(path, texts)
    try:
        path.mkdir(parents=True, exist_ok=True)
    except OSError as error:
        raise Fault(f"{path} can't be made: {error.strerror}") from None
    target = Folder(path)
    with target.locked(alone=True):
        refuse_to_replace(path, texts)
        files.write_file(target.private / ".gitignore", "*\n")
        target.write(texts)
    tell_begun(path, run, files.read_text(plan) != base, as_json)


def first_plan(engine: Engine, plan: Path) -> str:
    """The plan as the engine prints it: with small letters among its digits, and else as it was read."""
    text = files.read_text(plan)
    base = engine.run(text, view=False, name=str(plan)).plan
    if base != text.lower():
        raise Fault(f"{engine.name} doesn't print {plan} as it was read", "this is a fault of the engine")
    return base


def refuse_to_replace(path: Path, texts: dict[str, str]) -> None:
    """A folder may have the same files already, as one that was kept by hand."""
    for name, text in texts.items():
        there = path / name
        if there.exists() and files.read_text(there) != text:
            if (path / files.PRIVATE).exists() and name == files.BASE:
                raise Usage(f"{path} has a {files.BASE} already: work on it has begun")
            raise Usage(f"{path} has a {name} already, which isn't what this would be", "choose another folder")
    if (path / files.PRIVATE / files.COMMIT).exists():
        raise BadInput(f"{path} has a change that isn't ended: run `plandesk status` there")


def tell_begun(path: Path, run: Run, letters: bool, as_json: bool) -> None:
    missing = [link for link in links_of(run.groups) if link.missing]
    turns = [entry.serial for entry in read_journal(run.journal).entries if entry.kind == "turn"]
    if as_json:
        data = {"folder": str(path.absolute()), "groups": len(run.groups), "missing_links": len(missing), "turns": turns}
        out.dump(data)
        return
    note = f" {', '.join(files.FILES)}"
    place = "here" if path == Path() else str(path)
    out.line(f"{out.count(len(run.groups), 'group')} {place}:", Text(note, "dim"))
    if letters:
        out.line(Text("The plan has capital letters among its digits; base.plan has small ones.", "yellow"))
    warn_missing(missing, "")
    if turns:
        which = f"a turn, edit {turns[0]}" if len(turns) == 1 else f"turns, edits {out.listed(turns)}"
        said = f"The journal has {which}. What that left to look at isn't in a journal: copy the file {files.REVIEWS} too."
        out.line(Text(said, "yellow"))


@main.command()
@json_option
@in_folder(alone=True)
def restore(folder: Folder, as_json: bool) -> None:
    """Write line.plan anew from base.plan and journal."""
    done = desk.restore(load(folder, strict=False))
    if as_json:
        out.dump({"restored": done})
    else:
        out.line("line.plan and journal were written anew." if done else "They are as the engine prints them already.")
