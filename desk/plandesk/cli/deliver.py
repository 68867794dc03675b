"""Commands that check and deliver."""

from __future__ import annotations

from collections.abc import Sequence
from pathlib import Path

import click
from rich.text import Text

from plandesk import folder as files, out
from plandesk.causes import read_request
from plandesk.changes import session_diff
from plandesk.cli.base import find_here, in_folder, json_option, load, main
from plandesk.engine import Engine, find_engine, find_reference
from plandesk.errors import BAD_INPUT, OK, REFUSED, Usage
from plandesk.folder import Folder
from plandesk.verify import REFUSED as NOT_READ, UNKNOWN, Delivery, Verdict, processors, verify as check_delivery, verify_all

MOST_SHOWN = 12


@main.command()
@click.argument("paths", nargs=-1, type=click.Path(path_type=Path), metavar="[BASE JOURNAL DELIVERED | FOLDER..]")
@click.option("-j", "--jobs", type=click.IntRange(1), help="Processes at once; else one for each processor.")
@click.option("--engine-only", is_flag=True, help="Don't ask the reference program.")
@click.option("--limit", type=float, default=60.0, show_default=True, help="Seconds for the reference on one delivery.")
@click.option("-v", "--verbose", is_flag=True, help="Of many deliveries name those too that are right.")
@json_option
@click.pass_obj
def verify(
    where: Path | None, paths: tuple[Path, ...], jobs: int | None, engine_only: bool, limit: float, verbose: bool,
    as_json: bool,
) -> int:
    """Check deliveries by two programs.

    A delivery is right if its journal makes the delivered plan of the base plan, byte for byte.

    Without arguments it checks this folder. A FOLDER without base.plan is searched for those that have one.
    The status is 0 only if every delivery is right by both programs, or with --engine-only by the engine.
    """
    deliveries = find_deliveries(where, paths)
    reference = None if engine_only else find_reference()
    verdicts = checked(deliveries, find_engine(), reference, limit, jobs or processors(), as_json)
    if as_json:
        out.dump([verdict.data() for verdict in verdicts])
    else:
        tell(verdicts, verbose, engine_only)
    if reference is None and not engine_only:
        out.errors.print(Text("The reference program isn't there: set BALISEPLAN_REFERENCE to it.", "yellow"))
    return status_of(verdicts, engine_only)


def status_of(verdicts: Sequence[Verdict], engine_only: bool) -> int:
    """2 where something couldn't be checked: a file, or the reference's answer, if it was asked for."""
    if all(is_right(verdict, engine_only) for verdict in verdicts):
        return OK
    unknown = any(verdict.good or verdict.result in (UNKNOWN, NOT_READ) for verdict in verdicts if not is_right(verdict, engine_only))
    return BAD_INPUT if unknown else REFUSED


def is_right(verdict: Verdict, engine_only: bool) -> bool:
    return verdict.good if engine_only else verdict.by_both


def checked(
    deliveries: Sequence[Delivery], engine: Engine, reference: Engine | None, limit: float, jobs: int, quiet: bool
) -> list[Verdict]:
    found = verify_all(deliveries, engine, reference, limit=limit, jobs=jobs)
    verdicts: list[Verdict] = []
    if len(deliveries) < 2 or quiet or not out.errors.is_terminal:
        verdicts += found
    else:
        from rich.progress import BarColumn, MofNCompleteColumn, Progress, TextColumn, TimeElapsedColumn

        columns = (TextColumn("checking"), BarColumn(), MofNCompleteColumn(), TimeElapsedColumn())
        with Progress(*columns, console=out.errors, transient=True) as bar:
            task = bar.add_task("", total=len(deliveries))
            for verdict in found:
                verdicts.append(verdict)
                bar.advance(task)
    order = {delivery.name: at for at, delivery in enumerate(deliveries)}
    return sorted(verdicts, key=lambda verdict: order[verdict.name])


def tell(verdicts: Sequence[Verdict], verbose: bool, engine_only: bool) -> None:
    for verdict in verdicts:
        if verbose or len(verdicts) <= MOST_SHOWN or not is_right(verdict, engine_only):
            tell_verdict(verdict, len(verdicts) > 1, engine_only)
    if len(verdicts) > 1:
        right = sum(is_right(verdict, engine_only) for verdict in verdicts)
        alone = sum(verdict.good and not verdict.by_both for verdict in verdicts)
        style = "bold green" if right == len(verdicts) else "bold red"
        note = f", {alone} by the engine alone" if alone else ""
        out.line(Text(f"{right} of {len(verdicts)} are right", style), Text(note, "yellow"))


def tell_verdict(verdict: Verdict, many: bool, engine_only: bool) -> None:
    right = is_right(verdict, engine_only)
    word = "right  " if right else "half   " if verdict.good else "unknown" if verdict.result == UNKNOWN else "wrong  "
    count = f"{verdict.standing} of {out.count(verdict.edits, 'edit')} stand, {out.count(verdict.groups, 'group')}"
    note = f"  {count}" if verdict.good else ""
    style = "bold green" if right else "bold yellow" if verdict.good else "bold red"
    out.line(Text(word, style), f" {verdict.name}: {verdict.sentence}", Text(note, "dim"))
    for finding in verdict.findings:
        out.line("        ", finding)
    if not many:
        rows: list[list[out.Cell]] = []
        for role, value in verdict.checksums.items():
            rows.append([Text(f"  sha256 {role}", "dim"), Text(value, "dim")])
        out.table(rows)


def find_deliveries(where: Path | None, paths: tuple[Path, ...]) -> list[Delivery]:
    if len(paths) == 3 and not any(path.is_dir() for path in paths):
        base, journal, delivered = map(str, paths)
        return [Delivery(delivered, base, journal, delivered)]
    if not paths:
        folder = find_here(where)
        with folder.locked(alone=False):
            return [Delivery.of_folder(folder.path)]
    found: list[Delivery] = []
    for path in paths:
        if not path.is_dir():
            raise Usage(f"{path} is no folder", "give BASE JOURNAL DELIVERED, or folders")
        below = [path] if (path / files.BASE).is_file() else sorted(p.parent for p in path.rglob(files.BASE))
        if not below:
            raise Usage(f"{path} has no {files.BASE}, and nor has a folder below it")
        found += [Delivery.of_folder(each) for each in below]
    return found


@main.command()
@click.option("-o", "--output", type=click.Path(path_type=Path), default=Path("report.html"), show_default=True)
@click.option("--engine-only", is_flag=True, help="Don't ask the reference program for the verdict.")
@click.option("--limit", type=float, default=60.0, show_default=True, help="Seconds for the reference program.")
@click.option("--title", default="", help="The name of the line, or of the change request.")
@click.option(
    "--request", metavar="FILE", type=click.Path(path_type=Path),
    help="Mark groups that this change request doesn't name.",
)
@json_option
@in_folder(alone=False)
def report(
    folder: Folder, output: Path, engine_only: bool, limit: float, title: str, request: Path | None, as_json: bool
) -> int:
    """Write a page of HTML to check and to sign."""
    from concurrent.futures import ThreadPoolExecutor

    from plandesk.report import facts_of, page  # it needs jinja2, which the other commands do without

    asked = read_request(files.read_text(request)) if request is not None else None
    state = load(folder, strict=False)
    reference = None if engine_only else find_reference()
    with ThreadPoolExecutor(1) as pool:  # the reference works in a process of its own meanwhile
        waiting = pool.submit(check_delivery, Delivery.of_folder(folder.path), state.engine, reference, limit)
        facts = facts_of(state, session_diff(state), asked)
        verdict = waiting.result()
    text = page(facts, verdict, title or folder.path.name)
    files.write_file(output.absolute(), text)
    if as_json:
        out.dump({"report": str(output), "verdict": verdict.data()})
    else:
        out.line(f"{output}: {verdict.sentence}")
    return status_of([verdict], engine_only)
