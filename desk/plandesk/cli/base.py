"""The group of commands: help, errors and statuses, and the folder that a command works in."""

from __future__ import annotations

import functools
import gc
import os
import sys
from collections.abc import Callable
from pathlib import Path
from typing import Any

import click
from rich.text import Text

from plandesk import VERSION, desk, out
from plandesk.desk import State
from plandesk.engine import find_engine
from plandesk.errors import FAULT, OK, STOPPED, USAGE, DeskError
from plandesk.folder import Folder, find_folder

CONTEXT = {"help_option_names": ["-h", "--help"], "max_content_width": 100}
EXITS = """\b
Exit status: 0 done, 1 refused or different, 2 a plan, a journal or a folder is
bad, 3 a fault (disk, memory, no engine), 64 wrong arguments, 130 stopped by hand.

\b
BALISEPLAN            the engine, where it isn't `baliseplan` on the path
BALISEFIELDS          balisefields, where it isn't beside the engine or on the path
BALISEFACTS           balisefacts, the same
BALISEPLAN_REFERENCE  the reference program, for verify and report
PLANDESK_WAIT         seconds to wait for another plandesk in the folder (10)"""


class Desk(click.Group):
    """Commands in the order of a day's work, and the engine's exit statuses."""

    SECTIONS = {
        "Work on a line": ["init", "do", "undo", "redo", "strike", "reviews"],
        "Look at it": ["status", "log", "show", "fields", "links", "diff"],
        "Deliver and check": ["verify", "report", "restore"],
    }

    def format_commands(self, ctx: click.Context, formatter: click.HelpFormatter) -> None:
        for title, names in self.SECTIONS.items():
            with formatter.section(title):
                formatter.write_dl([(name, self.commands[name].get_short_help_str(90)) for name in names])

    def main(self, *args: Any, **kwargs: Any) -> Any:
        gc.disable()  # a short run that makes many small values and no cycles
        kwargs |= {"standalone_mode": False, "prog_name": "plandesk"}
        sys.exit(self.status(lambda: super(Desk, self).main(*args, **kwargs)))

    @staticmethod
    def status(run: Callable[[], Any]) -> int:
        """The status of a run. Whatever happens is said in words."""
        try:
            status = int(run() or OK)
            sys.stdout.flush()
            return status
        except click.ClickException as error:
            error.show()
            return USAGE
        except (click.Abort, KeyboardInterrupt):
            out.errors.print("stopped")
            return STOPPED
        except BrokenPipeError:
            sys.stdout = open(os.devnull, "w")  # nobody reads any more: say nothing
            return OK
        except SystemExit as end:
            if isinstance(end.__context__, BrokenPipeError):  # click met it first
                return OK
            raise
        except DeskError as error:
            complain(error)
            return error.status
        except Exception as error:
            if os.environ.get("PLANDESK_DEBUG"):
                raise
            out.errors.print(f"plandesk: a fault: {error!r}. The files are as before or as after.")
            out.errors.print("          PLANDESK_DEBUG=1 shows where; please report it.", style="dim")
            return FAULT


def complain(error: DeskError) -> None:
    out.errors.print(Text("plandesk: ", "bold red") + Text(error.message))
    if error.hint:
        out.errors.print(Text(f"          {error.hint}", "dim"))


@click.group(cls=Desk, context_settings=CONTEXT, epilog=EXITS)
@click.option("-C", "where", metavar="FOLDER", type=click.Path(path_type=Path), help="Work in this folder.")
@click.version_option(VERSION, message="plandesk %(version)s")
@click.pass_context
def main(ctx: click.Context, where: Path | None) -> None:
    """A desk for the balise plan of a line, over the proved engine baliseplan.

    A folder keeps base.plan (the plan first read), journal (all edits since), line.plan (the plan with
    these edits) and reviews (what a turn leaves to look at). Every byte of a plan or journal is what the
    engine printed. All four belong under version control.
    """
    ctx.obj = where


Command = Callable[..., int | None]


def in_folder(*, alone: bool) -> Callable[[Command], Command]:
    """Gives a command its folder, locked."""

    def wrap(command: Command) -> Command:
        @functools.wraps(command)
        @click.pass_obj
        def call(where: Path | None, *args: Any, **kwargs: Any) -> int | None:
            folder = find_here(where)
            with folder.locked(alone=alone):
                return command(folder, *args, **kwargs)

        return call

    return wrap


json_option = click.option("--json", "as_json", is_flag=True, help="Print JSON, for tools.")


def load(folder: Folder, *, strict: bool = True) -> State:
    return desk.load(folder, find_engine(), strict=strict)


def find_here(where: Path | None) -> Folder:
    return find_folder((where or Path.cwd()).absolute(), where is not None)


def complete_group(ctx: click.Context, param: click.Parameter, incomplete: str) -> list[str]:
    """The identities of the plan, for completion."""
    try:
        folder = find_here(ctx.find_root().params.get("where"))
        names = find_engine().run(folder.read("line.plan")).groups.names
    except (DeskError, OSError):
        return []
    return [name for name in names if name.startswith(incomplete)]


def complete_serial(ctx: click.Context, param: click.Parameter, incomplete: str) -> list[str]:
    """The serials of the journal, for completion."""
    try:
        lines = find_here(ctx.find_root().params.get("where")).read("journal").splitlines()[1:]
    except (DeskError, OSError):
        return []
    serials = [line.split(" ", 1)[0] for line in lines if line[:1].isdigit()]
    return [serial for serial in serials if serial.startswith(incomplete)]
