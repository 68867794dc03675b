"""The command that prints fields, for a person to edit."""

from __future__ import annotations

from collections.abc import Iterator
from pathlib import Path

import click

from plandesk import folder as files
from plandesk.cli.base import complete_group, find_here, load, main
from plandesk.engine import Run, find_engine
from plandesk.errors import OK, Fault, Refusal
from plandesk.explain import near_groups
from plandesk.fields import find_fields
from plandesk.items import plain, same, to_edit
from plandesk.spare import packet_item, telegram_item
from plandesk.view import Group, bits_of, digits_of, telegrams_of


@main.command(name="fields")
@click.argument("name", metavar="C.N", shell_complete=complete_group)
@click.argument("pig", type=click.IntRange(0), required=False, metavar="[PIG]")
@click.argument("pkt", type=click.IntRange(0), required=False, metavar="[PKT]")
@click.option("--whole", is_flag=True, help="Print places, widths, L_PACKET and padding, too.")
@click.option("--plan", "file", type=click.Path(path_type=Path), help="Look at this plan instead.")
@click.pass_obj
def fields_(where: Path | None, name: str, pig: int | None, pkt: int | None, whole: bool, file: Path | None) -> int:
    """Print a packet, a telegram or a group as fields, to be edited and taken as @FILE.

    \b
    plandesk fields 5.100 0 0 > links        # then edit it, and
    plandesk do replace 5.100 0 0 @links

    A line is NAME K VALUE. What balisefields works out is left out: L_PACKET, and padding of ones.
    """
    found = list(items(plan_run(where, file), name, pig, pkt))
    for line in (line for item in found for line in (item if whole else to_edit(item))):
        print(line)
    return OK


def plan_run(where: Path | None, file: Path | None) -> Run:
    """The plan with its view."""
    if file is not None:
        return find_engine().run(files.read_text(file), name=str(file))
    folder = find_here(where)
    with folder.locked(alone=False):
        return load(folder, strict=False).viewed


def items(run: Run, name: str, pig: int | None, pkt: int | None) -> Iterator[list[str]]:
    """The items as balisefields prints them, each compared with what the engine reads."""
    at = run.groups.places.get(name)
    if at is None:
        raise Refusal(f"the plan has no group {name}{near_groups(name, run.groups)}")
    group, digits = run.groups[at], telegrams_of(run.plan)[at]
    if pig is not None and pig >= len(digits):
        raise Refusal(f"{name} has no telegram {pig}: 0 to {len(digits) - 1}")
    if pkt is not None and pig is not None:
        asked = [packet_of(group, pig, pkt, digits[pig])]
    else:
        which = range(len(digits)) if pig is None else [pig]
        asked = [(digits[each], telegram_item(group, each, digits[each])) for each in which]
    program = find_fields()
    for item, (_, read) in zip(program.explain([line for line, _ in asked]), asked, strict=True):
        if not agrees(item, read):
            raise Fault(f"{program.name} reads other fields than the engine: it doesn't belong to it")
        yield item


def packet_of(group: Group, pig: int, pkt: int, digits: str) -> tuple[str, list[str]]:
    """A packet as a line for balisefields, and what the engine reads in it."""
    telegram = group.telegrams[pig]
    if pkt >= len(telegram.packets):
        count = len(telegram.packets)
        raise Refusal(f"{group.name} {pig} has no packet {pkt}: " + (f"0 to {count - 1}" if count else "it has none"))
    version, packet, start = dict(telegram.header)["M_VERSION"], telegram.packets[pkt], telegram.starts()[pkt]
    bits = bits_of(digits, telegram.bits)[start : start + packet.bits]
    return f"packet {version} {digits_of(bits)}", packet_item(version, packet, bits)


def agrees(item: list[str], read: list[str]) -> bool:
    try:
        return same(plain(item), read)
    except (ValueError, IndexError):
        return False
