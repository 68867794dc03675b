#!/usr/bin/env python3
"""Draws docs/strike.svg: a plan, its edits with the one that was struck, and the plan after them.

usage: strike.py PROGRAM [INPUT] > docs/strike.svg

All that the picture shows comes from two runs of PROGRAM: INPUT without its commands, and INPUT itself. Without INPUT
it is examples/struck_edit.plan.
"""

import json
import subprocess
import sys
from dataclasses import dataclass
from html import escape
from pathlib import Path
from typing import Any

EXAMPLE = Path(__file__).resolve().parents[2] / "examples" / "struck_edit.plan"
SHOWN = ("D_LINK", "NID_BG", "NID_TSR")  # the variables that a box shows
LINE, BOX, EDITS, GAP, TOP = 22, 270, 300, 30, 60
BLACK, GREY, RED, GREEN = "#1f2328", "#6e7781", "#cf222e", "#1a7f37"


@dataclass
class Edit:
    """A command, its reply, and whether a later command struck it."""

    command: str
    reply: str
    struck: bool = False


def lines_of(group: dict[str, Any]) -> list[str]:
    """What a box shows of a group: its identity, and a line for each packet."""
    lines = [f"{group['country']}.{group['number']}"]
    for telegram in group["telegrams"]:
        for packet in telegram["packets"]:
            values = [f"{name} {value}" for name, value in packet["fields"] if name in SHOWN]
            lines.append(f"packet {packet['fields'][0][1]}: " + ", ".join(values))
    return lines if len(lines) > 1 else lines + ["no packet"]


def run(program: str, text: str) -> tuple[list[str], list[list[str]]]:
    """The replies of a run, and its groups as lines of text."""
    done = subprocess.run([program, "--json"], input=text, capture_output=True, text=True)
    if done.returncode not in (0, 1):
        raise SystemExit(f"strike.py: {program} ended with {done.returncode}: {done.stdout}{done.stderr}")
    lines = done.stdout.splitlines()
    groups = [lines_of(json.loads(line)) for line in lines if line.startswith("{")]
    return lines[: lines.index("plan 1")], groups


def edits_of(commands: list[str], replies: list[str]) -> list[Edit]:
    """The commands with their replies. Reviews aren't replies."""
    answers = [reply for reply in replies if not reply.startswith("review ")]
    struck = {f"ok {reply.split()[1]}" for reply in answers if reply.startswith("struck ")}
    return [Edit(command, reply, reply in struck) for command, reply in zip(commands, answers)]


def words(x: int, y: int, text: str, colour: str = BLACK, more: str = "") -> str:
    return f'<text x="{x}" y="{y}" fill="{colour}"{more}>{escape(text)}</text>'


def boxes(x: int, groups: list[list[str]], before: list[list[str]]) -> tuple[list[str], int]:
    """The groups as boxes from top to bottom, and where they end. Lines that weren't there before are green."""
    drawn, y = [], TOP
    known = {line for group in before for line in group}
    for group in groups:
        height = LINE * len(group) + 14
        drawn.append(f'<rect x="{x}" y="{y}" width="{BOX}" height="{height}" rx="4" fill="none" stroke="{GREY}"/>')
        for i, line in enumerate(group):
            bold = ' font-weight="bold"' if i == 0 else ""
            drawn.append(words(x + 10, y + LINE * (i + 1), line, BLACK if line in known else GREEN, bold))
        y += height + 14
    return drawn, y


def edit_lines(x: int, edits: list[Edit]) -> tuple[list[str], int]:
    """The commands with their replies. A line goes through the one that was struck."""
    drawn, y = [], TOP + LINE
    for edit in edits:
        last = edit.reply.startswith("struck ")
        colour = RED if edit.struck or last else BLACK
        through = ' text-decoration="line-through"' if edit.struck else ""
        drawn.append(words(x, y, edit.command, colour, through))
        drawn.append(words(x + EDITS, y, edit.reply, GREY, ' text-anchor="end"'))
        y += LINE + 6
    return drawn, y


def picture(before: list[list[str]], edits: list[Edit], after: list[list[str]]) -> str:
    middle, right = 2 * GAP + BOX, 3 * GAP + BOX + EDITS
    width = right + BOX + GAP
    left_part, left_end = boxes(GAP, before, before)
    middle_part, middle_end = edit_lines(middle, edits)
    right_part, right_end = boxes(right, after, before)
    height = max(left_end, middle_end, right_end) + 6
    heads = zip((GAP, middle, right), ("The plan first read", "The commands, and the replies", "The plan printed"))
    return "\n".join([
        f'<svg xmlns="http://www.w3.org/2000/svg" width="{width}" height="{height}" viewBox="0 0 {width} {height}" '
        'font-family="monospace" font-size="13">',
        f'<rect width="{width}" height="{height}" fill="#ffffff"/>',
        *[words(x, 34, head, GREY, ' font-family="sans-serif" font-size="15"') for x, head in heads],
        *left_part, *middle_part, *right_part,
        "</svg>", ""])


def main(arguments: list[str]) -> int:
    if len(arguments) not in (1, 2):
        print(__doc__, file=sys.stderr)
        return 2
    program = arguments[0]
    text = (Path(arguments[1]) if len(arguments) == 2 else EXAMPLE).read_text()
    start, commands = text.split("edits\n", 1)
    _, before = run(program, start + "edits\n")
    replies, after = run(program, text)
    sys.stdout.write(picture(before, edits_of(commands.splitlines(), replies), after))
    return 0


if __name__ == "__main__":
    sys.exit(main(sys.argv[1:]))
