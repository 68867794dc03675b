"""Runs baliseplan and splits its output: a start for tools of your own.

usage: drive.py PLAN COMMANDS [JOURNAL]

Prints each command with its reply, then the speed restrictions of the plan that results.
"""

import json
import subprocess
import sys
from dataclasses import dataclass, field
from pathlib import Path
from typing import Any, Iterator

BYTES = "latin-1"  # each byte is one character, so that the program sees a file as it is


class Failed(Exception):
    """There is no plan: the input was refused, the run met a fault, or the arguments were wrong."""


@dataclass
class Reply:
    """The reply to one command, with the review lines of a turn."""

    text: str
    reviews: list[str] = field(default_factory=list)

    @property
    def refused(self) -> bool:
        return self.text.startswith("refused ")


@dataclass
class Result:
    """What a run that ended with 0 or 1 printed. Plan and journal are texts that can be read again."""

    replies: list[Reply]
    plan: str
    journal: str
    groups: list[dict[str, Any]]


def split(output: str) -> Result:
    """The parts of the output of a run with --journal and --json and without --quiet."""
    lines = output.splitlines()
    plan = lines.index("plan 1")
    journal = next(i for i, line in enumerate(lines) if line.startswith("journal "))
    view = next((i for i, line in enumerate(lines) if line.startswith("{")), len(lines))
    replies: list[Reply] = []
    for line in lines[:plan]:
        if line.startswith("review "):
            replies[-1].reviews.append(line)
        else:
            replies.append(Reply(line))
    groups = [json.loads(line) for line in lines[view:]]
    return Result(replies, text(lines[plan:journal]), text(lines[journal:view]), groups)


def text(lines: list[str]) -> str:
    return "".join(line + "\n" for line in lines)


def commands_of(file: str) -> list[str]:
    """The lines of a file. Only a line feed ends one, where splitlines() would split at other bytes too."""
    return file.removesuffix("\n").split("\n") if file else []


def run(
    plan: str, commands: list[str], journal: str = "", program: str = "baliseplan", stop: bool = False
) -> Result:
    """Does the commands on the plan, after the edits of the journal; with `stop` none after the first refused one.

    Give `stop` where a command builds on those before it.
    """
    given = plan + journal + "edits\n" + text(commands)
    flags = ["--journal", "--json"] + (["--stop"] if stop else [])
    done = subprocess.run([program, *flags], input=given, capture_output=True, encoding=BYTES)
    if done.returncode not in (0, 1):
        raise Failed(f"status {done.returncode}: {(done.stderr or done.stdout).strip()}")
    return split(done.stdout)


def restrictions(groups: list[dict[str, Any]]) -> Iterator[str]:
    """Each packet 65, with its speed: V_TSR counts steps of 5 km/h."""
    for group in groups:
        for pig, telegram in enumerate(group["telegrams"]):
            for packet in telegram["packets"]:
                values = dict(packet["fields"])
                if values["NID_PACKET"] == 65:
                    place = f"{group['country']}.{group['number']} {pig}"
                    yield f"{place}: NID_TSR {values['NID_TSR']}, {5 * values['V_TSR']} km/h"


def main(words: list[str]) -> int:
    if len(words) not in (2, 3):
        print(__doc__, file=sys.stderr)
        return 64
    plan, file, journal = [Path(word).read_bytes().decode(BYTES) for word in words] + [""] * (3 - len(words))
    commands = commands_of(file)
    try:
        result = run(plan, commands, journal)
    except Failed as failed:
        print(failed, file=sys.stderr)
        return 2
    for number, (command, reply) in enumerate(zip(commands, result.replies), 1):
        print(f"{number}: {command}: {reply.text}")
    for line in restrictions(result.groups):
        print(line)
    return 1 if any(reply.refused for reply in result.replies) else 0


if __name__ == "__main__":
    sys.exit(main(sys.argv[1:]))
