"""What commands came to, in words."""

from __future__ import annotations

from collections.abc import Iterator, Sequence
from typing import Any

from rich.text import Text

from plandesk import out
from plandesk.desk import Outcome, State
from plandesk.explain import explain
from plandesk.naming import Names
from plandesk.sentences import Sentence, sentence
from plandesk.show import review_table
from plandesk.view import Link, kept_packets, links_of
from plandesk.vocabulary import names_groups

MOST_EXPLAINED = 8
MOST_SHOWN = 60
STRUCTURAL = frozenset({"insert", "delete", "move", "drop", "turn", "renumber"})
KEEPS_GROUP = frozenset({"set", "seth", "insert", "delete", "move", "turn"})
"""Commands that name a group by the identity that it has after them, too."""
KEEPS_LINKS = frozenset({"seth", "move", "turn"})


def reasons(state: State, outcome: Outcome) -> dict[int, str]:
    """Why commands were refused, by their place. The first few look at the plan that the command met."""
    found: dict[int, str] = {}
    for at, (command, reply) in enumerate(outcome.pairs):
        if reply.refused:
            groups = state.groups
            if at and len(found) < MOST_EXPLAINED:
                groups = state.engine.run(state.base, state.journal_text, outcome.commands[:at]).groups
            try:
                found[at] = explain(command, reply, groups)
            except (KeyError, IndexError, ValueError):  # the plan there is another one than the command met
                found[at] = reply.text
    return found


def tell(state: State, after: State, outcome: Outcome, names: Names, where: Sequence[str], dry_run: bool) -> None:
    tell_replies(names, outcome, reasons(state, outcome), where)
    if outcome.new_reviews.items and (outcome.kept or dry_run):
        number = out.count(len(outcome.new_reviews.items), "line")
        out.line()
        out.heading(f"To review: {number}", "a turn leaves distances, and packets that the engine doesn't know")
        review_table(after, outcome.new_reviews.items)
    out.line()
    tell_end(after, outcome, dry_run)
    if outcome.kept or dry_run:
        tell_discarded(state, after, dry_run)
        tell_doubtful(outcome)
        warn_new_missing(state, after, outcome)
        warn_not_followed(after, outcome)


def tell_replies(names: Names, outcome: Outcome, why: dict[int, str], where: Sequence[str]) -> None:
    shown = list(enumerate(outcome.pairs))
    if len(shown) > MOST_SHOWN:
        shown = [(at, pair) for at, pair in shown if pair[1].refused][:MOST_SHOWN]
    rows: list[list[out.Cell]] = []
    for at, (command, reply) in shown:
        text = Text(out.short(command))
        if reply.refused:
            place = Text(where[at] if where else "", "dim")
            rows.append([Text("refused", "bold red"), text, Text(why[at], "red"), place])
        else:
            rows.append([Text(reply.text, "green"), text, Text(said(names, reply.number, command), "dim")])
    out.table(rows)
    if len(shown) < len(outcome.pairs):
        accepted = len(outcome.pairs) - outcome.refused
        out.line(Text(f"{out.count(accepted, 'command')} accepted", "dim"))


def names_for(after: State, outcome: Outcome) -> Names:
    """Names for the edits of these commands: of their groups alone, where they say which these are."""
    lines = [command.split(" ") for command, reply in outcome.pairs if not reply.refused]
    if len(lines) == 1 and lines[0][0] == "renumber":
        return after.names_of({f"{lines[0][1].split('.')[0]}.{lines[0][2]}"})
    if outcome.new_reviews.items or any(words[0] not in KEEPS_GROUP for words in lines):
        return after.names
    return after.names_of({words[1] for words in lines})


def said(names: Names, serial: int, command: str) -> str:
    """An edit in words; its place only where the command hasn't it."""
    entry = names.journal.by_serial.get(serial)
    if entry is None:
        return ""
    words: Sentence = sentence(entry, names)
    return words.what if f" {words.place} " in f" {command} " else str(words)


def tell_end(after: State, outcome: Outcome, dry_run: bool) -> None:
    refused, total = outcome.refused, len(outcome.pairs)
    if dry_run:
        end = f"{out.count(refused, 'command')} would be refused." if refused else "All would be accepted."
        out.line(Text("A trial: nothing was kept. ", "bold"), end)
    elif outcome.kept:
        note = f", {refused} refused" if refused else ""
        count = len(after.journal.standing)
        edits = f"{out.count(count, 'edit')} {'stands' if count == 1 else 'stand'} on the base plan."
        out.line(Text("Kept", "bold green"), f": {out.count(total - refused, 'command')}{note}. {edits}")
    else:
        verb = "was" if refused == 1 else "were"
        hint = " --keep-accepted would keep the others." if refused < total else ""
        hint = " A replace is done as a whole or not at all." if outcome.halved else hint
        out.line(
            Text("Nothing was kept", "bold red"),
            f": {refused} of {out.count(total, 'command')} {verb} refused.",
            Text(hint, "dim"),
        )


def tell_doubtful(outcome: Outcome) -> None:
    """Accepted commands that a refused one before them may have been meant to move to another place."""
    refused: set[tuple[str, ...]] = set()
    doubtful: list[str] = []
    for command, reply in outcome.pairs:
        words = command.split(" ")
        places = {tuple(words[1:2]), tuple(words[1:3])} if words[0] in ("set", "seth", *STRUCTURAL) else set()
        if reply.refused and words[0] in STRUCTURAL:
            in_telegram = words[0] in ("insert", "delete", "move")
            refused.add(tuple(words[1:3]) if in_telegram else tuple(words[1:2]))
        elif not reply.refused and places & refused:
            doubtful.append(reply.text)
    if doubtful:
        which = ", ".join(doubtful[:8])
        why = "a command before, in the same telegram or group, was refused, so the place may be another one"
        out.line(Text(f"Look at {which}: {why} than you think.", "yellow"))


def discarded(state: State, after: State) -> list[int]:
    """The undone edits that a new edit discarded for good."""
    return [serial for serial in state.journal.undone if serial not in after.journal.by_serial]


def tell_discarded(state: State, after: State, dry_run: bool) -> None:
    lost = discarded(state, after)
    if lost:
        verb = "would be" if dry_run else "was" if len(lost) == 1 else "were"
        which = f"edit {lost[0]}" if len(lost) == 1 else f"edits {out.listed(lost)}"
        out.line(Text(f"The undone {which} {verb} discarded for good: redo can't bring back what is gone.", "yellow"))


def warn_new_missing(state: State, after: State, outcome: Outcome) -> None:
    """Links that name no group of the plan now, and did before."""
    if all(_keeps_links(command) for command, reply in outcome.pairs if not reply.refused):
        return
    old = {(link.source, link.target) for link in links_of(state.groups) if link.missing}
    new = (link for link in links_of(after.groups) if link.missing)
    warn_missing([link for link in new if (link.source, link.target) not in old], " now")


def _keeps_links(command: str) -> bool:
    words = command.split(" ")
    return words[0] in KEEPS_LINKS or words[0] == "set" and words[4] != "NID_BG"


def warn_missing(missing: Sequence[Link], now: str) -> None:
    if missing:
        which = ", ".join(dict.fromkeys(f"{link.source} → {link.target}" for link in missing[:6]))
        count = f"{out.count(len(missing), 'link')} {'names' if len(missing) == 1 else 'name'}"
        more = " .." if len(missing) > 6 else ""
        out.line(Text(f"{count} a group that isn't in the plan{now}: {which}{more}", "yellow"))


def warn_not_followed(after: State, outcome: Outcome) -> None:
    """Packets with numbers of groups in which the engine follows no renumbering."""
    if not any(command.startswith("renumber ") and not reply.refused for command, reply in outcome.pairs):
        return
    found = [f"{place} (packet {packet.number})" for place, packet in kept_packets(after.groups) if names_groups(packet.number)]
    if found:
        which = ", ".join(found[:6]) + (" .." if len(found) > 6 else "")
        count = f"{out.count(len(found), 'packet')} {'has' if len(found) == 1 else 'have'} numbers of groups"
        out.line(Text(f"{count} that a renumbering doesn't follow, so look at each: {which}", "yellow"))


def outcome_data(state: State, after: State, outcome: Outcome) -> dict[str, Any]:
    return {
        "kept": outcome.kept,
        "standing": len(after.journal.standing),
        "discarded": discarded(state, after),
        "commands": list(_command_data(state, after, outcome)),
        "reviews": [item.line() for item in outcome.new_reviews.items],
    }


def _command_data(state: State, after: State, outcome: Outcome) -> Iterator[dict[str, Any]]:
    why = reasons(state, outcome)
    for at, (command, reply) in enumerate(outcome.pairs):
        yield {"command": command, "reply": reply.text, "accepted": not reply.refused, "why": why.get(at, "")}
