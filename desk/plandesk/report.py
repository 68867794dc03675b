"""The page to check and to sign. All of it is in one file."""

from __future__ import annotations

import re
from collections.abc import Iterator, Sequence
from dataclasses import dataclass
from datetime import datetime
from typing import Any

from jinja2 import Environment, PackageLoader, StrictUndefined
from markupsafe import Markup, escape

from plandesk import VERSION, matching, picture
from plandesk.causes import Request, causes
from plandesk.compare import GroupDiff, Part, Plan
from plandesk.desk import State
from plandesk.out import count, listed
from plandesk.rows import brief
from plandesk.sentences import Sentence, review_words, sentence
from plandesk.show import packet_numbers
from plandesk.tags import tags_of_base
from plandesk.verify import Verdict
from plandesk.view import links_of
from plandesk.vocabulary import metres_text, names_groups, packet_name


MOST_ROWS = 24
"""Rows of the picture that are drawn; more would make the page too large to send."""


@dataclass(frozen=True)
class Edit:
    serial: int
    undone: bool
    words: Sentence
    entry: str
    needs: str


def page(facts: dict[str, Any], verdict: Verdict, title: str) -> str:
    """The whole page."""
    loader = PackageLoader("plandesk")
    environment = Environment(
        loader=loader, autoescape=True, undefined=StrictUndefined, trim_blocks=True, lstrip_blocks=True
    )
    environment.filters |= {"bits": bits_html, "count": count, "brief": brief, "metres": metres_text}
    made = datetime.now().astimezone().strftime("%Y-%m-%d %H:%M %Z")
    template = environment.get_template("report.html.j2")
    text = template.render(**facts, verdict=verdict, title=title, version=VERSION, made=made)
    return re.sub(r"\n\s+", "\n", text)


def facts_of(state: State, diffs: Sequence[GroupDiff], request: Request | None = None) -> dict[str, Any]:
    """What the page shows, but for the verdict."""
    facts = {
        "engine": state.engine.name,
        "engine_sum": state.engine.checksum,
        "groups": len(state.groups),
        "undone": state.journal.undone[::-1],
        "missing": [link for link in links_of(state.groups) if link.missing],
        "unknown": list(unknown_packets(state)),
        "checksums": state.checksums,
        "reviews": list(reviews(state)),
        "turns_without_review": state.turns_without_review,
    }
    return facts | of_edits(state) | of_groups(state, diffs, request) | pictures(state, diffs)


def of_edits(state: State) -> dict[str, Any]:
    arrows = state.dependents if state.journal.standing else None
    edits = [
        Edit(
            entry.serial,
            entry.serial in state.journal.gone,
            sentence(entry, state.names),
            entry.text,
            listed(arrows.needed_by(entry.serial)) if arrows else "",
        )
        for entry in state.journal.entries
    ]
    closures = {serial: arrows.all_of(serial)[::-1] for serial in state.standing} if arrows else {}
    return {"edits": edits, "dependents": {str(serial): later for serial, later in closures.items() if later}}


def of_groups(state: State, diffs: Sequence[GroupDiff], request: Request | None) -> dict[str, Any]:
    return {
        "diffs": diffs,
        "tally": tally(diffs),
        "why": [cause.words(state.names) for cause in causes(diffs, state.names)],
        "request": request,
        "beyond": {diff.name for diff in request.beyond(diffs)} if request else set(),
        "idle": request.idle(diffs) if request else [],
    }


def pictures(state: State, diffs: Sequence[GroupDiff]) -> dict[str, Any]:
    pairs = matching.by_tags(tags_of_base(state.base_groups), state.tags)
    by_place = {(diff.before, diff.after): diff for diff in diffs}
    places = {at: (pair.before, pair.after) for at, pair in enumerate(pairs)}
    changed = {at: by_place[place] for at, place in places.items() if place in by_place}
    base, now = Plan.of(state.base, state.base_groups), Plan.of(state.run.plan, state.groups)
    rows, more = picture.rows(pairs, base, now, changed, MOST_ROWS)
    return {
        "rows": [Markup(row) for row in rows],
        "more_rows": more,
        "map": Markup(picture.map_of(pairs, changed)) if len(pairs) > picture.ALL else "",
    }


def tally(diffs: Sequence[GroupDiff]) -> list[tuple[str, int]]:
    kinds = {
        "changed": sum(diff.kind == "changed" for diff in diffs),
        "added": sum(diff.kind == "added" for diff in diffs),
        "taken out": sum(diff.kind == "taken out" for diff in diffs),
        "renumbered": sum(diff.renumbered for diff in diffs),
        "turned round": sum(diff.turned for diff in diffs),
    }
    return [(word, number) for word, number in kinds.items() if number]


def reviews(state: State) -> Iterator[dict[str, Any]]:
    for item in state.reviews.items:
        yield {
            "number": item.number,
            "edit": item.serial,
            "words": review_words(item, state.names),
            "done": item.done,
            "undone": item.serial not in state.standing,
        }


def unknown_packets(state: State) -> Iterator[dict[str, str]]:
    """Groups with packets that the engine doesn't know: no edit follows numbers of groups in them."""
    for at, line in enumerate(state.groups.lines):
        if '"known":false' not in line:
            continue
        group = state.groups[at]
        packets = [packet for telegram in group.telegrams for packet in telegram.packets if not packet.known]
        numbers = sorted({packet.number for packet in packets})
        yield {
            "group": group.name,
            "packets": " | ".join(packet_numbers(telegram.packets) for telegram in group.telegrams),
            "names": "; ".join(f"{number} {packet_name(number)}" for number in numbers),
            "names_groups": "has numbers of groups" if any(map(names_groups, numbers)) else "",
        }


def bits_html(part: Part) -> Markup:
    """Two rows of bits, what differs marked."""
    old, new = part.before or "", part.after or ""
    rows = '<span class="side">before</span><code>%s</code><span class="side">after</span><code>%s</code>'
    return Markup(f'<div class="bits">{rows}</div>') % (_marked(old, new, "old"), _marked(new, old, "new"))


def _marked(bits: str, other: str, side: str) -> Markup:
    if not bits:
        return Markup('<i class="none">not there</i>')
    if not other:
        return Markup('<b class="{}">{}</b>').format(side, bits)
    found: list[Markup] = []
    start = 0
    for i in range(1, len(bits) + 1):
        differs = bits[start] != other[start : start + 1]
        if i == len(bits) or (bits[i] != other[i : i + 1]) != differs:
            run = escape(bits[start:i])
            found.append(Markup('<b class="{}">{}</b>').format(side, run) if differs else run)
            start = i
    return Markup("").join(found)
