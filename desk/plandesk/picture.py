"""The line as a picture: groups as boxes, links as arcs, before above after.

Unchanged stretches of a long line are drawn together, and the picture is cut into rows that fit a page.
"""

from __future__ import annotations

from collections.abc import Iterator, Mapping, Sequence
from dataclasses import dataclass
from html import escape

from plandesk.compare import GroupDiff, Plan
from plandesk.matching import GroupPair
from plandesk.view import Group, Groups, Link, links_of

BOX, PITCH, GAP, MARGIN = 94, 118, 58, 62
WIDTH = 900
SIDE = 96
"""Room at the right for what a link that leaves the row says."""
ALL = 14
"""A plan of this many groups is drawn whole."""
LINES = 4


@dataclass(frozen=True)
class Column:
    """A group of the line, or a number of unchanged ones."""

    pair: int | None
    skipped: int = 0

    @property
    def width(self) -> int:
        return GAP if self.pair is None else PITCH


@dataclass(frozen=True)
class Arc:
    source: int
    target: int | None
    target_name: str
    direction: int
    label: str
    changed: bool
    missing: bool


def rows(
    pairs: Sequence[GroupPair], a: Plan, b: Plan, changed: Mapping[int, GroupDiff], most: int
) -> tuple[list[str], int]:
    """The first rows of the picture, each an SVG, and how many more there are. `changed` is by the place of a pair."""
    columns = _columns(len(pairs), set(changed))
    before = {p.before: i for i, p in enumerate(pairs) if p.before is not None}
    after = {p.after: i for i, p in enumerate(pairs) if p.after is not None}
    old = _arcs(a.groups, before)
    new = _arcs(b.groups, after)
    olds, news = {_key(arc) for arc in old}, {_key(arc) for arc in new}
    old = [_marked(arc, _key(arc) not in news) for arc in old]
    new = [_marked(arc, _key(arc) not in olds) for arc in new]
    lanes = (_by_source(old), _by_source(new))
    packed = list(_packed(columns))
    return [_row(row, pairs, a, b, changed, lanes) for row in packed[:most]], max(0, len(packed) - most)


def _columns(count: int, changed: set[int]) -> list[Column]:
    if count <= ALL:
        return [Column(i) for i in range(count)]
    shown = {near for i in changed for near in (i - 1, i, i + 1) if 0 <= near < count}
    columns: list[Column] = []
    skipped = 0
    for i in range(count):
        if i in shown or (i - 1 in shown and i + 1 in shown):
            if skipped:
                columns.append(Column(None, skipped))
                skipped = 0
            columns.append(Column(i))
        else:
            skipped += 1
    return [*columns, *([Column(None, skipped)] if skipped else [])]


def _packed(columns: Sequence[Column]) -> Iterator[list[Column]]:
    row: list[Column] = []
    for column in columns:
        if row and sum(each.width for each in row) + column.width > WIDTH - MARGIN:
            yield row
            row = []
        row.append(column)
    if row:
        yield row


def _arcs(groups: Groups, at: Mapping[int, int]) -> list[Arc]:
    place = {group.name: at[i] for i, group in enumerate(groups)}
    return [_arc(link, place) for link in links_of(groups)]


def _arc(link: Link, place: Mapping[str, int]) -> Arc:
    metres = "infill" if link.infill else "?" if link.metres is None else f"{link.metres:g} m"
    way = "" if link.nominal is None else " →" if link.nominal else " ←"
    return Arc(place[link.source], place.get(link.target), link.target, link.direction, metres + way, False, link.missing)


def _key(arc: Arc) -> tuple[object, ...]:
    return arc.source, arc.target if arc.target is not None else arc.target_name, arc.direction, arc.label


def _marked(arc: Arc, changed: bool) -> Arc:
    return Arc(arc.source, arc.target, arc.target_name, arc.direction, arc.label, changed, arc.missing)


def _by_source(arcs: Sequence[Arc]) -> dict[int, list[Arc]]:
    found: dict[int, list[Arc]] = {}
    for arc in arcs:
        found.setdefault(arc.source, []).append(arc)
    return found


def _row(
    row: Sequence[Column], pairs: Sequence[GroupPair], a: Plan, b: Plan, changed: Mapping[int, GroupDiff],
    lanes: tuple[Mapping[int, list[Arc]], Mapping[int, list[Arc]]],
) -> str:
    centres: dict[int, int] = {}
    x = MARGIN
    for column in row:
        if column.pair is not None:
            centres[column.pair] = x + column.width // 2
        x += column.width
    width, y, parts = max(x, 320) + SIDE, 4, []
    for lane, (title, plan) in enumerate((("before", a), ("after", b))):
        drawn, height = _lane(title, row, centres, pairs, plan, changed, lanes[lane], lane, y)
        parts.append(drawn)
        y += height + 6
    return (
        f'<svg viewBox="0 0 {width} {y}" width="{width}" height="{y}" role="img" '
        f'aria-label="A part of the line, before and after">{"".join(parts)}</svg>'
    )


def _lane(
    title: str, row: Sequence[Column], centres: Mapping[int, int], pairs: Sequence[GroupPair], plan: Plan,
    changed: Mapping[int, GroupDiff], arcs: Mapping[int, list[Arc]], lane: int, top: int,
) -> tuple[str, int]:
    order = list(centres)
    rank = {pair: i for i, pair in enumerate(order)}
    here = [arc for pair in order for arc in arcs.get(pair, ())]
    spans = [abs(rank[arc.target] - rank[arc.source]) for arc in here if arc.target in rank]
    named = [arc.source for arc in here if arc.target not in rank and (arc.changed or arc.missing)]
    most = _apex(max(spans, default=1))
    rise = 14 + most + 13 * max((named.count(source) for source in named), default=0)
    lines = max((_lines(_group(pairs[pair], plan, lane)) for pair in order), default=1)
    box = 24 + 13 * lines
    y = top + rise
    height = 2 * rise + box
    parts = [f'<text class="lane" x="4" y="{y + box / 2 + 4:g}">{title}</text>']
    x = MARGIN
    parts.append(f'<line class="track" x1="{MARGIN - 6}" x2="{MARGIN + sum(c.width for c in row)}" y1="{y + box / 2:g}" y2="{y + box / 2:g}"/>')
    for column in row:
        if column.pair is None:
            parts.append(
                f'<rect class="gap" x="{x + 4}" y="{y + box / 2 - 11:g}" width="{column.width - 8}" height="22" rx="11"/>'
                f'<text class="gaptext" x="{x + column.width / 2:g}" y="{y + box / 2 + 4:g}">{column.skipped:,}</text>'
            )
        else:
            parts.append(_box(pairs[column.pair], plan, changed.get(column.pair), lane, centres[column.pair], y, box))
        x += column.width
    stubs: dict[tuple[int, bool], int] = {}
    for arc in sorted(here, key=lambda each: each.changed):
        high = 0
        if arc.target not in rank:
            key = (arc.source, arc.direction == 0)
            stubs[key] = stubs.get(key, 0) + 1
            high = 12 * stubs[key] + (most - 4 if arc.changed or arc.missing else 2)
        parts.append(_curve(arc, centres, rank, y, box, high))
    return "".join(parts), height


def _group(pair: GroupPair, plan: Plan, lane: int) -> Group | None:
    at = pair.after if lane else pair.before
    return plan.groups[at] if at is not None else None


def _lines(group: Group | None) -> int:
    return min(len(group.telegrams), LINES) if group else 1


def _box(pair: GroupPair, plan: Plan, diff: GroupDiff | None, lane: int, x: int, y: int, height: int) -> str:
    group = _group(pair, plan, lane)
    if group is None:
        return ""
    state = "same" if diff is None else diff.kind.replace(" ", "-")
    name = escape(group.name)
    sign = " ⟲" if diff is not None and diff.turned and lane else ""
    rows = [
        f"{pig}: {' '.join(str(p.number) for p in each.packets) or '–'}" for pig, each in enumerate(group.telegrams)
    ]
    if len(rows) > LINES:
        rows = [*rows[: LINES - 1], f"and {len(rows) - LINES + 1} more"]
    texts = "".join(
        f'<text class="packets" x="{x}" y="{y + 31 + 13 * i}">{escape(row if len(row) < 16 else row[:15] + "…")}</text>'
        for i, row in enumerate(rows)
    )
    inside = (
        f'<rect class="box {state}" x="{x - BOX // 2}" y="{y}" width="{BOX}" height="{height}" rx="6"/>'
        f'<text class="name{" renamed" if diff and diff.renumbered and lane else ""}" x="{x}" y="{y + 16}">{name}{sign}</text>{texts}'
    )
    if diff is None:
        return f"<g>{inside}</g>"
    return f'<a href="#g-{escape(diff.name)}"><title>{escape(diff.title)}: {escape(", ".join(diff.words))}</title>{inside}</a>'


def _curve(arc: Arc, centres: Mapping[int, int], rank: Mapping[int, int], y: int, box: int, high: int) -> str:
    down = arc.direction == 0
    edge = y + box if down else y
    way = 1 if down else -1
    kind = {0: "reverse", 1: "nominal"}.get(arc.direction, "both")
    style = f"arc {kind}{' changed' if arc.changed else ''}{' missing' if arc.missing else ''}"
    tip = "changed" if arc.changed else kind
    x = centres[arc.source]
    changed = " changed" if arc.changed else ""
    if arc.target in rank and arc.target is not None and arc.target != arc.source:
        to = centres[arc.target]
        side = 1 if to > x else -1
        apex = _apex(abs(rank[arc.target] - rank[arc.source]))
        start, end, control = x + 12 * side, to - 12 * side, edge + way * apex / 0.75
        path = f"M{start} {edge} C{start + 12 * side} {control:g} {end - 12 * side} {control:g} {end} {edge + way * 3}"
        label = f'<text class="dist{changed}" x="{(start + end) / 2:g}" y="{edge + way * (apex - 8) + 4:g}">{escape(arc.label)}</text>'
    else:
        forward = arc.target is None or arc.target > arc.source
        side = 1 if forward else -1
        start = x + 18 * side
        end = start + 30 * side
        path = f"M{start} {edge} Q{start + 4 * side} {edge + way * high} {end} {edge + way * high}"
        label = ""
        if arc.changed or arc.missing:
            anchor = "start" if forward else "end"
            label = (
                f'<text class="dist{changed}" style="text-anchor:{anchor}" x="{end + 3 * side}" '
                f'y="{edge + way * high + 4:g}">{escape(arc.target_name)}, {escape(arc.label)}</text>'
            )
    title = f"link to {arc.target_name}, {arc.label}"
    return f'<path class="{style}" d="{path}" marker-end="url(#tip-{tip})"><title>{escape(title)}</title></path>{label}'


def _apex(span: int) -> int:
    """How far an arc rises, by the number of groups that it leads on."""
    return 27 + 20 * (min(span, 4) - 1)


def map_of(pairs: Sequence[GroupPair], changed: Mapping[int, GroupDiff]) -> str:
    """All groups of a long line as small squares, the changed ones coloured."""
    size, columns = 9, 100
    height = (len(pairs) + columns - 1) // columns * size
    parts = []
    for start in range(0, len(pairs), columns):
        count = min(columns, len(pairs) - start)
        y = start // columns * size
        parts.append(f'<rect class="cells" x="0" y="{y + 1}" width="{count * size - 1}" height="{size - 2}"/>')
        for i in range(start, start + count):
            diff = changed.get(i)
            if diff is not None:
                state = diff.kind.replace(" ", "-")
                parts.append(
                    f'<a href="#g-{escape(diff.name)}"><rect class="cell {state}" x="{(i - start) * size}" y="{y + 1}" '
                    f'width="{size - 1}" height="{size - 2}"><title>{escape(diff.title)}: {escape(", ".join(diff.words))}</title></rect></a>'
                )
    return f'<svg class="map" viewBox="0 0 {columns * size} {height}" role="img" aria-label="All groups of the line">{"".join(parts)}</svg>'
