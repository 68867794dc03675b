"""What the edits of a folder changed."""

from __future__ import annotations

from plandesk import matching
from plandesk.compare import GroupDiff, Plan, compare
from plandesk.desk import State
from plandesk.tags import tags_of_base
from plandesk.view import telegrams_of


def changed_count(state: State) -> int:
    """The number of groups that differ from base.plan in a bit, those that came or went among them."""
    if not state.journal.entries:
        return 0
    base, now = telegrams_of(state.base), telegrams_of(state.run.plan)
    old = {f"b{at}": digits for at, digits in enumerate(base)}
    same = sum(old.get(tag) == now[at] for tag, at in state.tags.groups.items())
    return len(set(old) | set(state.tags.groups)) - same


def session_diff(state: State) -> list[GroupDiff]:
    """base.plan and line.plan: by tags, so that a renumbered or turned group is known as what it was."""
    base = Plan.of(state.base, state.base_groups)
    now = Plan.of(state.run.plan, state.groups)
    if not state.journal.entries:
        return []
    pairs = matching.by_tags(tags_of_base(state.base_groups), state.tags)
    return list(compare(pairs, base, now))
