"""Why a command was refused, in words, with what would help."""

from __future__ import annotations

import difflib
from collections.abc import Callable

from plandesk.command_lines import FORMS
from plandesk.engine import Reply
from plandesk.faults import OF_DIGITS, packet_fault, telegrams_fault
from plandesk.refusals import text_of
from plandesk.view import Group, Groups, Packet, links_of
from plandesk.vocabulary import HEADER_SET, is_steering, packet_name, variable, variables

ANY_VERSION = 33
"""For digits that are refused before their telegram is looked for."""


def explain(command: str, reply: Reply, groups: Groups) -> str:
    """A sentence for a refusal; `groups` is the plan that the command met."""
    if reply.depends is not None:
        return f"edit {reply.depends} depends on it; `plandesk strike` lists all that do"
    words = command.split(" ")
    if reply.number == 1:
        return _form(words, groups)
    if reply.number in OF_DIGITS and words[0] in ("insert", "add"):
        return f"{text_of(reply.number)}; {_wrong_digits(words, reply.number, groups)}"
    special = SPECIAL.get(reply.number)
    return special(words, groups) if special else text_of(reply.number)


def _wrong_digits(words: list[str], number: int, groups: Groups) -> str:
    """Where the digits of an insert or add are wrong."""
    if words[0] == "insert":
        version = version_of(words, groups)
        return packet_fault(ANY_VERSION if version is None else version, words[4], number)
    return telegrams_fault(words[2:], number)


def version_of(words: list[str], groups: Groups) -> int | None:
    """M_VERSION of the telegram that an insert names. None where the plan hasn't it."""
    group = groups.named(words[1])
    try:
        return dict(group.telegrams[int(words[2])].header)["M_VERSION"] if group else None
    except (IndexError, ValueError):
        return None


def _form(words: list[str], groups: Groups) -> str:
    kind = words[0]
    if kind not in FORMS:
        near = difflib.get_close_matches(kind, list(FORMS), 1, 0.5)
        return f"there is no command {kind!r}{_or(near)}"
    if "" in words:
        return "there are two blanks in a row, or one at the end"
    place = {"set": 4, "seth": 3}.get(kind)
    if place is not None and len(words) > place and not variable(words[place]):
        packet = _addressed(words, groups) if kind == "set" else None
        if packet is not None and not packet.known:
            return _kept(words, packet)
        near = difflib.get_close_matches(words[place], variables(), 2, 0.5)
        return f"the engine knows no variable {words[place]}{_or(near)}"
    if kind == "set" and len(words) == 6:
        return f"K is missing: `{' '.join([*words[:5], '0', words[5]])}` sets the first {words[4]}"
    return f"the form is `{FORMS[kind]}`"


def _or(near: list[str]) -> str:
    return f"; did you mean {' or '.join(near)}?" if near else ""


def _addressed(words: list[str], groups: Groups) -> Packet | None:
    """The packet that a set names, if it is there."""
    try:
        return _group(words, groups).telegrams[int(words[2])].packets[int(words[3])]
    except (KeyError, IndexError, ValueError):
        return None


def _kept(words: list[str], packet: Packet) -> str:
    """Why a field of a packet that the engine doesn't know isn't set."""
    which = f"{' '.join(words[1:4])} is packet {packet.number} ({packet_name(packet.number)})"
    return f"{which}, which the engine keeps bit for bit: only its Q_DIR can be set. Delete it, and insert other digits"


def near_groups(name: str, groups: Groups) -> str:
    return _or(difflib.get_close_matches(name, groups.names, 3, 0.6))


def _no_group(words: list[str], groups: Groups) -> str:
    if words[0] == "add":
        return f"AT is past the end: the plan has {len(groups)} groups"
    return f"the plan has no group {words[1]}{near_groups(words[1], groups)}"


def _no_telegram(words: list[str], groups: Groups) -> str:
    group = _group(words, groups)
    last = len(group.telegrams) - 1
    have = "it has telegram 0 only" if not last else f"0 to {last}"
    return f"{group.name} has no telegram {words[2]}: {have}"


def _no_packet(words: list[str], groups: Groups) -> str:
    group = _group(words, groups)
    packets = group.telegrams[int(words[2])].packets
    which = ", ".join(f"{at} is packet {packet.number}" for at, packet in enumerate(packets))
    return f"telegram {words[2]} of {group.name} has no such place: {which or 'it has no packet'}"


def _no_variable(words: list[str], groups: Groups) -> str:
    group = _group(words, groups)
    if words[0] == "seth":
        return f"of a header {', '.join(HEADER_SET)} can be set, and {words[3]} can't"
    pig, pkt, name, k = int(words[2]), int(words[3]), words[4], int(words[5])
    packet = group.telegrams[pig].packets[pkt]
    if not packet.known:
        return _kept(words, packet)
    count = sum(field.name == name for field in packet.fields)
    if count:
        return f"the packet has {name} {count} times: K is from 0 to {count - 1}, and not {k}"
    places = [
        f"{group.name} {i} {j}"
        for i, each in enumerate(group.telegrams)
        for j, other in enumerate(each.packets)
        if other.value(name) is not None
    ]
    here = f"{group.name} {pig} {pkt} is packet {packet.number} ({packet_name(packet.number)}) without {name}"
    return here + (f"; {name} stands at {', '.join(places[:4])}" if places else "")


def _steering(words: list[str], groups: Groups) -> str:
    if words[0] == "seth":
        return _no_variable(words, groups)
    name = next((word for word in words if is_steering(word)), "the variable")
    ways = f"`plandesk fields {' '.join(words[1:4])}` prints the packet's fields, and `replace` takes them changed"
    return f"{name} says what follows it, so it isn't set in place: {ways}"


def _too_wide(words: list[str], groups: Groups) -> str:
    name = words[4] if words[0] == "set" else words[3] if words[0] == "seth" else "NID_BG"
    width = int(variable(name)["bits"])
    return f"the value doesn't fit: {name} is at most {(1 << width) - 1}, in {width} bits"


def _no_room(words: list[str], groups: Groups) -> str:
    telegram = _group(words, groups).telegrams[int(words[2])]
    return f"the telegram has {telegram.bits - telegram.used} bits left, too few for the packet"


def _taken(words: list[str], groups: Groups) -> str:
    identity = f"{words[1].split('.')[0]}.{words[2]}"
    if identity in groups.places:
        return f"there is a group {identity} already"
    by = next((link for link in links_of(groups) if link.target == identity), None)
    place = f": {by.source} {by.pig} {by.pkt} NID_BG {by.k}" if by else ""
    return f"a link names {identity} already, though no group has it{place}"


def _group(words: list[str], groups: Groups) -> Group:
    return groups[groups.places[words[1]]]


SPECIAL: dict[int, Callable[[list[str], Groups], str]] = {
    14: _no_group,
    15: _no_telegram,
    16: _no_packet,
    17: _no_variable,
    18: _steering,
    19: _too_wide,
    20: _no_room,
    21: _taken,
}
"""Refusals that the plan says more about."""
