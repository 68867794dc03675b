"""The nine edits: what each makes of a plan, and what it notes.

A plan is a value. An edit makes another one, which shares the groups that it doesn't touch.
"""

from collections.abc import Callable
from dataclasses import dataclass, replace

from packets import NO_GROUP, STEERING, WIDTHS, Packet, read_packet_in_bytes
from plans import MOST_TELEGRAMS, BaliseGroup, Identity, Plan, identities, make_group, named_by
from refusals import Refusal, Refused
from telegrams import FREE_IN_HEADER, Telegram, anchor_at, place_after, place_of
from telegrams import read_telegram, tag_at, with_item, with_new, without_item


@dataclass(frozen=True)
class Edit:
    """An edit by tags. `kind` is its word in a command; it has the fields it needs."""

    kind: str
    group: str = ""
    telegram: int = 0
    packet: str = ""
    after: str = ""
    variable: str = ""
    occurrence: int = 0
    value: int = 0
    bits: tuple[str, ...] = ()


@dataclass(frozen=True)
class Note:
    """What an edit notes: the old value, what came next, and identities.

    `own` are those of the edited group, `names` those that its packets name.
    """

    old: int | None = None
    before: str | None = None
    own: tuple[Identity, ...] = ()
    names: tuple[Identity, ...] = ()


def _check_value(edit: Edit, is_steering: bool) -> None:
    """A value that may be set and fits (7.5.1), or 18 or 19."""
    if is_steering:
        raise Refused(Refusal.Steering)
    if edit.value >= 1 << WIDTHS[edit.variable]:
        raise Refused(Refusal.ValueTooWide)


def _set(edit: Edit, telegram: Telegram, at: int) -> tuple[Telegram, Note]:
    """A variable of a packet (7.5.1)."""
    packet, country = telegram.packets[at], telegram.header["NID_C"]
    place = packet.place(edit.variable, edit.occurrence)
    if place is None:
        raise Refused(Refusal.NoSuchVariable)
    _check_value(edit, edit.variable in STEERING)
    changed = packet.with_value(place, edit.value)
    names: list[Identity] = []
    if edit.variable in ("NID_BG", "Q_LINKORIENTATION"):
        names.append(named_by(packet, country)[edit.occurrence])
    if edit.variable == "NID_BG":
        names.append(named_by(changed, country)[edit.occurrence])
    named = tuple(name for name in names if name[1] != NO_GROUP)
    packets = with_item(telegram.packets, at, changed)
    return telegram.with_packets(packets), Note(old=packet.fields[place][1], names=named)


def _seth(edit: Edit, telegram: Telegram) -> tuple[Telegram, Note]:
    """M_DUP, M_MCOUNT or Q_LINK of a header (8.4.2)."""
    if edit.variable not in telegram.header:
        raise Refused(Refusal.NoSuchVariable)
    _check_value(edit, edit.variable not in FREE_IN_HEADER)
    old = telegram.header[edit.variable]
    return telegram.with_header(edit.variable, edit.value), Note(old=old)


def _insert(edit: Edit, telegram: Telegram, tag: str) -> tuple[Telegram, Note]:
    place = place_after(telegram.packets, edit.after, Refusal.NoSuchPacket)
    packet = read_packet_in_bytes(edit.bits[0], telegram.header["M_VERSION"], tag)
    if len(packet.bits()) > telegram.room():
        raise Refused(Refusal.NoRoom)
    packets = with_new(telegram.packets, place, packet)
    note = Note(names=tuple(identities(packet, telegram.header["NID_C"])))
    return telegram.with_packets(packets), note


def _delete(telegram: Telegram, at: int) -> tuple[Telegram, Note]:
    before = tag_at(telegram.packets, at + 1)
    names = identities(telegram.packets[at], telegram.header["NID_C"])
    packets = without_item(telegram.packets, at)
    return telegram.with_packets(packets), Note(before=before, names=tuple(names))


def _move(edit: Edit, telegram: Telegram, at: int) -> tuple[Telegram, Note]:
    if edit.after in (edit.packet, anchor_at(telegram.packets, at)):
        raise Refused(Refusal.SamePlace)
    before = tag_at(telegram.packets, at + 1)
    rest = without_item(telegram.packets, at)
    place = place_after(rest, edit.after, Refusal.NoSuchPacket)
    packets = with_new(rest, place, telegram.packets[at])
    return telegram.with_packets(packets), Note(before=before)


def _in_telegram(edit: Edit, telegram: Telegram, serial: int) -> tuple[Telegram, Note]:
    """An edit of one telegram."""
    if edit.kind == "seth":
        return _seth(edit, telegram)
    if edit.kind == "insert":
        return _insert(edit, telegram, f"n{serial}")
    at = place_of(telegram.packets, edit.packet, Refusal.NoSuchPacket)
    if edit.kind == "move":
        return _move(edit, telegram, at)
    return _delete(telegram, at) if edit.kind == "delete" else _set(edit, telegram, at)


def _where_named(
    plan: Plan, identity: Identity, variable: str, change: Callable[[int], int]
) -> Plan:
    """The plan with a variable changed in each element that names an identity (3.4)."""

    def changed(packet: Packet, country: int) -> Packet:
        for element, name in enumerate(named_by(packet, country)):
            at = packet.place(variable, element)
            if name == identity and at is not None:
                packet = packet.with_value(at, change(packet.fields[at][1]))
        return packet

    def in_group(group: BaliseGroup) -> BaliseGroup:
        if identity not in group.names:
            return group
        return _with_each_packet(group, lambda packet: changed(packet, group.identity[0]))

    return Plan(tuple(in_group(group) for group in plan.groups))


def _with_each_packet(group: BaliseGroup, change: Callable[[Packet], Packet]) -> BaliseGroup:
    """The group with each packet changed."""
    telegrams = (
        telegram.with_packets(tuple(change(packet) for packet in telegram.packets))
        for telegram in group.telegrams
    )
    return replace(group, telegrams=tuple(telegrams))


def _renumber(edit: Edit, plan: Plan, place: int) -> tuple[Plan, Note]:
    """A new NID_BG in the headers of a group and wherever it is named (3.4)."""
    group = plan.groups[place]
    old = group.identity
    new = (old[0], edit.value)
    if edit.value >= 1 << WIDTHS["NID_BG"]:
        raise Refused(Refusal.ValueTooWide)
    if edit.value == NO_GROUP:
        raise Refused(Refusal.NumberReserved)
    if plan.has(new) or plan.is_named(new):
        raise Refused(Refusal.NumberTaken)
    telegrams = (each.with_header("NID_BG", edit.value) for each in group.telegrams)
    renumbered = plan.with_group(place, replace(group, telegrams=tuple(telegrams)))
    plan = _where_named(renumbered, old, "NID_BG", lambda _: edit.value)
    return plan, Note(old=old[1], own=(old, new))


def _other_direction(packet: Packet) -> Packet:
    """Q_DIR 0 becomes 1 and 1 becomes 0; both directions and spare stay (7.5.1)."""
    q_dir = packet.fields[1][1]
    return packet.with_value(1, 1 - q_dir) if q_dir < 2 else packet


def _turned(telegram: Telegram, place: int) -> Telegram:
    """A telegram of a turned group, at its new place (8.4.2)."""
    m_dup = (0, 2, 1, 3)[telegram.header["M_DUP"]]
    return telegram.with_header("N_PIG", place).with_header("M_DUP", m_dup)


def _turn(plan: Plan, place: int) -> tuple[Plan, Note]:
    """The telegrams of a group in the other order, with N_PIG, M_DUP and Q_DIR to match (8.4.2).

    Each link to the group gets the other Q_LINKORIENTATION (3.4).
    """
    group = plan.groups[place]
    identity = group.identity
    telegrams = tuple(_turned(each, i) for i, each in enumerate(reversed(group.telegrams)))
    turned = _with_each_packet(replace(group, telegrams=telegrams), _other_direction)
    plan = plan.with_group(place, turned)
    plan = _where_named(plan, identity, "Q_LINKORIENTATION", lambda value: 1 - value)
    return plan, Note(own=(identity,))


def _add(edit: Edit, plan: Plan, tag: str) -> tuple[Plan, Note]:
    place = place_after(plan.groups, edit.after, Refusal.NoSuchGroup)
    if len(edit.bits) > MOST_TELEGRAMS:
        raise Refused(Refusal.GroupSize)
    telegrams = tuple(read_telegram(bits, pig) for pig, bits in enumerate(edit.bits))
    group = make_group(tag, telegrams)
    if plan.has(group.identity):
        raise Refused(Refusal.GroupTwice)
    note = Note(own=(group.identity,), names=group.names)
    return Plan(with_new(plan.groups, place, group)), note


def _drop(plan: Plan, place: int) -> tuple[Plan, Note]:
    group = plan.groups[place]
    note = Note(before=tag_at(plan.groups, place + 1), own=(group.identity,), names=group.names)
    return Plan(without_item(plan.groups, place)), note


def do(plan: Plan, serial: int, edit: Edit) -> tuple[Plan, Note]:
    """The plan that an edit makes and what it notes, or its first refusal."""
    if edit.kind == "add":
        return _add(edit, plan, f"n{serial}")
    place = place_of(plan.groups, edit.group, Refusal.NoSuchGroup)
    if edit.kind == "drop":
        return _drop(plan, place)
    if edit.kind == "renumber":
        return _renumber(edit, plan, place)
    if edit.kind == "turn":
        return _turn(plan, place)
    group = plan.groups[place]
    pig = place_of(group.telegrams, edit.telegram, Refusal.NoSuchTelegram)
    telegram, note = _in_telegram(edit, group.telegrams[pig], serial)
    return plan.with_group(place, group.with_telegram(pig, telegram)), note
