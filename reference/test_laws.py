"""Laws that hold of each session. Hypothesis draws its commands, and fewer where a law fails.

Run them here: python3 -m pytest test_laws.py (on Debian: python3-pytest and python3-hypothesis)
"""

from collections.abc import Callable
from io import BytesIO

from hypothesis import given, settings
from hypothesis import strategies as st

import pairs
from edits import do
from refusals import Fault, Refused
from run import LONGEST_LINE, Commands, Lines, journal_lines, read_journal, read_session
from session import Session

# Besides commands all over the plan, some that put things in beside one another: these depend on one another.
BESIDE = [
    *(line for line in pairs.in_telegram("5.101 0", 3) if not line.startswith("seth")),
    *(line for line in pairs.commands() if line.startswith("add")),
]
COMMANDS = st.one_of(
    st.sampled_from(pairs.commands()),
    st.sampled_from(BESIDE),
    st.sampled_from(BESIDE),
    st.sampled_from(("undo", "redo")),
    st.integers(1, 12).map(lambda serial: f"strike {serial}"),
)


def lines_of(lines: list[str]) -> Lines:
    return Lines(BytesIO("".join(line + "\n" for line in lines).encode()).read)


def done(commands: list[str]) -> Session:
    """The session of the plan of pairs.py after some commands."""
    session = read_session(lines_of([*pairs.plan(), "edits"]))
    doing = Commands(session, set(), [])
    for command in commands:
        doing.take(command)
    return session


def held(session: Session) -> tuple[object, ...]:
    """All that a session holds, as values that can be compared."""
    levels = [(state.plan, state.entries()) for state in session.levels]
    return session.first, session.next_serial, session.undone, levels


Law = Callable[[Session], None]


def over_sessions(law: Law) -> Callable[[], None]:
    """The law as a test over sessions."""

    @settings(max_examples=300, deadline=None, derandomize=True)
    @given(st.lists(COMMANDS, max_size=16))
    def test(commands: list[str]) -> None:
        law(done(commands))

    return test


def standing_edits_make_the_plan(session: Session) -> None:
    plan = session.first
    for entry in session.standing:
        plan, note = do(plan, entry.serial, entry.edit)
        assert note == entry.note
    assert plan == session.plan


def redo_takes_back_a_strike(session: Session) -> None:
    before = held(session)
    for entry in session.standing:
        try:
            session.strike(entry.serial)
        except Refused:
            continue
        assert entry not in session.standing
        assert session.redo() == entry.serial
        assert held(session) == before


def undoing_all_leaves_the_first_plan(session: Session) -> None:
    while session.standing:
        session.undo()
    assert session.plan == session.first


def a_struck_edit_could_have_been_left_out(session: Session) -> None:
    """The edits that stand after a strike, done anew without the struck one, make the same plan."""
    for entry in session.standing:
        try:
            session.strike(entry.serial)
        except Refused:
            continue
        standing_edits_make_the_plan(session)
        session.redo()


def a_journal_is_read_back(session: Session) -> None:
    rest = lines_of([*journal_lines(session), "edits"])
    assert held(read_journal(rest, rest.due(), session.first)) == held(session)


test_standing_edits_make_the_plan = over_sessions(standing_edits_make_the_plan)
test_redo_takes_back_a_strike = over_sessions(redo_takes_back_a_strike)
test_undoing_all_leaves_the_first_plan = over_sessions(undoing_all_leaves_the_first_plan)
test_a_struck_edit_could_have_been_left_out = over_sessions(a_struck_edit_could_have_been_left_out)
test_a_journal_is_read_back = over_sessions(a_journal_is_read_back)


@settings(deadline=None, derandomize=True)
@given(
    st.lists(st.sampled_from((b"", b"a", b"a line", b"x" * LONGEST_LINE)), max_size=8),
    st.booleans(),
    st.integers(1, 9000),
)
def test_lines_by_reads_of_any_size(lines: list[bytes], is_ended: bool, most: int) -> None:
    text = b"\n".join(lines) + (b"\n" if is_ended and lines else b"")
    source, found = BytesIO(text), []
    reader = Lines(lambda count: source.read(min(count, most)))
    while (line := reader.next()) is not None:
        found.append(line.encode())
    due = text.split(b"\n")
    assert found == (due if due[-1] else due[:-1])
    assert reader.number == len(found) + 1


@settings(deadline=None, derandomize=True)
@given(st.lists(st.just(b"undo\n"), max_size=3), st.integers(1, 9000))
def test_a_line_that_is_too_long(before: list[bytes], most: int) -> None:
    source = BytesIO(b"".join(before) + b"x" * (LONGEST_LINE + 1))
    reader = Lines(lambda count: source.read(min(count, most)))
    for _ in before:
        assert reader.next() == "undo"
    try:
        reader.next()
    except Fault as fault:
        assert str(fault) == "29 InputTooLong"
    else:
        raise AssertionError("no fault")
