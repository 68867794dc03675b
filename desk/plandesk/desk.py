"""The work on one line: its three files through the engine."""

from __future__ import annotations

from collections.abc import Sequence
from dataclasses import dataclass, replace
from functools import cached_property

from plandesk import folder as files
from plandesk.depend import Dependents
from plandesk.engine import Engine, Reply, Run
from plandesk.errors import BadInput, Fault
from plandesk.facts import find_facts
from plandesk.folder import Folder
from plandesk.identities import Identities
from plandesk.journal import Journal, read_journal
from plandesk.ledger import agrees
from plandesk.naming import Names
from plandesk.reviews import Reviews, new_reviews
from plandesk.tags import Tags, tags_of, tags_of_base
from plandesk.view import Groups


@dataclass(frozen=True)
class Outcome:
    """What a list of commands came to. `kept` says whether the files are to be the run's."""

    commands: tuple[str, ...]
    run: Run
    kept: bool
    new_reviews: Reviews
    halved: bool = False
    """Whether of the commands of one line some were accepted and some refused. Such are never kept."""

    @property
    def pairs(self) -> list[tuple[str, Reply]]:
        return list(zip(self.commands, self.run.replies, strict=True))

    @property
    def refused(self) -> int:
        """The number of refused commands."""
        return sum(reply.refused for reply in self.run.replies)


@dataclass(frozen=True)
class State:
    """The files as read, and what the engine makes of base and journal."""

    folder: Folder
    engine: Engine
    base: str
    journal_text: str
    line: str
    reviews: Reviews
    run: Run

    @cached_property
    def journal(self) -> Journal:
        return read_journal(self.run.journal)

    @cached_property
    def viewed(self) -> Run:
        """The same run with the view."""
        return self.run if self.run.json else self.engine.run(self.base, self.run.journal)

    @property
    def groups(self) -> Groups:
        return self.viewed.groups

    @cached_property
    def base_run(self) -> Run:
        return self.engine.run(self.base) if self.journal.entries else self.viewed

    @property
    def base_groups(self) -> Groups:
        return self.base_run.groups

    @cached_property
    def tags(self) -> Tags:
        if not self.journal.entries:
            return tags_of_base(self.groups)
        return tags_of(find_facts(), self.base, self.viewed)

    @cached_property
    def identities(self) -> Identities:
        return Identities(self.base, self.journal)

    @cached_property
    def names(self) -> Names:
        return Names(lambda: self.base_groups, self.groups, self.identities, self.tags)

    @cached_property
    def turns_without_review(self) -> list[int]:
        """Turns of several balises that stand, and of which no review is kept: they left none, or came with a journal."""
        noted = {item.serial for item in self.reviews.items}
        turns = [entry for entry in self.journal.standing if entry.kind == "turn" and entry.serial not in noted]
        return [entry.serial for entry in turns if self.identities.balises(entry.group) > 1]

    def names_of(self, names: set[str]) -> Names:
        """The same for edits of some groups alone, which is quicker on a long line."""
        here = names & self.groups.places.keys()
        tags = tags_of(find_facts(), self.base, self.viewed, here) if here else Tags({}, {})
        return Names(lambda: self.base_groups, self.groups, self.identities, tags)

    @cached_property
    def dependents(self) -> Dependents:
        standing = [entry.serial for entry in self.journal.standing]
        return Dependents(find_facts().edits(self.base, self.run.journal, standing))

    @property
    def standing(self) -> frozenset[int]:
        return frozenset(entry.serial for entry in self.journal.standing)

    @property
    def whole(self) -> bool:
        """Whether line.plan and journal are what the engine prints."""
        return self.run.plan == self.line and self.run.journal == self.journal_text

    @property
    def checksums(self) -> dict[str, str]:
        texts = {files.BASE: self.base, files.JOURNAL: self.journal_text, files.LINE: self.line}
        return {name: files.checksum(text) for name, text in texts.items()}


def load(folder: Folder, engine: Engine, *, strict: bool = True) -> State:
    """Reads a folder and does its journal again. With `strict` line.plan has to be what comes out."""
    base, journal = folder.read(files.BASE), folder.read(files.JOURNAL)
    line = folder.read(files.LINE) if folder.has(files.LINE) else ""
    reviews = Reviews.read(folder.read(files.REVIEWS)) if folder.has(files.REVIEWS) else Reviews()
    if engine.run(base, view=False, name=files.BASE).plan != base:
        raise BadInput(f"{folder.path / files.BASE} isn't as the engine prints it: somebody changed it by hand")
    run = engine.run(base, journal, view=False, name=files.BASE)
    state = State(folder, engine, base, journal, line, reviews, run)
    if strict and not state.whole:
        what = files.LINE if run.plan != line else files.JOURNAL
        raise BadInput(
            f"{folder.path / what} isn't what the engine makes of {files.BASE} and {files.JOURNAL}: "
            "somebody changed it by hand, or only some of the files came along",
            "`plandesk diff --line` shows where; `plandesk restore` writes it anew from base and journal",
        )
    return state


def tried(
    state: State,
    commands: Sequence[str],
    *,
    keep_accepted: bool = False,
    dry_run: bool = False,
    origins: Sequence[int] = (),
) -> Outcome:
    """Does commands after the journal. All is to be kept or nothing, or with `keep_accepted` what was accepted.

    `origins` has the line that each command comes from: the commands of one line are never kept in part.
    """
    run = state.engine.run(state.base, state.journal_text, commands)
    check_again(state, run)
    found = new_reviews(state.engine, state.base, state.journal_text, commands, run, state.reviews)
    half = halved(run, origins)
    kept = not dry_run and bool(commands) and (keep_accepted and not half or not run.refused)
    return Outcome(tuple(commands), run, kept, found, half)


def keep(state: State, outcome: Outcome) -> None:
    """Writes what is to be kept. What is shown of it has to be asked for before: a question may fail."""
    if outcome.kept:
        texts = {files.JOURNAL: outcome.run.journal, files.LINE: outcome.run.plan}
        if outcome.new_reviews.items:
            texts[files.REVIEWS] = state.reviews.plus(outcome.new_reviews).text()
        state.folder.write(texts)


def halved(run: Run, origins: Sequence[int]) -> bool:
    """Whether of the commands of one line some were accepted and some refused."""
    answers = {(origin, reply.refused) for origin, reply in zip(origins, run.replies, strict=False)}
    return any((origin, not refused) in answers for origin, refused in answers)


def check_again(state: State, run: Run) -> None:
    """The journal that is to be kept has all its edits, and makes the plan that is to be kept."""
    again = state.engine.run(state.base, run.journal, view=False)
    same = again.plan == run.plan and again.journal == run.journal
    if not same or not agrees(state.journal, run.replies, read_journal(run.journal)):
        raise Fault(
            f"{state.engine.name} printed a journal that doesn't make its plan, or lacks an edit; nothing was changed",
            "this is a fault of the engine: please report it with base.plan, journal and the commands",
        )


def after_of(state: State, outcome: Outcome) -> State:
    """What the folder has, or would have, after the commands."""
    run = outcome.run
    reviews = state.reviews.plus(outcome.new_reviews)
    return replace(state, journal_text=run.journal, line=run.plan, reviews=reviews, run=run)


def restore(state: State) -> bool:
    """Writes line.plan and the journal as the engine prints them. False where they are so already."""
    if state.whole:
        return False
    state.folder.write({files.JOURNAL: state.run.journal, files.LINE: state.run.plan})
    return True
