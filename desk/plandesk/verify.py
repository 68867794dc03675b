"""Whether a journal makes a delivered plan of a base plan: by the engine, and by the reference program."""

from __future__ import annotations

import os
import time
from collections.abc import Iterator, Sequence
from dataclasses import asdict, dataclass, field, replace
from pathlib import Path

from plandesk import folder as files
from plandesk.compare import Plan, compare
from plandesk.damage import clean, damage_of
from plandesk.engine import Engine, Run
from plandesk.errors import BadDigits, DeskError, Fault
from plandesk.journal import read_journal
from plandesk.matching import by_content
from plandesk.rows import brief

SAME, BYTES, DIFFERS, REFUSED, UNKNOWN = "same", "bytes", "differs", "refused", "unknown"
TITLES = {
    SAME: "They belong together.",
    BYTES: "The same plan bit for bit, but not the same bytes.",
    DIFFERS: "They don't belong together.",
    REFUSED: "They can't be read.",
    UNKNOWN: "They can't be checked.",
}
ROLES = {"base": "the base plan", "journal": "the journal", "delivered": "the delivered plan"}
MOST_GROUPS = 20


@dataclass(frozen=True)
class Delivery:
    """Paths, so that a delivery can go to another process."""

    name: str
    base: str
    journal: str
    delivered: str

    @classmethod
    def of_folder(cls, path: Path) -> Delivery:
        return cls(str(path), *(str(path / name) for name in (files.BASE, files.JOURNAL, files.LINE)))


@dataclass(frozen=True)
class Verdict:
    """What verify found. `reference` is `yes`, `no`, or why the reference program gave no answer."""

    name: str
    result: str
    edits: int = 0
    standing: int = 0
    groups: int = 0
    reference: str = ""
    findings: tuple[str, ...] = ()
    checksums: dict[str, str] = field(default_factory=dict)
    seconds: float = 0.0

    @property
    def good(self) -> bool:
        return self.result == SAME

    @property
    def by_both(self) -> bool:
        """Whether both programs make the plan."""
        return self.good and self.reference == "yes"

    @property
    def title(self) -> str:
        return TITLES[self.result]

    @property
    def by(self) -> str:
        """Who makes the plan."""
        if not self.good:
            return ""
        return "Both programs make it." if self.by_both else f"The engine makes it. {self.reference}".strip()

    @property
    def sentence(self) -> str:
        return f"{self.title} {self.by}".strip()

    def data(self) -> dict[str, object]:
        return asdict(self) | {"good": self.good, "title": self.title}


def verify(delivery: Delivery, engine: Engine, reference: Engine | None, limit: float | None = 60) -> Verdict:
    """One delivery. It never raises: a fault is a verdict too."""
    start = time.monotonic()
    try:
        verdict = _verify(delivery, engine, reference, limit)
    except Fault as fault:
        verdict = Verdict(delivery.name, UNKNOWN, findings=(fault.message,))
    except DeskError as error:
        result = UNKNOWN if "can't be read" in error.message else REFUSED
        more = (error.hint,) if isinstance(error, BadDigits) else ()
        verdict = Verdict(delivery.name, result, findings=(error.message, *more))
    except Exception as error:  # a damaged output of a program that isn't the engine
        verdict = Verdict(delivery.name, UNKNOWN, findings=(f"the programs' output can't be read: {error!r}",))
    return replace(verdict, seconds=round(time.monotonic() - start, 3))


@dataclass(frozen=True)
class Files:
    """The texts of a delivery without what happened to them on the way, and what that was."""

    base: str
    journal: str
    delivered: str
    damage: tuple[str, ...]
    sums: dict[str, str]

    @classmethod
    def read(cls, delivery: Delivery) -> Files:
        texts = {role: files.read_text(Path(getattr(delivery, role))) for role in ROLES}
        found: list[str] = []
        for role, text in texts.items():
            data = text.encode("latin-1")
            if role != "journal" or text:
                found += [f"{ROLES[role][0].upper()}{ROLES[role][1:]}: {each.text}" for each in damage_of(data)]
        sums = {role: files.checksum(text) for role, text in texts.items()}
        base, journal, delivered = map(_cleaned, texts.values())
        return cls(base, journal, delivered, tuple(found), sums)


def _cleaned(text: str) -> str:
    plain = clean(text.encode("latin-1")).decode("latin-1")
    return plain if plain.endswith("\n") or not plain else f"{plain}\n"


def _verify(delivery: Delivery, engine: Engine, reference: Engine | None, limit: float | None) -> Verdict:
    given = Files.read(delivery)
    run = engine.run(given.base, given.journal, name=ROLES["base"])
    plain = engine.run(given.base, view=False, name=ROLES["base"]).plan
    different = list(_differences(engine, run, given.delivered))
    if plain != given.base.lower():
        different.append("the engine doesn't print the base plan as it was read")
    said = "The reference program wasn't asked."
    if reference is not None:
        said, more = _by_reference(given, run, reference, limit)
        different += more
    bytes_only = [*given.damage, *_letters(given, run)]
    journal = read_journal(run.journal)
    result = DIFFERS if different else BYTES if bytes_only else SAME
    edits, standing = len(journal.entries), len(journal.standing)
    findings = (*different, *bytes_only)
    return Verdict(delivery.name, result, edits, standing, len(run.groups), said, findings, given.sums)


def _letters(given: Files, run: Run) -> Iterator[str]:
    """Where a file has the same meaning as what the engine prints, and other letters."""
    if given.delivered != given.delivered.lower():
        yield "The delivered plan has capital letters among its digits."
    if given.journal and run.journal != given.journal:
        what = "an older version, capital letters, or another NEXT"
        yield f"The journal isn't as the engine prints it: {what}."


def _by_reference(given: Files, run: Run, reference: Engine, limit: float | None) -> tuple[str, list[str]]:
    try:
        other = reference.run(given.base, given.journal, view=False, seconds=limit)
    except Fault as fault:
        return f"The reference program gave no answer: {fault.message}.", []
    except DeskError as error:
        return "no", [f"the reference program refuses it: {error.message}"]
    found = []
    if other.plan != run.plan:
        found.append("the two programs make different plans")
    if other.journal != run.journal:
        found.append("the two programs print different journals")
    return ("no" if found else "yes"), found


def _differences(engine: Engine, run: Run, delivered: str) -> Iterator[str]:
    """Where the delivered plan isn't the one that the journal makes."""
    if run.plan == delivered.lower():
        return
    other = engine.run(delivered, name=ROLES["delivered"])
    count = 0
    made, given = Plan.of(run.plan, run.groups), Plan.of(other.plan, other.groups)
    for group in compare(by_content(run.groups, other.groups), made, given):
        count += 1
        if count <= MOST_GROUPS:
            did = {"added": "the journal doesn't make this group", "taken out": "the delivery lacks this group"}
            yield f"{group.title}: {did.get(group.kind) or brief(group)}"
    if count > MOST_GROUPS:
        yield f"and {count - MOST_GROUPS} more groups"
    if not count:
        yield "The groups are the same, but in another order."


def verify_all(
    deliveries: Sequence[Delivery], engine: Engine, reference: Engine | None, *, limit: float | None, jobs: int
) -> Iterator[Verdict]:
    """Many deliveries, each verdict as it comes."""
    if jobs <= 1 or len(deliveries) == 1:
        for delivery in deliveries:
            yield verify(delivery, engine, reference, limit)
        return
    from concurrent.futures import ProcessPoolExecutor, as_completed  # slow to load, and seldom needed

    with ProcessPoolExecutor(min(jobs, len(deliveries))) as pool:
        waiting = [pool.submit(verify, each, engine, reference, limit) for each in deliveries]
        for future in as_completed(waiting):
            yield future.result()


def processors() -> int:
    """The processors that this process may use."""
    return len(os.sched_getaffinity(0))
