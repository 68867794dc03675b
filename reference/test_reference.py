"""Tests of the reference: worked examples, and laws on random sessions.

Run them here: python3 -m unittest test_reference
"""

import re
import shlex
import subprocess
import sys
import time
import unittest
from io import BytesIO
from pathlib import Path

import compare
import pairs
from baliseplan import answer
from filters import Answer
from packets import FOLLOWS, OPENING, PACKETS, PARTS, WIDTHS, walk
from random_inputs import Input, make_input
from refusals import Fault
from run import BadInput, Commands, Lines, read_session
from session import Session

HERE = Path(__file__).resolve().parent
ROOT = HERE.parent
REVOCATION = "plan 1\ngroup\na1007f80a03250900f82ffffffffffffffffffffffffffffffffc0\n"
SEEDS = range(100)


def answered(text: str | bytes, *arguments: str) -> Answer:
    given = text.encode("latin-1") if isinstance(text, str) else text
    return answer(list(arguments), BytesIO(given).read)


def words_of_file(path: Path) -> list[str]:
    return path.read_text().split() if path.exists() else []


def done(given: Input) -> Session | None:
    """The session that an input leaves, if its plan and journal are read."""
    lines = Lines(BytesIO(given.text).read)
    try:
        session = read_session(lines)
        commands = Commands(session, set(), [])
        while (line := lines.next()) is not None:
            commands.take(line)
    except (BadInput, Fault):
        return None
    return session


class WorkedExamples(unittest.TestCase):
    def test_formats_page(self) -> None:
        script = ROOT / "scripts" / "check" / "examples.py"
        program = f"{shlex.quote(sys.executable)} {shlex.quote(str(HERE / 'baliseplan.py'))}"
        done = subprocess.run(
            [sys.executable, str(script), program, "formats"], capture_output=True, text=True
        )
        self.assertEqual((done.returncode, done.stderr), (0, ""), done.stdout)

    def test_examples(self) -> None:
        plans = sorted((ROOT / "examples").glob("*.plan"))
        self.assertTrue(plans)
        for plan in plans:
            with self.subTest(plan.stem):
                given = answered(plan.read_bytes(), *words_of_file(plan.with_suffix(".flags")))
                self.assertEqual(given.output, plan.with_suffix(".out").read_bytes())

    def test_rows(self) -> None:
        rows = sorted((ROOT / "checks" / "rows").glob("*.in"))
        self.assertTrue(rows)
        for row in rows:
            with self.subTest(row.stem):
                given = answered(row.read_bytes(), *words_of_file(row.with_suffix(".flags")))
                self.assertEqual(given.output, row.with_suffix(".out").read_bytes())
                self.assertEqual(given.status, int(row.with_suffix(".status").read_text()))


class Tables(unittest.TestCase):
    """The tables of docs/FORMATS.md are those of packets.py."""

    def rows(self, heading: str) -> list[list[str]]:
        page = (ROOT / "docs" / "FORMATS.md").read_text()
        section = page.partition(f"\n## {heading}\n")[2].partition("\n## ")[0]
        return [line.split(" | ") for line in section.splitlines() if line.startswith("| ")]

    def test_widths_in_packets(self) -> None:
        found = re.findall(r"([A-Z]+_[A-Z]+) (\d+)", str(self.rows("Packets")))
        self.assertEqual({(name, int(width)) for name, width in found} - set(WIDTHS.items()), set())
        shown = {name for name, _ in found}
        for layout in (*PACKETS.values(), *PARTS.values(), " ".join(FOLLOWS.values())):
            fields = {word for word in layout.split() if word in WIDTHS and word != "N_ITER"}
            self.assertEqual(fields - shown, set())

    def test_lengths(self) -> None:
        due = {row[0].removeprefix("| "): row[-1] for row in self.rows("Packets")}
        for number, layout in PACKETS.items():
            length = 0

            def take(name: str) -> int:
                nonlocal length
                length += WIDTHS[name]
                return 0

            walk(f"{OPENING} {layout}", take)
            self.assertEqual(re.findall(r"\d+", due[str(number)])[0], str(length))

    def test_variables_by_width(self) -> None:
        rows = [row for row in self.rows("Variables") if row[0].removeprefix("| ").isdecimal()]
        for row in rows:
            for name in re.findall(r"[A-Z]+_[A-Z]+", str(row[1:])):
                self.assertEqual(WIDTHS[name], int(row[0].removeprefix("| ")), name)
        self.assertEqual(set(WIDTHS), set(re.findall(r"[A-Z]+_[A-Z]+", str(rows))))


class Arguments(unittest.TestCase):
    def test_statuses(self) -> None:
        for arguments, status in (
            ("", 0),
            ("--quiet --stop --journal --json", 0),
            ("--quiet --", 0),
            ("-- --quiet", 64),
            ("--quiet --quiet", 64),
            ("--version", 64),
            ("-V", 64),
            ("--help --loud", 0),
            ("--loud --help", 64),
            ("-", 64),
        ):
            with self.subTest(arguments):
                given = answered(REVOCATION + "edits\n", *arguments.split())
                self.assertEqual(given.status, status)


class Lengths(unittest.TestCase):
    def test_input_ends_at_its_limit(self) -> None:
        start = REVOCATION + "edits\n"
        whole = 67108864
        # Each line of x is refused; only the last one reaches the limit.
        lines, rest = divmod(whole - len(start) - 2, 4097)
        text = start + ("x" * 4096 + "\n") * lines + "x" * (rest + 1)
        self.assertEqual(len(text), whole - 1)
        for end, status in (("", 1), ("x", 1), ("\n", 1), ("xx", 3), ("x\n", 3)):
            with self.subTest(end):
                self.assertEqual(answered(text + end).status, status)

    def test_long_line_comes_before_the_group(self) -> None:
        given = answered("plan 1\ngroup\n" + "x" * 4097)
        self.assertEqual((given.output, given.status), (b"", 3))
        self.assertEqual(given.error, "fault 29 InputTooLong\n")


class Laws(unittest.TestCase):
    """What has to hold of each session, tried on random ones. test_laws.py has more."""

    def test_strike_and_redo(self) -> None:
        struck = 0
        made = [done(make_input(seed, "small")) for seed in SEEDS]
        for session in [session for session in made if session is not None]:
            plan, standing = session.plan, session.standing
            for entry in standing:
                if session.can_strike(entry.serial):
                    session.strike(entry.serial)
                    session.redo()
                    struck += 1
                    self.assertEqual((session.plan, session.standing), (plan, standing))
        self.assertGreater(struck, 100)


class Sizes(unittest.TestCase):
    """What README.md says of the time, in processor time: a busy machine changes nothing."""

    def test_two_thousand_edits_on_as_many_groups(self) -> None:
        numbers = range(1, 2001)
        groups = [pairs.telegram(0, 0, (5, n), [pairs.infill(n % 2000 + 1)]) for n in numbers]
        plan = ["plan 1", *(f"group\n{digits}" for digits in groups), "edits"]
        kinds = ("turn 5.{}", "seth 5.{} 0 M_DUP 3", "renumber 5.{} 1{:04}", "delete 5.{} 0 0")
        edits = [kinds[n % 4].format(n, n) for n in numbers]
        start = time.process_time()
        given = answered("\n".join([*plan, *edits, "strike 1", ""]))
        self.assertLess(time.process_time() - start, 20)
        self.assertEqual((given.status, given.output.count(b"ok ")), (0, 2000))


class OwnErrors(unittest.TestCase):
    """An error of the reference itself has a status of its own and a message, and no answer."""

    def test_status(self) -> None:
        code = "import baliseplan; baliseplan.run = None; exit(baliseplan.main([]))"
        done = subprocess.run(
            [sys.executable, "-c", code], cwd=HERE, input=b"", capture_output=True
        )
        self.assertEqual((done.returncode, done.stdout), (70, b""))
        self.assertIn(b"an error of the reference", done.stderr)


class Inputs(unittest.TestCase):
    def test_seed_says_all(self) -> None:
        for size in ("small", "medium"):
            self.assertEqual(make_input(5, size), make_input(5, size))
            self.assertNotEqual(make_input(5, size), make_input(6, size))

    def test_most_commands_are_accepted(self) -> None:
        given = [make_input(seed, "small") for seed in SEEDS]
        replies = [answered(each.text, "--journal").output.decode() for each in given]
        lines = [line for reply in replies for line in reply.splitlines()]
        accepted = [line for line in lines if line.startswith(("ok ", "struck ", "redone "))]
        refused = [line for line in lines if line.startswith("refused ")]
        self.assertGreater(len(accepted), 2 * len(refused))

    def test_pairs(self) -> None:
        commands = pairs.commands()
        self.assertEqual(len(commands), len(set(commands)))
        text = "\n".join([*pairs.plan(), "edits", *commands[:1]])
        self.assertEqual(answered(text).status, 0)


class Comparing(unittest.TestCase):
    def test_shorter_input_that_differs(self) -> None:
        given = Input(("--quiet",), (REVOCATION + "edits\nundo\nredo\nundo\n").encode())
        words = ["/bin/sh", "-c", "cat > /dev/null; printf 'plan 1\\n'"]
        shorter = compare.shrunk(words, given)
        self.assertTrue(compare.differs(words, shorter))
        self.assertEqual(shorter.arguments, ())
        self.assertLess(len(shorter.text), len(given.text))

    def test_standard_error_counts(self) -> None:
        given = Input((), b"plan 1\nedits\n" + b"x" * 4097)
        for text, differs in (("fault 29 InputTooLong", False), ("fault 30 OutOfMemory", True)):
            words = ["/bin/sh", "-c", f"cat > /dev/null; echo {text} >&2; exit 3"]
            self.assertEqual(compare.differs(words, given), differs)

    def test_no_such_program(self) -> None:
        self.assertIsNone(compare.program_words("/no/such/program"))
        self.assertIsNone(compare.program_words(f"{sys.executable} no_such_program.py"))


if __name__ == "__main__":
    unittest.main()
