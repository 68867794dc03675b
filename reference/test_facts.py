"""Tests of facts: each kind of place, worked examples, and laws on random sessions.

Run them here: python3 -m unittest test_facts
"""

import re
import unittest
from io import BytesIO

import compare
import compare_facts
import pairs
from balisefacts import answer
from facts import Asked, fact_lines
from filters import Answer
from random_inputs import make_input
from run import Commands
from session import Session
from test_reference import REVOCATION, done
from texts import digits_of_bits

ADDED = pairs.telegram(0, 0, (5, 200), [pairs.infill(101), pairs.infill(16383)])
LINKS = digits_of_bits(pairs.linking(1, pairs.link(101, 0), pairs.link(101, 1, 6)))
PLACES = {
    "set 5.100 0 0 NID_TSR 0 9": "b0/0/b0.NID_TSR.0",
    "set 5.100 0 2 Q_DIR 0 1": "b0/0/b2.Q_DIR.0; b0.turn",
    "set 5.101 0 0 NID_BG 2 101": "b1/0/b0.NID_BG.2; #5.102 #5.101",
    "set 5.101 0 0 NID_BG 0 100": "b1/0/b0.NID_BG.0; #6.100 #6.100",
    "set 5.101 0 0 NID_BG 3 100": "b1/0/b0.NID_BG.3; #5.100",
    "set 5.101 0 0 NID_BG 2 16383": "b1/0/b0.NID_BG.2; #5.102",
    "set 5.101 0 0 Q_LINKORIENTATION 2 1": "b1/0/b0.Q_LINKORIENTATION.2; b1/0/b0.NID_BG.2 #5.102",
    "set 5.101 0 0 Q_LINKORIENTATION 3 1": "b1/0/b0.Q_LINKORIENTATION.3; b1/0/b0.NID_BG.3",
    "set 5.101 0 2 NID_BG 0 102": "b1/0/b2.NID_BG.0; #5.100 #5.102",
    "seth 5.100 1 M_DUP 3": "b0/1/head.M_DUP; b0.turn",
    "seth 5.100 1 M_MCOUNT 3": "b0/1/head.M_MCOUNT",
    "insert 5.100 0 0 42403e0a": "b0/0/n1 b0/0/^.after; b0.turn",
    f"insert 5.100 1 1 {LINKS}": "b0/1/n1 b0/1/b0.after; b0.turn #5.101 #6.101",
    "delete 5.100 0 3": "b0/0/b3 b0/0/$.front; b0.turn",
    "delete 5.101 0 0": "b1/0/b0 b1/0/b1.front; b1.turn #6.100 #6.100 #5.102",
    "move 5.100 0 1 2": "b0/0/b1.front b0/0/b1.after b0/0/b2.front b0/0/b2.after",
    "move 5.100 0 3 0": "b0/0/b3.front b0/0/b3.after b0/0/$.front b0/0/^.after",
    f"add 0 {ADDED}": "n1 ^.after #5.200; #5.101",
    f"add 4 {ADDED}": "n1 b3.after #5.200; #5.101",
    "drop 5.102": "b2 b3.front #5.102; #5.103",
    "drop 6.100": "b3 $.front #6.100",
    "renumber 5.101 77": "b1.name #5.101 #5.77",
    "turn 5.101": "b1.turn #5.101",
}
"""Commands on the plan of pairs.py: what each changes; what it needs."""


def input_of(*commands: str) -> bytes:
    return "".join(line + "\n" for line in (*pairs.plan(), "edits", *commands)).encode()


def answered(text: str | bytes, *arguments: str) -> Answer:
    given = text.encode("latin-1") if isinstance(text, str) else text
    return answer(list(arguments), BytesIO(given).read)


def lines_of(text: str | bytes, *arguments: str) -> list[str]:
    return answered(text, *arguments).output.decode().splitlines()


def sessions(count: int) -> list[Session]:
    made = (done(make_input(seed, "small")) for seed in range(count))
    return [session for session in made if session is not None]


class Places(unittest.TestCase):
    def test_each_kind(self) -> None:
        for command, due in PLACES.items():
            with self.subTest(command):
                changed, _, needed = due.partition("; ")
                shown = ["facts 1", "edit 1", *(f"changes {each}" for each in changed.split())]
                shown += [f"needs {each}" for each in needed.split()]
                self.assertEqual(lines_of(input_of(command)), shown)


class Edits(unittest.TestCase):
    def test_dependents(self) -> None:
        commands = ["turn 5.101", "insert 5.101 0 3 42403e0a", "insert 5.101 0 4 42403e0a"]
        commands += ["set 5.101 0 3 NID_TSR 0 9", "delete 5.101 0 3"]
        lines = lines_of(input_of(*commands))
        due: dict[int, list[int]] = {1: [2, 3, 5], 2: [4, 5], 3: [5], 4: [5], 5: []}
        for serial, later in due.items():
            facts = "\n".join(lines).split("edit ")[serial].splitlines()
            self.assertEqual(facts[0], str(serial))
            shown = [line for line in facts if line.startswith("dependent ")]
            self.assertEqual(shown, [f"dependent {each}" for each in later])

    def test_struck_and_undone(self) -> None:
        commands = "seth 5.100 0 M_DUP 1", "seth 5.100 1 M_DUP 1", "seth 5.102 0 M_DUP 1"
        lines = lines_of(input_of(*commands, "undo", "strike 1"))
        self.assertEqual([line for line in lines if line.startswith("edit ")], ["edit 2"])

    def test_anchor_once_struck(self) -> None:
        inserts = "insert 5.100 0 1 42403e0a", "insert 5.100 0 2 42403e0c"
        self.assertIn("changes b0/0/n1.after", lines_of(input_of(*inserts)))
        self.assertIn("changes b0/0/b0.after", lines_of(input_of(*inserts, "strike 1")))
        self.assertIn("changes b0/0/n1.after", lines_of(input_of(*inserts, "strike 1", "redo")))

    def test_one_edit(self) -> None:
        text = input_of("turn 5.101", "seth 5.101 0 M_DUP 3", "seth 5.101 0 M_DUP 2", "undo", "jump")
        whole = lines_of(text)
        self.assertEqual(whole[:2], ["refused 1 BadLine", "facts 1"])
        at = whole.index("edit 2")
        self.assertEqual(lines_of(text, "--edit", "1"), whole[:at])
        self.assertEqual(lines_of(text, "--edit", "2"), whole[:2] + whole[at:])
        for serial in ("0", "3", "4294967295"):
            self.assertEqual(lines_of(text, "--edit", serial), whole[:2])


class Tags(unittest.TestCase):
    def test_after_edits(self) -> None:
        commands = [f"add 1 {ADDED}", "drop 5.101", "drop 6.100", "turn 5.100"]
        commands += ["renumber 5.100 300", "move 5.300 1 0 2", "insert 5.300 0 0 42403e0a"]
        commands += ["delete 5.102 0 1"]
        due = """
            facts 1
            group 5.300 b0
            telegram 5.300 0 1
            packet 5.300 0 0 n7
            packet 5.300 0 1 b0
            packet 5.300 0 2 b1
            telegram 5.300 1 0
            packet 5.300 1 0 b1
            packet 5.300 1 1 b2
            packet 5.300 1 2 b0
            packet 5.300 1 3 b3
            group 5.200 n1
            telegram 5.200 0 0
            packet 5.200 0 0 b0
            packet 5.200 0 1 b1
            group 5.102 b2
            telegram 5.102 0 0
            packet 5.102 0 0 b0
            packet 5.102 0 1 b2
        """
        shown = lines_of(input_of(*commands), "--tags")
        self.assertEqual(shown[-19:], [line.strip() for line in due.strip().splitlines()])

    def test_plan_without_groups(self) -> None:
        self.assertEqual(lines_of("plan 1\nedits\n", "--tags"), ["facts 1"])


class Runs(unittest.TestCase):
    def test_arguments(self) -> None:
        for arguments, status in (
            ("", 0),
            ("--", 0),
            ("--tags", 0),
            ("--tags --", 0),
            ("--edit 0", 0),
            ("--edit 4294967295", 0),
            ("--help --loud", 0),
            ("--edit one --help", 0),
            ("--edit 1 --tags -h", 0),
            ("--edit=7", 0),
            ("--edit +007", 0),
            ("--loud --help", 64),
            ("--edit --help", 64),
            ("--edit -1", 64),
            ("--edit 1_0", 64),
            ("--edit=", 64),
            ("--tags=1", 64),
            ("--edit", 64),
            ("--edit 4294967296", 64),
            ("--edit one", 64),
            ("--edit 1 --edit 1", 64),
            ("--edit 1 --tags", 64),
            ("--tags --edit 1", 64),
            ("--tags --tags", 64),
            ("--quiet", 64),
            ("--version", 64),
            ("-- --tags", 64),
            ("1", 64),
        ):
            with self.subTest(arguments):
                self.assertEqual(answered(input_of(), *arguments.split()).status, status)

    def test_as_the_editor(self) -> None:
        for text, output, status in (
            (REVOCATION, "bad 4 1 BadLine\n", 2),
            (REVOCATION + "journal 2 0\nedits\n", "bad 4 27 JournalMismatch\n", 2),
            (REVOCATION + "edits\nundo\n" + "x" * 4097, "refused 23 NothingToUndo\n", 3),
        ):
            given = answered(text, "--tags")
            self.assertEqual((given.output.decode(), given.status), (output, status))
            self.assertEqual(given.error, "fault 29 InputTooLong\n" if status == 3 else "")

    def test_quiet_but_for_refusals_and_reviews(self) -> None:
        given = answered(input_of("turn 5.100", "undo", "redo", "strike 9"))
        self.assertRegex(given.output.decode(), "^(review [^o].*\n)+refused 25 NoSuchEdit\nfacts 1\n")
        self.assertEqual(given.status, 1)


class Laws(unittest.TestCase):
    """What has to hold of the facts of each session, tried on random ones."""

    def facts(self, session: Session) -> dict[int, list[list[str]]]:
        found: dict[int, list[list[str]]] = {}
        for word, fact in (line.split(" ") for line in fact_lines(session, Asked())):
            if word == "edit":
                found[int(fact)] = []
            elif word != "facts":
                found[list(found)[-1]].append([word, fact])
        return found

    def test_strikes(self) -> None:
        """An edit can be struck where it has no dependents, and else its strike names the first."""
        refused = 0
        for session in sessions(150):
            for serial, lines in self.facts(session).items():
                later = [int(words[1]) for words in lines if words[0] == "dependent"]
                out: list[str] = []
                Commands(session, set(), out).take(f"strike {serial}")
                due = f"refused 26 DependsOn {later[0]}" if later else f"struck {serial}"
                self.assertEqual(out, [due])
                if later:
                    refused += 1
                else:
                    session.redo()
        self.assertGreater(refused, 200)

    def test_places_meet(self) -> None:
        """A dependent edit has a place that meets one of the other, or goes in where that goes out."""
        for session in sessions(150):
            facts = self.facts(session)
            kinds = {entry.serial: entry.edit.kind for entry in session.standing}
            for serial, lines in facts.items():
                for later in (int(words[1]) for words in lines if words[0] == "dependent"):
                    self.assertLess(serial, later)
                    meet = _meet(lines, facts[later])
                    self.assertTrue(meet or {kinds[serial], kinds[later]} == {"insert", "delete"})


def _meet(some: list[list[str]], others: list[list[str]]) -> bool:
    """Whether a place that one of two edits changes overlaps one that the other changes or needs."""
    for word, place in some:
        for other_word, other in others:
            if "changes" in (word, other_word) and "dependent" not in (word, other_word):
                shorter, longer = sorted((place, other), key=len)
                if re.match(re.escape(shorter) + r"([/.]|$)", longer):
                    return True
    return False


class Comparing(unittest.TestCase):
    def test_all_ways(self) -> None:
        made = [compare_facts.given_in_all_ways(seed, "small") for seed in range(60)]
        ways = {given.arguments[:1] for inputs in made for given in inputs}
        self.assertLessEqual({(), ("--edit",), ("--tags",)}, ways)
        self.assertEqual(made[7], compare_facts.given_in_all_ways(7, "small"))

    def test_shorter_input_that_differs(self) -> None:
        words = ("/bin/sh", "-c", "cat > /dev/null; printf 'facts 1\\n'")
        pair = compare.Pair(words, answer, compare_facts.given_in_all_ways)
        found = [compare.compare(compare.Task(pair, seed, "small")).differing for seed in range(3)]
        for given in found:
            assert given is not None
            self.assertTrue(compare.differs(list(words), given, answer))


if __name__ == "__main__":
    unittest.main()
