"""Random items of fields by seed: given with the liberties that there are, and damaged."""

import random

from fields import LINES_OF_A_PLAN, explain_item
from packets import WIDTHS

STEERING = ("N_ITER", "Q_NEWCOUNTRY", "M_LEVELTR", "Q_DIFF", "NID_PACKET", "M_VERSION", "L_PACKET")
OTHER_LINES = (
    "", "x", "0", "packet", "packet 33", "packet 128", "packet 4294967296", "packet 33 42403e00", "telegram",
    "telegram 210", "telegram 211", "telegram 830 ", "end", "end 1", "fault", "rest 5", "rest 0 0",
    "rest 8 12", "padding 0", "padding 8 ff", "group", "group ", "plan 1", "plan 2", "edits",
    "fault 2 BadHex - 0 digit", "fault 3", "fault 8 LayoutMismatch 0 50 NID_TSR", "NID_BG",
    "NID_BG  5", " NID_BG 5", "NID_BG 05", "NID_BG -1", "NID_BG 4294967295", "NID_BG 4294967296",
    "0 8 NID_BG 5", "0 8 NID_BG 0 5 1", "x 8 NID_BG 0 5", "0 8 NID_BG y 5", "NID_BG 5\r", "\xff 1",
)  # fmt: skip
NO_NAMES = ("SPEED", "nid_bg", "NID_", "NID_BGX", "5", "Q_TRACKINIT", "x" * 300, "\xe9")
EDGES = (0, 1, 2, 3, 31, 255, 256, 8191, 8192, 4294967295)


def is_field(line: str) -> bool:
    return line[:1].isdecimal()


class FieldsMaker:
    """Makes an item of fields of one seed, from lines of digits."""

    def __init__(self, seed: int) -> None:
        self.random = random.Random(-1 - seed)

    def chance(self, percent: int) -> bool:
        return self.random.randrange(100) < percent

    def item(self, digits: tuple[str, ...], damaged: bool) -> tuple[str, ...]:
        """The lines of an item; a damaged one often has two damages."""
        lines: list[str] = []
        for line in digits:
            lines += [line] if line in LINES_OF_A_PLAN else explain_item(line)[0]
        for _ in range(self.random.choice((1, 1, 2, 2, 3)) if damaged else 0):
            lines = self.damaged(lines)
        return tuple(self.with_liberties(lines, 5 if damaged else 50))

    def with_liberties(self, lines: list[str], padding: int) -> list[str]:
        """The lines with places, occurrences, L_PACKET and padding left out here and there."""
        style = self.random.choice(("whole", "short", "mixed", "mixed"))
        without_lengths = self.chance(50)
        given: list[str] = []
        for line in lines:
            words = line.split(" ")
            if is_field(line) and len(words) == 5:
                if without_lengths and words[2] == "L_PACKET" and self.chance(80):
                    continue
                line = self.field(words, style)
            elif words[0] == "padding" and self.chance(padding):
                continue
            given.append(line)
        return given

    def field(self, words: list[str], style: str) -> str:
        """A field in one of its three forms; what isn't compared may be any number."""
        place, width, name, occurrence, value = words
        if style == "mixed" and self.chance(10):
            place, width, occurrence = (str(self.random.choice(EDGES)) for _ in range(3))
        forms = {
            "whole": f"{place} {width} {name} {occurrence} {value}",
            "middle": f"{name} {occurrence} {value}",
            "short": f"{name} {value}",
        }
        return forms[self.random.choice([*forms]) if style == "mixed" else style]

    def damaged(self, lines: list[str]) -> list[str]:
        """The lines with one thing changed."""
        if not lines:
            return [self.random.choice(OTHER_LINES)]
        ways = (self.value_changed, self.aimed, self.line_moved, self.bits_changed)
        return self.random.choice(ways)(lines)

    def aimed(self, lines: list[str]) -> list[str]:
        """A field with a value that has a reason of its own, or a rest where none may stand."""
        ends = [i for i, line in enumerate(lines[1:], 1) if line in ("packet", "end")]
        rests = [i for i, line in enumerate(lines) if line.startswith("rest ")]
        if ends and self.chance(20):
            place = self.random.choice(ends)
            return lines[:place] + ["rest 8 ff"] + lines[place:]
        if rests and self.chance(30):
            place, count = self.random.choice(rests), self.random.choice((8168, 8169, 8170))
            rest = f"rest {count} {'0' * ((count + 3) // 4)}"
            return [*lines[:place], rest, *lines[place + 1 :]]
        aims = ("Q_DIFF 3", "Q_UPDOWN 0", "Q_MEDIA 1", "NID_PACKET 0", "NID_PACKET 255")
        name, value = self.random.choice((*aims, "Q_DIFF 3", "L_PACKET 9")).split(" ")
        places = [i for i, line in enumerate(lines) if f" {name} " in line]
        if not places:
            return self.value_changed(lines)
        place = self.random.choice(places)
        return [*lines[:place], f"0 1 {name} 0 {value}", *lines[place + 1 :]]

    def place(self, lines: list[str], wanted: tuple[str, ...] = ()) -> int:
        """A place of a line, of one with one of some words where there is any."""
        places = [i for i, line in enumerate(lines) if any(w in line.split(" ") for w in wanted)]
        return self.random.choice(places or range(len(lines)))

    def value_changed(self, lines: list[str]) -> list[str]:
        """A field with another value, or with a name that there isn't."""
        steering = (self.random.choice(STEERING),) if self.chance(60) else ()
        where = ("Q_UPDOWN", "Q_MEDIA") if self.chance(10) else steering
        place = self.place(lines, where)
        words = lines[place].split(" ")
        if not is_field(lines[place]) or len(words) != 5:
            return self.line_moved(lines)
        name, value = words[2], int(words[4])
        width = WIDTHS.get(name, 8)
        near = (value + 1, max(0, value - 1), 1 << width)
        values = (*near, self.random.randrange(1 << width), *EDGES)
        words[4] = str(self.random.choice(values))
        if name == "NID_PACKET" and self.chance(50):
            words[4] = self.random.choice(("0", "255", "27", "41", "44"))
        if name == "Q_DIFF" and self.chance(50):
            words[4] = "3"
        if self.chance(25):
            words[2] = self.random.choice(self.random.choice((NO_NAMES, [*WIDTHS])))
        return [*lines[:place], " ".join(words), *lines[place + 1 :]]

    def line_moved(self, lines: list[str]) -> list[str]:
        """A line left out, doubled, exchanged with another one, or put in."""
        place, other = self.place(lines), self.place(lines)
        if self.chance(10):
            place = self.place(lines, ("end", "padding", "telegram", "packet"))
        roll = self.random.randrange(6)
        if roll <= 1:
            return lines[:place] + lines[place + 1 :]
        if roll == 2:
            return lines[:place] + [lines[place]] + lines[place:]
        if roll == 3:
            near = min(place + 1, len(lines) - 1)
            other = near if self.chance(60) else other
            changed = list(lines)
            changed[place], changed[other] = lines[other], lines[place]
            return changed
        if roll == 4:
            name = self.random.choice([*WIDTHS])
            return lines[:place] + [f"{name} {self.random.choice((0, 1, 2))}"] + lines[place:]
        return lines[:place] + [self.random.choice(OTHER_LINES)] + lines[place:]

    def bits_changed(self, lines: list[str]) -> list[str]:
        """A line `rest` or `padding` with other bits, or one more of them."""
        place = self.place(lines, ("rest", "padding"))
        words = lines[place].split(" ")
        given = words[0] in ("rest", "padding") and len(words) == 3 and bool(words[-1])
        if not given or self.chance(25):
            count = self.random.choice((1, 4, 7, 60, 8160, 8168, 8169, 12000))
            word = self.random.choice(("rest", "rest", "padding"))
            line = f"{word} {count} {'0' * ((count + 3) // 4)}"
            place = self.random.choice((place, self.place(lines, ("packet", "end"))))
            return lines[:place] + [line] + lines[place:]
        _, length, digits = words
        at = self.random.randrange(len(digits))
        count = int(length) if length.isdecimal() else 0
        new = self.random.choice((count - 4, count - 1, count + 1, count + 4, 4294967295))
        fitting = digits[: (max(0, new) + 3) // 4].ljust(min(2000, (max(0, new) + 3) // 4), "0")
        changed = self.random.choice((
            (length, digits[:at] + self.random.choice("gx.\r\xff") + digits[at + 1 :]),
            (length, digits + "0"),
            (length, digits[:-1]),
            (length, digits[:-1] + "f"),
            (length, digits.replace("f", "F")),
            (str(max(0, new)), digits),
            (str(max(0, new)), fitting[:-1] + "0"),
            (str(max(0, new)), fitting[:-1] + "0"),
        ))  # fmt: skip
        return [*lines[:place], f"{words[0]} {changed[0]} {changed[1]}", *lines[place + 1 :]]
