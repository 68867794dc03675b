"""The raw number that a person meant: `6`, `30km/h`, `847m`, `1.2km`. Exact, or refused in words."""

from __future__ import annotations

import re
from decimal import Decimal
from fractions import Fraction

from plandesk.vocabulary import meaning, step_of, variable

TYPED = {
    "km/h": ("km/h", Fraction(1)),
    "kmh": ("km/h", Fraction(1)),
    "km": ("m", Fraction(1000)),
    "m": ("m", Fraction(1)),
    "cm": ("m", Fraction(1, 100)),
    "‰": ("‰", Fraction(1)),
}
"""For each unit that a person may type the one of the data file, and how much of it one is."""
PLAIN = re.compile(r"0|[1-9][0-9]*")
AMOUNT = re.compile(r"([0-9]+(?:[.,][0-9]+)?)\s*(km/h|kmh|km|m|cm|‰)")


class NoAmount(ValueError):
    """A text that is no number of steps."""


def has_unit(text: str) -> bool:
    return AMOUNT.fullmatch(text.strip()) is not None


def raw_value(name: str, text: str, scale: int | None) -> int:
    """The raw number of a text. `scale` is Q_SCALE of the packet."""
    plain = text.strip()
    if PLAIN.fullmatch(plain):
        return int(plain)
    found = AMOUNT.fullmatch(plain)
    if found is None:
        raise NoAmount("a whole number, or one with its unit")
    unit, factor = TYPED[found[2]]
    if variable(name).get("unit") != unit:
        raise NoAmount(f"{name} isn't in {found[2]}")
    step = step_of(name, scale)
    if step is None:
        raise NoAmount("Q_SCALE gives no unit: enter the raw number")
    return _whole(name, Fraction(Decimal(found[1].replace(",", "."))) * factor / Fraction(step), scale)


def _whole(name: str, steps: Fraction, scale: int | None) -> int:
    if steps.denominator != 1:
        raise NoAmount(f"no whole number of steps: {steps // 1} or {steps // 1 + 1}")
    most = variable(name).get("most")
    if most is not None and steps > most:
        raise NoAmount(f"more than the largest amount, {meaning(name, most, scale)}")
    return int(steps)
