"""What numbers mean, by data/variables.json: the file that the page reads too. It shows values and decides nothing."""

from __future__ import annotations

import json
import re
from decimal import Decimal
from functools import cache
from pathlib import Path
from typing import Any

NARROW = "\u202f"
"""The space between thousands."""
HEADER_SET = ("M_DUP", "M_MCOUNT", "Q_LINK")
"""The variables of a header that `seth` sets."""


@cache
def _data() -> dict[str, Any]:
    here = Path(__file__).resolve()
    installed = here.with_name("data") / "variables.json"
    file = installed if installed.exists() else here.parents[2] / "data" / "variables.json"
    data: dict[str, Any] = json.loads(file.read_text("utf-8"))
    return data


def variable(name: str) -> dict[str, Any]:
    """The entry of a variable; empty where there is none of this name."""
    found: dict[str, Any] = _data()["variables"].get(name, {})
    return found


def variables() -> list[str]:
    return list(_data()["variables"])


def packet_name(number: int) -> str:
    entry = _data()["packets"].get(str(number), {})
    return str(entry.get("name", "unknown packet"))


def names_groups(number: int) -> bool:
    """Whether a packet is known to have numbers of groups in it."""
    return bool(_data()["packets"].get(str(number), {}).get("names_groups"))


def is_steering(name: str) -> bool:
    """Whether a variable says what follows it, so that it isn't set in place."""
    return bool(variable(name).get("steering"))


def is_distance(name: str) -> bool:
    return variable(name).get("step") == "Q_SCALE"


def metres_of_step(scale: int | None) -> Decimal | None:
    """Metres of one step of a distance, by Q_SCALE of its packet."""
    step = variable("Q_SCALE")["metres"].get(str(scale))
    return None if step is None else Decimal(str(step))


def step_of(name: str, scale: int | None) -> Decimal | None:
    """The amount of one, in the unit of the variable."""
    step = variable(name).get("step")
    return metres_of_step(scale) if step == "Q_SCALE" else None if step is None else Decimal(step)


def grouped(amount: Decimal | int | float) -> str:
    """A number with narrow spaces between thousands."""
    whole, _, part = f"{amount:f}".partition(".") if isinstance(amount, Decimal) else f"{amount:g}".partition(".")
    part = part.rstrip("0")
    return re.sub(r"\B(?=(\d{3})+$)", NARROW, whole) + (f".{part}" if part else "")


def metres_text(metres: float) -> str:
    return f"{grouped(Decimal(str(round(metres, 1))))} m"


def meaning(name: str, value: int, scale: int | None) -> str:
    """A value in words: `30 km/h`, `450 m`, `nominal`. Empty where nothing certain can be said."""
    entry = variable(name)
    for names in (entry.get("values", {}), entry.get("special", {})):
        if str(value) in names:
            return str(names[str(value)])
    unit = entry.get("unit")
    if unit == "version":
        return f"{value >> 4}.{value & 15}"
    step = step_of(name, scale)
    if step is None or value > entry.get("most", value):
        return ""
    return f"{grouped(value * step)} {unit}"


def words_of(name: str, value: int, scale: int | None) -> str:
    """A value in words, or its number."""
    return meaning(name, value, scale) or str(value)
