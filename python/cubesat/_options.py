"""What is said to the program beside a formula, with the ranges that it takes."""
from __future__ import annotations

import math
from typing import TYPE_CHECKING

from ._formulas import integer_of

if TYPE_CHECKING:
    from typing import SupportsIndex

MOST_SECONDS = 1_000_000_000


def search_options(search: str | None, budget: SupportsIndex | None, divide: SupportsIndex | None, simplify: bool) -> list[str]:
    """Which search, or ValueError. Without a name it is the automatic one, or the ordered one where a budget is given, as the program has it."""
    if search not in (None, "automatic", "ordered", "focused"):
        raise ValueError(f"search: {search!r} is none of 'automatic', 'ordered' and 'focused'")
    is_ordered = search == "ordered" or (search is None and budget is not None)
    if is_ordered and divide is not None:
        raise ValueError("divide: the ordered search divides no formula; search='automatic' and 'focused' do")
    if is_ordered and not simplify:
        raise ValueError("simplify: the ordered search simplifies no formula; leave it out")
    options = [] if search is None else ["--search", search]
    if budget is not None:
        options += ["--budget", str(number_within("budget", budget, 1, 1_000_000_000 if search == "focused" else 100_000))]
    if divide is not None:
        options += ["--divide", str(number_within("divide", divide, 0, 65_536))]
    return options if simplify else [*options, "--simplify", "no"]


def number_within(name: str, number: SupportsIndex, least: int, most: int) -> int:
    """The number as an int, or TypeError or ValueError."""
    found = integer_of(number)
    if found is None:
        raise TypeError(f"{name}: {number!r} is no integer")
    if not least <= found <= most:
        raise ValueError(f"{name}: not a number from {least:,} to {most:,}")
    return found


def whole_seconds(seconds: float | None) -> int | None:
    """A limit of time as the program takes it, rounded up; none for an infinite one. ValueError where it isn't above 0, and TypeError where it is no number."""
    if seconds is None or seconds == math.inf:
        return None
    if not seconds > 0:
        raise ValueError(f"seconds: {seconds!r} isn't above 0")
    return min(math.ceil(seconds), MOST_SECONDS)
