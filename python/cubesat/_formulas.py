"""Literals, clauses and formulas, as the program reads them."""
from __future__ import annotations

import contextlib
import operator
from collections.abc import Iterable
from typing import TYPE_CHECKING, cast

from .errors import BadClauses

if TYPE_CHECKING:
    from typing import SupportsIndex

# What the program reads at most, and with `--large`. It has a limit of bytes, too, which no text of
# ours reaches that keeps these.
MOST_VARIABLES = 262_143
MOST_CLAUSES = 1_000_000
MOST_LITERALS = 8_000_000
LARGE_VARIABLES = 100_000_000
LARGE_CLAUSES = 1_000_000_000
LARGE_LITERALS = 8_000_000_000


def dimacs(clauses: Iterable[Iterable[SupportsIndex]], variables: SupportsIndex | None = None, *, large: bool = False) -> str:
    """The clauses as a text in DIMACS CNF, one a line, or BadClauses. So many variables are declared, or without a number, up to the greatest."""
    most_variables, most_clauses, most_literals = (
        (LARGE_VARIABLES, LARGE_CLAUSES, LARGE_LITERALS) if large else (MOST_VARIABLES, MOST_CLAUSES, MOST_LITERALS)
    )
    lines, count, greatest = [], 0, 0
    for number, clause in enumerate(clauses, 1):
        literals = literals_of(clause, f"clause {number}", most_variables)
        count += len(literals)
        if number > most_clauses or count > most_literals:
            raise BadClauses(f"clause {number}: more than {most_clauses:,} clauses or {most_literals:,} literals")
        greatest = max(greatest, greatest_variable(literals))
        lines.append(line_of(literals))
    declared = greatest if variables is None else integer_of(variables)
    if declared is None or not greatest <= declared <= most_variables:
        raise BadClauses(f"variables: not a number from {greatest}, the greatest in a clause, to {most_variables:,}")
    return "\n".join([f"p cnf {declared} {len(lines)}", *lines, ""])


def literals_of(clause: Iterable[SupportsIndex], name: str, most_variables: int) -> list[int]:
    """The literals as ints, or BadClauses, which says of which clause."""
    try:
        given = [*clause]
    except TypeError:
        raise BadClauses(f"{name}: {clause!r} is no collection of literals") from None
    is_plain = {*map(type, given)} <= {int} and 0 not in given  # most are, and it takes less time
    literals = cast("list[int]", given) if is_plain else [integer_of(it) or _refuse_literal(it, name) for it in given]
    if greatest_variable(literals) > most_variables:
        raise BadClauses(f"{name}: a variable over {most_variables:,}, the greatest that there may be")
    return literals


def _refuse_literal(literal: object, name: str) -> int:
    raise BadClauses(f"{name}: {literal!r} is no literal, which is an int other than 0")


def integer_of(number: SupportsIndex) -> int | None:
    """It as an int, whichever kind of integer it is; a truth value, numpy's too, is none."""
    with contextlib.suppress(TypeError):
        return None if type(number).__name__ in ("bool", "bool_") else int(operator.index(number))
    return None


def greatest_variable(literals: list[int]) -> int:
    return max(max(literals), -min(literals)) if literals else 0


def line_of(literals: list[int]) -> str:
    return " ".join(map(repr, (*literals, 0)))
