#!/usr/bin/env python3
"""Prints all ways to put six queens on a board of six by six, or so many as are given on a larger or smaller one, so that none attacks another.

One solver enumerates them: each one that is found is excluded by a clause more.
"""
from solver import Formula, arguments, cubesat, program


def placements(count):
    """Each as the column of the queen in each row."""
    formula, rows = Formula(), range(count)
    for row in rows:
        formula.exactly_one([formula.var(row, column) for column in rows])
    for column in rows:
        formula.exactly_one([formula.var(row, column) for row in rows])
    for diagonal in range(-count, 2 * count):
        formula.at_most_one([formula.var(row, diagonal - row) for row in rows if diagonal - row in rows])
        formula.at_most_one([formula.var(row, row - diagonal) for row in rows if row - diagonal in rows])
    with cubesat.Solver(formula.clauses, program=program()) as solver:
        for model in solver.enum_models():
            yield [next(column for column in rows if model[formula.var(row, column) - 1] > 0) for row in rows]


def main():
    parser = arguments(__doc__)
    parser.add_argument("queens", type=int, nargs="?", default=6)
    count = parser.parse_args().queens
    found = sorted(placements(count))
    for columns in found:
        print("\n".join(" ".join("Q" if it == column else "." for it in range(count)) for column in columns), end="\n\n")
    print(f"{len(found)} ways")


if __name__ == "__main__":
    try:
        main()
    except cubesat.Error as error:
        raise SystemExit(str(error)) from None
