#!/usr/bin/env python3
"""Solves a Sudoku and prints it."""
from solver import Formula, arguments, solve

PUZZLE = "8..........36......7..9.2...5...7.......457.....1...3...1....68..85...1..9....4.."
NINE = range(9)


def formula_of(puzzle):
    formula = Formula()
    for row in NINE:
        for column in NINE:
            formula.exactly_one([formula.var(row, column, digit) for digit in NINE])
    for digit in NINE:
        for at in NINE:
            formula.exactly_one([formula.var(at, column, digit) for column in NINE])
            formula.exactly_one([formula.var(row, at, digit) for row in NINE])
            top, left = at // 3 * 3, at % 3 * 3
            formula.exactly_one([formula.var(top + row, left + column, digit) for row in range(3) for column in range(3)])
    for at, given in enumerate(puzzle):
        if given in "123456789":
            formula.add(formula.var(at // 9, at % 9, int(given) - 1))
    return formula


def shown(true):
    digits = {(row, column): digit + 1 for row, column, digit in true}
    rule = "+-------+-------+-------+"
    for row in NINE:
        if row % 3 == 0:
            yield rule
        yield "| " + " | ".join(" ".join(str(digits[row, left + at]) for at in range(3)) for left in (0, 3, 6)) + " |"
    yield rule


def main():
    parser = arguments(__doc__)
    parser.add_argument("puzzle", nargs="?", default=PUZZLE, help="81 characters, row by row: a digit is given, anything else is free")
    puzzle = parser.parse_args().puzzle
    if len(puzzle) != 81:
        parser.error(f"the puzzle has {len(puzzle)} characters, and not 81")
    true = solve(formula_of(puzzle))
    print("no solution" if true is None else "\n".join(shown(true)))


if __name__ == "__main__":
    main()
