#!/usr/bin/env python3
"""Plans the ways of two robots on a grid with walls: each step goes to a neighbouring cell or stays; they never share a cell, nor change places.

The least number of steps is looked for from one on. That fewer don't do has its proof, which is checked.
"""
from solver import Formula, arguments, solve

GRID = [
    "A.#....",
    "..#.##.",
    ".......",
    ".##.#..",
    "b...#Ba",
]
ROBOTS = "AB"


def cells():
    return [(row, column) for row, line in enumerate(GRID) for column, it in enumerate(line) if it != "#"]


def place_of(letter):
    return next((row, column) for row, column in cells() if GRID[row][column] == letter)


def near(cell):
    row, column = cell
    free = set(cells())
    return [it for it in (cell, (row - 1, column), (row + 1, column), (row, column - 1), (row, column + 1)) if it in free]


def formula_of(steps):
    formula = Formula()
    for time in range(steps + 1):
        for robot in ROBOTS:
            formula.exactly_one([formula.var(time, robot, cell) for cell in cells()])
        for cell in cells():
            formula.at_most_one([formula.var(time, robot, cell) for robot in ROBOTS])
    for time in range(steps):
        for cell in cells():
            for robot in ROBOTS:
                formula.add(-formula.var(time, robot, cell), *(formula.var(time + 1, robot, it) for it in near(cell)))
            for other in near(cell):
                here, there = formula.var(time, "A", cell), formula.var(time, "B", other)
                formula.add(-here, -there, -formula.var(time + 1, "A", other), -formula.var(time + 1, "B", cell))
    for robot in ROBOTS:
        formula.add(formula.var(0, robot, place_of(robot)))
        formula.add(formula.var(steps, robot, place_of(robot.lower())))
    return formula


def shown(true, time):
    at = {cell: robot for when, robot, cell in true if when == time}
    return ["".join("#" if it == "#" else at.get((row, column), ".") for column, it in enumerate(line)) for row, line in enumerate(GRID)]


def main():
    arguments(__doc__).parse_args()
    steps = 1
    while (true := solve(formula_of(steps), search="focused", refuted=f"no plan of {steps} {'step' if steps == 1 else 'steps'}")) is None:
        steps += 1
    print(f"{steps} steps")
    for begin in range(0, steps + 1, 6):
        rows = zip(*(shown(true, time) for time in range(begin, min(begin + 6, steps + 1))))
        print("\n".join("   ".join(row) for row in rows), end="\n\n")


if __name__ == "__main__":
    main()
