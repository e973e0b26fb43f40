#!/usr/bin/env python3
"""Says after how many steps a counter that counts up by one, or stands still, can hold a number, and shows it doing so.

It is asked step by step: the clauses of one step more are added, and that the number is held now is assumed. What was learnt of earlier steps stays.
"""
import itertools

from solver import arguments, cubesat, program

BITS = 8


def bit(step, place):
    return 1 + (2 * BITS + 1) * step + place


def carry(step, place):
    """The carry into a place; that into place 0 is whether the counter counts."""
    return bit(step, BITS + place)


def add_step(solver, step):
    for place in range(BITS):
        now, then, into, out = bit(step, place), bit(step + 1, place), carry(step, place), carry(step, place + 1)
        solver.append_formula([[-then, now, into], [-then, -now, -into], [then, -now, into], [then, now, -into]])
        solver.append_formula([[-out, now], [-out, into], [out, -now, -into]])


def holds(step, number):
    return [bit(step, place) if number >> place & 1 else -bit(step, place) for place in range(BITS)]


def steps_to(solver, number):
    solver.append_formula([it] for it in holds(0, 0))
    for step in itertools.count():
        if solver.solve(holds(step, number)):
            return step
        add_step(solver, step)


def main():
    parser = arguments(__doc__)
    parser.add_argument("number", type=int, nargs="?", default=12, choices=range(1 << BITS), metavar=f"0..{(1 << BITS) - 1}")
    number = parser.parse_args().number
    with cubesat.Solver(program=program()) as solver:
        steps = steps_to(solver, number)
        true = {*solver.get_model()}
    held = [sum(1 << place for place in range(BITS) if bit(step, place) in true) for step in range(steps + 1)]
    print(f"after {steps} steps: {' '.join(map(str, held))}")


if __name__ == "__main__":
    try:
        main()
    except cubesat.Error as error:
        raise SystemExit(str(error)) from None
