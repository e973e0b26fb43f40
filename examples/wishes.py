#!/usr/bin/env python3
"""Says which wishes for a day of talks can't be met together, gives up one of each such group, and counts the plans that meet the others.

One solver answers all questions. A wish is an assumption, so it can be given up; a plan that was found is excluded by a clause more.
"""
import itertools

from solver import Formula, arguments, cubesat, program

HOURS = (1, 2, 3, 4)
ROOMS = 2
TALKS = ("Ada", "Ben", "Cleo", "Dan", "Eve", "Finn")


def before(formula, one, other):
    """That one speaks at an earlier hour than another."""
    return [[-formula.var(one, a), -formula.var(other, b)] for a in HOURS for b in HOURS if a >= b]


def at(formula, one, *hours):
    return [[formula.var(one, hour) for hour in hours]]


def together(formula, one, other):
    return [[-formula.var(one, hour), formula.var(other, hour)] for hour in HOURS]


def wishes(formula):
    """What is wished, and the clauses that it means."""
    return [
        ("Ben speaks before Cleo", before(formula, "Ben", "Cleo")),
        ("Cleo speaks before Ada", before(formula, "Cleo", "Ada")),
        ("Eve and Finn share an hour", together(formula, "Eve", "Finn")),
        ("Ada speaks at hour 1 or 2", at(formula, "Ada", 1, 2)),
        ("Dan isn't last", at(formula, "Dan", 1, 2, 3)),
        ("Dan and Eve share an hour", together(formula, "Dan", "Eve")),
    ]


def plans(solver, formula, met):
    """All plans that meet these wishes, one after the other. Each is excluded for good."""
    places = [formula.var(talk, hour) for talk in TALKS for hour in HOURS]
    while solver.solve(met):
        true = {it for it in solver.get_model() if it > 0}
        yield {hour: [talk for talk in TALKS if formula.var(talk, hour) in true] for hour in HOURS}
        solver.add_clause([-it for it in places if it in true])


def main():
    arguments(__doc__).parse_args()
    formula = Formula()
    for talk in TALKS:
        formula.exactly_one([formula.var(talk, hour) for hour in HOURS])
    for hour in HOURS:
        for talks in itertools.combinations(TALKS, ROOMS + 1):
            formula.add(*(-formula.var(talk, hour) for talk in talks))
    texts = {}
    for text, clauses in wishes(formula):
        switch = formula.var(text)
        texts[switch] = text
        for clause in clauses:
            formula.add(-switch, *clause)
    met = [*texts]
    with cubesat.Solver(formula.clauses, program=program()) as solver:
        while not solver.solve(met):
            clash = sorted(solver.get_core())
            print("can't all be met: " + "; ".join(texts[it] for it in clash))
            print(f"  given up: {texts[clash[-1]]}")
            met.remove(clash[-1])
        found = [*plans(solver, formula, met)]
    print(f"{len(found)} plans meet the other {len(met)} wishes; one is")
    for hour, talks in found[0].items():
        print(f"  hour {hour}: {', '.join(talks) or 'nobody'}")


if __name__ == "__main__":
    try:
        main()
    except cubesat.Error as error:
        raise SystemExit(str(error)) from None
