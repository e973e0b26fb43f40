#!/usr/bin/env python3
"""Says why a map can't be coloured with three colours: borders of which none can be left out.

Each border is an assumption. The core of the first question has some of them; then one after the other is left out: where there is still no colouring
the new core is taken, and where there is one the border is needed.
"""
from solver import Formula, arguments, cubesat, program

COLOURS = ("red", "green", "blue")
LANDS = {
    "Alba": "Brig Cend Dorn", "Brig": "Cend Elis Fara", "Cend": "Dorn Fara Gild Hain", "Dorn": "Hain Ilm", "Elis": "Fara Jura", "Fara": "Gild Jura",
    "Gild": "Hain Jura Kern", "Hain": "Ilm Kern", "Ilm": "Kern", "Jura": "Kern",
}


def colouring(formula):
    """Puts the clauses; the borders, each by its assumption."""
    borders = {}
    for one, others in LANDS.items():
        for other in others.split():
            switch = formula.var(one, other)
            borders[switch] = f"{one}-{other}"
            for colour in COLOURS:
                formula.add(-switch, -formula.var(one, colour), -formula.var(other, colour))
    for land in sorted({*LANDS, *(it for others in LANDS.values() for it in others.split())}):
        formula.add(*(formula.var(land, colour) for colour in COLOURS))
    return borders


def least_core(solver, assumptions):
    """A core of which no part is one; there has to be one."""
    assert not solver.solve(assumptions)
    core, needed = solver.get_core(), []
    print(f"the first core has {len(core)} borders")
    while core:
        tried = core.pop()
        if solver.solve(needed + core):
            needed.append(tried)
        else:
            still = {*solver.get_core()}
            core = [it for it in core if it in still]
    return needed


def main():
    arguments(__doc__).parse_args()
    formula = Formula()
    borders = colouring(formula)
    with cubesat.Solver(formula.clauses, program=program()) as solver:
        needed = least_core(solver, [*borders])
    print(f"of {len(borders)} borders these {len(needed)} are why: {', '.join(borders[it] for it in sorted(needed))}")


if __name__ == "__main__":
    try:
        main()
    except cubesat.Error as error:
        raise SystemExit(str(error)) from None
