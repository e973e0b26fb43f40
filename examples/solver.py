"""What the examples share: variables with names, clauses, and a call of the module `cubesat`."""
import argparse
import functools
import itertools
import os
import subprocess
import sys

HERE = os.path.dirname(os.path.realpath(__file__))
# The module's folder in the repository, and in a package, where these scripts stand in
# share/doc/cubesat/examples.
MODULES = [os.path.join(HERE, it) for it in ("../python", "../../../../lib/python3/dist-packages")]
sys.path[:0] = [it for it in MODULES if os.path.exists(os.path.join(it, "cubesat"))][:1]
import cubesat


class Formula:
    """Variables are named by any value; the first name asked for is variable 1."""

    def __init__(self):
        self.numbers = {}
        self.clauses = []

    def var(self, *name):
        return self.numbers.setdefault(name, len(self.numbers) + 1)

    def add(self, *literals):
        self.clauses.append(literals)

    def at_most_one(self, literals):
        for one, other in itertools.combinations(literals, 2):
            self.add(-one, -other)

    def exactly_one(self, literals):
        self.add(*literals)
        self.at_most_one(literals)


def arguments(text):
    """The command line of a script that says by this text what it does; `--help` prints it."""
    return argparse.ArgumentParser(description=text, formatter_class=argparse.RawDescriptionHelpFormatter)


@functools.cache
def program():
    """The program, which is built here where a clone has none: the module never does that."""
    building = os.path.join(HERE, "../bin/cubesat")
    if os.path.exists(building) and not os.environ.get("CUBESAT"):
        subprocess.run([building, "--version"], check=True, stdout=subprocess.DEVNULL)
    return cubesat.find_program()


def solve(formula, *, search="automatic", refuted=None):
    """The names that are true in the model that the search finds, or None where there is none. What
    that means, where it is given, is printed: the proof was checked."""
    try:
        model = cubesat.solve(formula.clauses, variables=len(formula.numbers), search=search, program=program())
    except cubesat.Error as error:
        sys.exit(str(error))
    if model is None:
        if refuted:
            print(f"{refuted}: proof accepted")
        return None
    return {name for name, number in formula.numbers.items() if model[number - 1] > 0}
