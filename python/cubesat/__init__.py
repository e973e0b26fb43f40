"""Decides propositional formulas by the program `cubesat`.

    import cubesat
    cubesat.solve([[1, 2], [-1, 3]])     # [-1, 2, -3]: the first model
    cubesat.solve([[1, 2], [-1], [-2]])  # None: there is none, and the proof of that was checked

    with cubesat.Solver([[1, 2]]) as solver:  # many questions of a formula that grows
        solver.solve([-1])                    # True, and solver.get_model() is [-1, 2]
        solver.add_clause([-2])
        solver.solve([-1])                    # False, and solver.get_core() is [-1]

Variables are numbered from 1, and a literal is a variable or its negative. Needs Python 3.7 or later, and nothing beside it.
"""
from __future__ import annotations

import os
import tempfile
from collections.abc import Iterable
from typing import TYPE_CHECKING

from ._formulas import dimacs
from ._options import number_within, search_options, whole_seconds
from ._programs import StrPath, fault_of, find_program, run
from ._solver import Solver
from .errors import BadClauses, Error, Fault, NoProgram, OutOfTime

if TYPE_CHECKING:
    from typing import SupportsIndex

__all__ = ["BadClauses", "Error", "Fault", "NoProgram", "OutOfTime", "Solver", "dimacs", "find_program", "solve"]

SATISFIABLE = 10
UNSATISFIABLE = 20
UNKNOWN = 0


def solve(
    clauses: Iterable[Iterable[SupportsIndex]],
    *,
    variables: SupportsIndex | None = None,
    search: str | None = None,
    budget: SupportsIndex | None = None,
    divide: SupportsIndex | None = None,
    simplify: bool = True,
    first: bool = True,
    hands: SupportsIndex = 1,
    seconds: float | None = None,
    large: bool = False,
    check: bool = True,
    proof: StrPath | None = None,
    program: StrPath | None = None,
) -> list[int] | None:
    """A model, or None, where there is none.

    A model has a literal for each variable, in order; that of no variables is an empty list, so compare with None. The answer None is given once
    `cubesat check` accepted the proof.

    variables: how many there are; without it, up to the greatest that a clause has
    search:    "automatic", "ordered" or "focused"; without it automatic, or ordered where a budget is
               given. "ordered" gives the first model in the order of assignments, false before true
               and the least variable first; "focused" gives one of several, and decides most large
               formulas sooner. "automatic" makes the ordered search with few conflicts, then the
               focused one, and lowers the model that this finds to the first one
    budget:    conflicts of the first cube: for "ordered" 1 to 100,000, without it 1000; for "focused" 1
               to 1,000,000,000, without it 100,000,000; for "automatic" those of the ordered search.
               Another budget gives another proof, and by "focused" maybe another model
    divide:    cubes into which the focused search divides a formula first, if its first conflicts
               tell that this helps, 0 to 65,536; without it 64, and 0 and 1 divide none. Another
               number may give another proof and another model. "ordered" takes none
    simplify:  whether the focused search simplifies a formula that its first 1000 conflicts don't
               decide, before it goes on; without it another proof and maybe another model. "ordered"
               never does
    first:     whether "automatic" answers the first model; without it the one that the focused search
               finds, which spares the time of lowering that
    hands:     threads, 1 to 16; they change neither the answer nor the proof
    seconds:   after how many the search is given up, with OutOfTime, rounded up to whole ones; without
               it, never. Where a model is known by then it is answered, though it need not be the first
    large:     whether the formula may have up to 100,000,000 variables, 1,000,000,000 clauses and
               8,000,000,000 literals, and not 262,143, 1,000,000 and 8,000,000 alone
    check:     whether the proof is checked
    proof:     where to keep the proof, which is empty where there is a model; a run that fails leaves
               what is there
    program:   the path of the program; without it, see `find_program`

    Raises BadClauses, NoProgram, OutOfTime or Fault, and ValueError or TypeError of what no argument may be. A proof that isn't kept is written to a temporary
    folder (TMPDIR says where). The program ends once this process does, however that ends.
    """
    options = [*search_options(search, budget, divide, simplify), "--hands", str(number_within("hands", hands, 1, 16))]
    limit = whole_seconds(seconds)
    options += [] if limit is None else ["--seconds", str(limit)]
    options += [] if first else ["--any-model"]
    options += ["--large"] if large else []
    text = dimacs(clauses, variables, large=large)
    path = find_program(program)
    with tempfile.TemporaryDirectory(prefix="cubesat-") as folder:
        written = os.path.join(folder, "proof.lrat") if proof is None else os.path.abspath(proof)
        kept = ["--proof", written] if check or proof is not None else []
        ran = run(path, "solve", *options, *kept, "-", text=text)
        if ran.returncode == SATISFIABLE:
            return _model(ran.stdout)
        if (ran.returncode, ran.stdout) == (UNKNOWN, "s UNKNOWN\n"):
            raise OutOfTime(f"not decided in {seconds} seconds")
        if ran.returncode != UNSATISFIABLE:
            raise fault_of(ran)
        if check:
            checked = run(path, "check", *(["--large"] if large else []), "-", written, text=text)
            if (checked.returncode, checked.stdout) != (0, "accepted\n"):
                raise fault_of(checked)
    return None


def _model(answer: str) -> list[int]:
    lines = [line[2:].split() for line in answer.splitlines() if line.startswith("v ")]
    return [int(word) for words in lines for word in words if word != "0"]
