"""Questions of a formula that grows."""
from __future__ import annotations

import itertools
import os
import subprocess
import tempfile
import threading
from collections.abc import Iterable, Iterator
from time import monotonic
from typing import TYPE_CHECKING

from ._formulas import LARGE_VARIABLES, greatest_variable, line_of, literals_of
from ._options import whole_seconds
from ._programs import Child, StrPath, fault_of, find_program
from .errors import Fault, OutOfTime

if TYPE_CHECKING:
    from typing import SupportsIndex

    Formula = Iterable[Iterable[SupportsIndex]]

# The first line of an answer and what it says, how each line behind it begins, and how an answer ends.
STATUS_OF = {b"s SATISFIABLE": True, b"s UNSATISFIABLE": False, b"s UNKNOWN": None}
BEGIN_BEHIND = {b"s SATISFIABLE": b"v ", b"s UNSATISFIABLE": b"c core ", b"s UNKNOWN": b""}
ENDS = (b" 0\n", b"s UNKNOWN\n")
PIECE = 1 << 16

# Methods of PySAT that a session can't have, and what to use.
LIMIT = "solve_limited(seconds=..) limits a question by its time"
ELSEWHERE = {
    "accum_stats": "`cubesat solve --stats` counts what a run takes",
    "add_atmost": "add its clauses, as those of a counter, which takes variables of its own",
    "add_xor_clause": "add its clauses",
    "clear_interrupt": LIMIT,
    "conf_budget": LIMIT,
    "dec_budget": LIMIT,
    "get_proof": "cubesat.solve(clauses, proof=PATH) writes one",
    "interrupt": LIMIT + ", and delete() ends one of another thread",
    "prop_budget": LIMIT,
    "propagate": "a literal follows where solve([*assumptions, -literal]) is False",
    "set_phases": "assume literals that are to be true: solve(assumptions)",
}


class Solver:
    """A formula that grows, and questions of it under assumptions. One program answers them all, so what a question has taught stays for the next ones.

    The names are those of PySAT. Which model an answer is isn't fixed, a core is no smallest one, and no proof is written. Behind a Fault each call raises
    it again. An exception that leaves a question before its answer, as an interrupt does, ends the program, and each later call raises ValueError: make
    another solver then. Threads and processes have a solver each: one that uses a solver while another is at it gets a RuntimeError. Delete the solver, or
    use it in a `with` statement: the program ends then, or else with this process.
    """

    def __init__(
        self,
        name: str | Formula = "",
        bootstrap_with: Formula | None = None,
        use_timer: bool = True,
        *,
        program: StrPath | None = None,
    ):
        """A solver of these clauses, which may stand first: Solver([[1, 2]]), or as in PySAT Solver("g3", bootstrap_with=[[1, 2]]).

        name: of a solver of PySAT, which changes nothing. use_timer: changes nothing, since `time` is always there. program: the path of the program;
        without it, see `find_program`
        """
        if not isinstance(name, str):
            if bootstrap_with is not None:
                raise TypeError("clauses stand twice, first and as bootstrap_with")
            bootstrap_with = name
        self._turn = Turn()
        self._status: bool | None = None
        self._model: list[int] | None = None
        self._core: list[int] | None = None
        self._time = self._all_time = 0.0
        self._vars = self._clauses = 0
        self._waiting = ["p inccnf"]
        self._fault: Fault | None = None
        self._is_deleted = self._is_at_question = False
        path = find_program(program)
        self._said = tempfile.TemporaryFile()
        self._child = Child(path, "session", faults=self._said)
        try:
            self.append_formula(() if bootstrap_with is None else bootstrap_with)
        except BaseException:
            self.delete()
            raise

    def __enter__(self) -> Solver:
        return self

    def __exit__(self, *_: object) -> None:
        self.delete()

    def add_clause(self, clause: Iterable[SupportsIndex]) -> None:
        """Adds a clause, or raises BadClauses, which is a ValueError."""
        literals = literals_of(clause, f"clause {self._clauses + 1}", LARGE_VARIABLES)
        with self._turn:
            self._require_program()
            self._waiting.append(self._line(literals))
            self._clauses += 1

    def append_formula(self, clauses: Formula) -> None:
        """Adds clauses, or raises BadClauses; those before the bad one are added then."""
        for clause in clauses:
            self.add_clause(clause)

    def solve(self, assumptions: Iterable[SupportsIndex] = ()) -> bool:
        """Whether the clauses have a model in which the assumptions are true."""
        answer = self._ask(assumptions, None)
        if answer is None:
            raise OutOfTime("the program gave the question up")
        return answer

    def solve_limited(self, assumptions: Iterable[SupportsIndex] = (), *, seconds: float) -> bool | None:
        """The same, or None where that isn't decided in so many seconds, which are rounded up to whole ones."""
        return self._ask(assumptions, seconds)

    def get_model(self) -> list[int] | None:
        """The model that the last question found, if it found one: a literal for each variable of the clauses and assumptions so far, in order."""
        self._turn.require_own_question()
        return None if self._model is None else [*self._model]

    def get_core(self) -> list[int] | None:
        """Some assumptions of the last question, with which the clauses have no model, if it found that there is none."""
        self._turn.require_own_question()
        return None if self._core is None else [*self._core]

    def get_status(self) -> bool | None:
        """What the last question answered: True, False, or None where that isn't known."""
        self._turn.require_own_question()
        return self._status

    def time(self) -> float:
        """How many seconds the last question took that was answered."""
        return self._time

    def time_accum(self) -> float:
        """How many seconds all questions took that were answered."""
        return self._all_time

    def enum_models(self, assumptions: Iterable[SupportsIndex] = (), *, limit: SupportsIndex | None = None) -> Iterator[list[int]]:
        """The models in which the assumptions are true, each once, or so many of them. Each one is excluded by a clause, which stays."""
        held = [*assumptions]
        for _ in itertools.count() if limit is None else range(limit):
            if not self.solve(held):
                break
            model = self.get_model() or []
            self.add_clause([-literal for literal in model])
            yield model

    def nof_vars(self) -> int:
        """How many variables there are: those of the clauses and assumptions so far are 1 up to it."""
        return self._vars

    def nof_clauses(self) -> int:
        """How many clauses were added, those of `enum_models` among them."""
        return self._clauses

    def delete(self) -> None:
        """Ends the program, also where another thread is at a question, which raises ValueError, as a question or a clause does from then on. To delete the
        solver again changes nothing."""
        self._is_deleted = True
        self._child.kill()
        if self._turn.is_free():
            self._child.close()

    if not TYPE_CHECKING:

        def __getattr__(self, name):
            raise AttributeError(f"Solver has no {name}" + (f": {ELSEWHERE[name]}" if name in ELSEWHERE else ""))

    def _require_program(self) -> None:
        if self._is_deleted:
            raise ValueError("the solver is deleted")
        if self._fault is not None:
            raise self._fault.with_traceback(None)
        if self._is_at_question:
            raise ValueError("the solver has ended, since an exception left a question before its answer: make another one")

    def _line(self, literals: list[int]) -> str:
        """The literals as a line of a session."""
        self._vars = max(self._vars, greatest_variable(literals))
        return line_of(literals)

    def _ask(self, assumptions: Iterable[SupportsIndex], seconds: float | None) -> bool | None:
        whole = whole_seconds(seconds)
        limit = "" if whole is None else f"t {whole}\n"
        literals = literals_of(assumptions, "assumptions", LARGE_VARIABLES)
        with self._turn:
            self._require_program()
            self._turn.begin_question()
            self._status = self._model = self._core = None
            self._is_at_question = True
            begun = monotonic()
            try:
                self._write(f"{limit}a {self._line(literals)}")
                line, numbers = self._read()
            except BaseException:
                self._child.close()
                raise
            self._is_at_question = False
            self._time = monotonic() - begun
            self._all_time += self._time
            self._status = STATUS_OF[line]
            self._model = numbers if self._status is True else None
            self._core = numbers if self._status is False else None
            return self._status

    def _write(self, question: str) -> None:
        """Writes what waits, the question last. The program reads all of it before it answers."""
        rest = memoryview("\n".join([*self._waiting, question, ""]).encode())
        self._waiting = []
        try:
            while rest:
                rest = rest[self._child.input.write(rest) :]
        except OSError:
            raise self._failed() from None

    def _read(self) -> tuple[bytes, list[int]]:
        """The first line of an answer, and the numbers behind it, without the 0 at their end."""
        answer = bytearray()
        while not answer.endswith(ENDS):
            piece = self._child.output.read(PIECE)
            answer += piece
            if not piece or not b"s ".startswith(answer[:2]):
                raise self._failed()
        status, _, lines = bytes(answer).partition(b"\n")
        begin = BEGIN_BEHIND.get(status)
        if begin is None or not all(line.startswith(begin) for line in lines.splitlines()):
            raise self._failed()
        return status, [*map(int, lines.replace(begin, b" ").split())][:-1] if lines else []

    def _failed(self) -> Exception:
        """Why the program ended before it had answered; where it is still there, it ends with its input."""
        if self._is_deleted:
            return ValueError("the solver is deleted")
        status = self._child.status()
        self._said.seek(0)
        self._fault = fault_of(subprocess.CompletedProcess((), status, "", self._said.read().decode(errors="replace")))
        return self._fault


class Turn:
    """Lets one call at a time use a solver, in the process that made it, and knows which thread asked last."""

    def __init__(self) -> None:
        self._process = os.getpid()
        self._lock = threading.Lock()
        self._asked = 0
        self._of_thread = threading.local()

    def __enter__(self) -> None:
        if self._process != os.getpid():
            raise RuntimeError("the solver is another process's: make one for each process")
        if not self._lock.acquire(blocking=False):
            raise RuntimeError("the solver is at another call: make one for each thread")

    def __exit__(self, *_: object) -> None:
        self._lock.release()

    def is_free(self) -> bool:
        return not self._lock.locked()

    def begin_question(self) -> None:
        self._asked += 1
        self._of_thread.asked = self._asked

    def require_own_question(self) -> None:
        """Refuses the answer to another thread's question to one whose own was before it."""
        if getattr(self._of_thread, "asked", self._asked) != self._asked:
            raise RuntimeError("another thread has asked the solver since: make one for each thread")
