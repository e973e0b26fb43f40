#!/usr/bin/env python3
"""Tests of `cubesat.Solver`: its answers, and what threads, forks and exceptions leave of it."""
import contextlib
import gc
import itertools
import os
import signal
import subprocess
import sys
import threading
import time
import unittest
from concurrent.futures import ThreadPoolExecutor

import cubesat
from test_cubesat import ALTERNATING, FOLDER, InFolder, Whole, pigeons, program_of

# Calls of one solver in turn: clauses that are added, then assumptions, and the literals that the answer has: a model's, or those of the core.
QUESTIONS = [
    ("no clauses", [], [], "model", []),
    ("a variable that only an assumption has", [], [-3], "model", [-3]),
    ("a clause", [[1, 2]], [-1], "model", [-1, 2]),
    ("a core of one", [[-2, 4]], [3, -4, -1], "core", [-4, -1]),
    ("the same without it", [], [3, -4], "model", [3, -4, -2, 1]),
    ("assumptions that contradict one another", [], [5, 3, -5], "core", [5, -5]),
    ("literals that repeat, and a clause that is always true", [[6, 6], [7, -7]], [6, 6], "model", [6]),
    ("an empty core", [[-6]], [1], "core", []),
    ("one for good", [[8]], [], "core", []),
]
BAD_CALLS = [
    ("zero", lambda solver: solver.add_clause([1, 0])),
    ("a number", lambda solver: solver.append_formula([1])),
    ("a truth value", lambda solver: solver.add_clause([True])),
    ("a variable over the limit", lambda solver: solver.add_clause([100_000_001])),
    ("an assumption that is none", lambda solver: solver.solve([0])),
    ("a text", lambda solver: solver.solve("1")),
    ("no number of seconds", lambda solver: solver.solve_limited(seconds=float("nan"))),
    ("no seconds", lambda solver: solver.solve_limited(seconds=0)),
]


class Questions(InFolder):
    def test_questions_in_turn(self):
        with cubesat.Solver() as solver:
            for name, clauses, assumptions, what, literals in QUESTIONS:
                with self.subTest(name):
                    solver.append_formula(clauses)
                    self.assertIs(solver.solve(assumptions), what == "model")
                    model, core = solver.get_model(), solver.get_core()
                    if what == "core":
                        self.assertIsNone(model)
                        self.assertEqual(sorted(core), sorted(literals))
                    else:
                        self.assertIsNone(core)
                        self.assertEqual([*map(abs, model)], [*range(1, solver.nof_vars() + 1)])
                        self.assertLessEqual({*literals}, {*model})

    def test_all_models(self):
        with cubesat.Solver(ALTERNATING) as solver:
            self.assertEqual(sorted(solver.enum_models()), [[-1, 2, -3], [1, -2, 3]])
            self.assertEqual((solver.get_core(), solver.nof_clauses()), ([], len(ALTERNATING) + 2))
        with cubesat.Solver(bootstrap_with=[[1, 2, 3]]) as solver:
            self.assertEqual(len([*solver.enum_models(limit=2)]), 2)
            self.assertEqual(solver.nof_clauses(), 3)
        with cubesat.Solver([[1, 2]]) as solver:
            self.assertEqual(sorted(solver.enum_models([-1])), [[-1, 2]])
            self.assertTrue(solver.solve([1]))

    def test_beginnings_as_in_pysat(self):
        for name, begin in (
            ("clauses first", lambda: cubesat.Solver(ALTERNATING)),
            ("by name", lambda: cubesat.Solver(bootstrap_with=ALTERNATING)),
            ("a solver's name first", lambda: cubesat.Solver("g3", bootstrap_with=ALTERNATING)),
            ("in PySAT's order", lambda: cubesat.Solver("cadical153", ALTERNATING, True)),
            ("all by name", lambda: cubesat.Solver(name="m22", bootstrap_with=iter(ALTERNATING), use_timer=True)),
        ):
            with self.subTest(name), begin() as solver:
                self.assertEqual((solver.solve([1]), solver.get_model(), solver.nof_clauses()), (True, [1, -2, 3], 4))
        for begin in (lambda: cubesat.Solver(), lambda: cubesat.Solver("g4"), lambda: cubesat.Solver("g4", None)):
            with begin() as solver:
                self.assertEqual((solver.solve(), solver.nof_vars()), (True, 0))
        self.assertRaises(TypeError, cubesat.Solver, ALTERNATING, ALTERNATING)

    def test_status_and_time(self):
        with cubesat.Solver(ALTERNATING) as solver:
            self.assertEqual((solver.get_status(), solver.time(), solver.time_accum()), (None, 0, 0))
            taken = []
            for assumptions, status in (([1], True), ([1, 2], False), ([], True)):
                solver.solve(assumptions)
                self.assertIs(solver.get_status(), status)
                taken.append(solver.time())
            self.assertTrue(all(it > 0 for it in taken))
            self.assertAlmostEqual(solver.time_accum(), sum(taken))
        with cubesat.Solver(pigeons(13)) as solver:
            solver.solve_limited(seconds=1)
            self.assertIsNone(solver.get_status())

    def test_methods_that_pysat_alone_has(self):
        with cubesat.Solver() as solver:
            for name, words in (
                ("accum_stats", "--stats"),
                ("add_atmost", "clauses"),
                ("conf_budget", "seconds="),
                ("interrupt", "seconds="),
                ("propagate", "solve"),
                ("set_phases", "assume"),
                ("get_proof", "proof=PATH"),
            ):
                with self.subTest(name):
                    self.assertFalse(hasattr(solver, name))
                    self.assertRaisesRegex(AttributeError, f"Solver has no {name}: .*{words}", getattr, solver, name)
            self.assertRaisesRegex(AttributeError, "^Solver has no other$", getattr, solver, "other")

    def test_integers_of_any_kind(self):
        with cubesat.Solver([[Whole(1), Whole(-2)]]) as solver:
            self.assertTrue(solver.solve([Whole(2)]))
            self.assertEqual(solver.get_model(), [1, 2])
        self.assertEqual(cubesat.dimacs([[Whole(-1)]]), "p cnf 1 1\n-1 0\n")

    def test_bad_calls_change_nothing(self):
        with cubesat.Solver([[1]]) as solver:
            for name, call in BAD_CALLS:
                with self.subTest(name), self.assertRaises(ValueError):
                    call(solver)
            self.assertEqual((solver.solve(), solver.get_model(), solver.nof_vars(), solver.nof_clauses()), (True, [1], 1, 1))
        with self.assertRaises(cubesat.BadClauses):
            cubesat.Solver([[1], [0]])

    def test_out_of_time(self):
        """The solver is asked again, for less."""
        with cubesat.Solver(pigeons(13)) as solver:
            self.assertIsNone(solver.solve_limited(seconds=0.1))
            self.assertEqual((solver.get_model(), solver.get_core()), (None, None))
            self.assertIs(solver.solve_limited([1000, -1000], seconds=1000), False)
            self.assertEqual(sorted(solver.get_core()), [-1000, 1000])

    def test_a_limit_that_isnt_reached_changes_nothing(self):
        with cubesat.Solver(ALTERNATING) as solver:
            for seconds in (1000, 2.5, float("inf")):
                self.assertIs(solver.solve_limited([1], seconds=seconds), True)
                self.assertEqual(solver.get_model(), [1, -2, 3])

    def test_program_that_ends_is_a_fault(self):
        for name, text, line in (
            ("it says nothing", "exit 3", "ended with status 3"),
            ("it says a fault", "echo fault 52 >&2; exit 1", "fault 52"),
            ("it is killed", "kill -9 $$", "ended with status -9"),
            ("it breaks off", "read line; echo s SATISFIABLE; echo v 1; exit 10", "ended with status 10"),
        ):
            with self.subTest(name), cubesat.Solver(program=program_of(self.folder, text)) as solver:
                for _ in range(2):
                    with self.assertRaises(cubesat.Fault) as caught:
                        solver.solve()
                    self.assertEqual(caught.exception.line, line)

    def test_deletion(self):
        solver = cubesat.Solver(pigeons(8))
        solver.delete()
        solver.delete()
        self.assertIsNotNone(solver._child.ran.returncode)
        for call in (solver.solve, lambda: solver.add_clause([1]), lambda: solver.solve_limited(seconds=1)):
            self.assertRaisesRegex(ValueError, "deleted", call)

    def test_program_ends_with_the_last_use_of_its_solver(self):
        solver = cubesat.Solver()
        ran = solver._child.ran
        del solver
        gc.collect()
        self.assertIsNotNone(ran.returncode)


class Interrupt(BaseException):
    """What a handler of signals raises, as that of an interrupt does."""


def call_in(seconds, function):
    """Calls it in so many seconds in the main thread, whatever that does then."""
    signal.signal(signal.SIGALRM, lambda *_: function())
    signal.setitimer(signal.ITIMER_REAL, seconds)


def raise_interrupt():
    raise Interrupt


@contextlib.contextmanager
def thread_at_a_question(solver, ask):
    """A thread that has begun to ask, and ends with the block."""
    thread = threading.Thread(target=ask)
    thread.start()
    while solver._turn.is_free():
        time.sleep(0.001)
    yield
    thread.join()


class LeftQuestions(InFolder):
    def tearDown(self):
        signal.setitimer(signal.ITIMER_REAL, 0)
        signal.signal(signal.SIGALRM, signal.SIG_DFL)

    def test_exception_ends_the_solver(self):
        deaf = program_of(self.folder, "exec sleep 100")
        for name, clauses, program in (
            ("while the program searches", pigeons(13), None),
            ("while clauses are written", itertools.repeat([1], 100_000), deaf),
            ("before the program says anything", [], deaf),
        ):
            with self.subTest(name), cubesat.Solver(clauses, program=program) as solver:
                call_in(0.3, raise_interrupt)
                self.assertRaises(Interrupt, solver.solve)
                self.assertIsNotNone(solver._child.ran.returncode)
                for call in (solver.solve, solver.solve, lambda: solver.add_clause([1])):
                    self.assertRaisesRegex(ValueError, "exception left a question", call)
                self.assertEqual((solver.get_model(), solver.get_core()), (None, None))

    def test_exception_that_comes_before_the_question_changes_nothing(self):
        with cubesat.Solver(ALTERNATING) as solver:
            self.assertRaises(Interrupt, solver.solve, (raise_interrupt() for _ in range(1)))
            self.assertTrue(solver.solve([1]))
            self.assertEqual(solver.get_model(), [1, -2, 3])

    def test_handler_that_returns_changes_nothing(self):
        """A program that answers late."""
        program = program_of(self.folder, "read header; read question; sleep 1; echo s SATISFIABLE; echo v 0; read more")
        calls = []
        with cubesat.Solver(program=program) as solver:
            call_in(0.3, lambda: calls.append(1))
            self.assertTrue(solver.solve())
        self.assertEqual(calls, [1])

    def test_interrupt_of_a_terminal_is_the_process_own(self):
        """A terminal sends it to the whole group, here before a question."""
        calls = "signal.signal(signal.SIGINT, lambda *_: None); solver = cubesat.Solver([[1]]); print(1, flush=True); input(); print(solver.solve(), flush=True)"
        words = [sys.executable, "-Bc", f"import cubesat, signal; {calls}"]
        how = {"cwd": FOLDER, "stdin": subprocess.PIPE, "stdout": subprocess.PIPE, "start_new_session": True}
        with subprocess.Popen(words, **how) as process:
            self.assertEqual(process.stdout.readline(), b"1\n")
            os.killpg(process.pid, signal.SIGINT)
            self.assertEqual(process.communicate(b"\n")[0], b"True\n")

    def test_handler_that_asks_or_deletes(self):
        """It runs while the solver is at a question, in the same thread."""
        for name, call, error, words in (
            ("it asks", lambda solver: solver.solve, RuntimeError, "at another call"),
            ("it adds", lambda solver: lambda: solver.add_clause([1]), RuntimeError, "at another call"),
            ("it deletes", lambda solver: solver.delete, ValueError, "deleted"),
        ):
            with self.subTest(name), cubesat.Solver(pigeons(13)) as solver:
                call_in(0.3, call(solver))
                self.assertRaisesRegex(error, words, solver.solve)


class Threads(InFolder):
    def test_two_threads_at_once(self):
        """One is refused while the other is at a question, which ends with the solver."""
        errors = []

        def ask():
            try:
                solver.solve()
            except ValueError as error:
                errors.append(str(error))

        with cubesat.Solver(pigeons(13)) as solver, thread_at_a_question(solver, ask):
            for call in (solver.solve, lambda: solver.add_clause([1]), lambda: solver.append_formula([[1]])):
                self.assertRaisesRegex(RuntimeError, "make one for each thread", call)
            solver.delete()
        self.assertEqual(errors, ["the solver is deleted"])

    def test_answer_is_that_of_the_thread_that_asked(self):
        """A thread that asked nothing gets the last answer."""
        with cubesat.Solver(ALTERNATING) as solver, ThreadPoolExecutor(1) as other, ThreadPoolExecutor(1) as third:
            self.assertTrue(solver.solve([1]))
            self.assertEqual(other.submit(solver.get_model).result(), [1, -2, 3])
            self.assertTrue(other.submit(solver.solve, [-1]).result())
            self.assertEqual(other.submit(solver.get_model).result(), [-1, 2, -3])
            self.assertEqual(third.submit(solver.get_model).result(), [-1, 2, -3])
            for call in (solver.get_model, solver.get_core):
                self.assertRaisesRegex(RuntimeError, "another thread has asked", call)
            self.assertTrue(solver.solve([1]))
            self.assertEqual(solver.get_model(), [1, -2, 3])

    def test_solver_outlives_the_thread_that_made_it(self):
        made = []
        maker = threading.Thread(target=lambda: made.append(cubesat.Solver(ALTERNATING)))
        maker.start()
        maker.join()
        with made[0] as solver:
            self.assertTrue(solver.solve([1]))
            self.assertEqual(solver.get_model(), [1, -2, 3])

    def test_fork_has_no_part_in_the_solver(self):
        """It is refused, and its end leaves the program as it is."""
        with cubesat.Solver(ALTERNATING) as solver:
            child = os.fork()
            if not child:
                with contextlib.suppress(RuntimeError):
                    solver.solve()
                    os._exit(1)
                solver.delete()
                os._exit(0)
            self.assertEqual(os.waitpid(child, 0)[1], 0)
            self.assertTrue(solver.solve([1]))
            self.assertEqual(solver.get_model(), [1, -2, 3])


if __name__ == "__main__":
    unittest.main()
