#!/usr/bin/env python3
"""Tests of the package `cubesat` that stands beside this file, or, where none does, of the one that is installed. What is expected follows from the
definitions of truth and of the first model, and from docs/FORMATS.md."""
import enum
import importlib.util
import itertools
import os
import select
import shutil
import signal
import subprocess
import sys
import tempfile
import unittest
from fractions import Fraction
from unittest import mock

try:
    import numpy
except ImportError:
    numpy = None

import cubesat
from cubesat import _programs


def pigeons(count):
    """So many pigeons, and a hole less. Of n holes, pigeon p is in hole h where n * p + h is true."""
    holes = count - 1
    some = [[holes * pigeon + hole for hole in range(1, count)] for pigeon in range(count)]
    pairs = itertools.combinations(range(count), 2)
    return some + [[-holes * a - hole, -holes * b - hole] for a, b in pairs for hole in range(1, count)]


# where the package stands, and in a clone what builds the program
FOLDER = os.path.dirname(os.path.dirname(os.path.abspath(cubesat.__file__)))
BIN_CUBESAT = os.path.join(FOLDER, "../bin/cubesat")
PIGEONS = pigeons(3)
# Its models are those in which 1 differs from 2 and 2 from 3.
ALTERNATING = [[1, 2], [-1, -2], [2, 3], [-2, -3]]
# 1 is true in each model, which takes a conflict to find; one of 4 and 5 is true
FORCED = [[1, 2, 3], [1, 2, -3], [1, -2, 3], [1, -2, -3], [4, 5]]

FIRST_MODELS = [
    ("alternating", ALTERNATING, None, [-1, 2, -3]),
    ("no clauses", [], None, []),
    ("no clauses, two variables", [], 2, [-1, -2]),
    ("a variable that no clause has", [[1], [3]], None, [1, -2, 3]),
    ("one behind the greatest of a clause", [[2]], 3, [-1, 2, -3]),
    ("a literal twice, and a clause that is always true", [[1, 1], [2, -2]], None, [1, -2]),
    ("other collections than lists", ({it} for it in (2, -1)), None, [-1, 2]),
    ("as many variables as there may be", [[262143]], None, [*range(-1, -262143, -1), 262143]),
]
WITHOUT_MODEL = [("pigeons", PIGEONS), ("an empty clause", [[]]), ("an empty clause beside others", [[1], [], [-2]]), ("both units", [[1], [-1]])]
BAD = [
    ("zero", [[1], [2, 0]], None),
    ("a float", [[1.0]], None),
    ("a truth value", [[True]], None),
    ("a text", [["1"]], None),
    ("a clause that is a number", [1, 2], None),
    ("a variable over the limit", [[-262144]], None),
    ("a number of variables over the limit", [], 262144),
    ("numbers that Python prints none of", [[10**5000]], -(10**5000)),
    ("fewer variables than a clause has", [[1], [-3]], 2),
    ("a negative number of variables", [], -1),
    ("a number of variables that is none", [], 2.0),
    ("clauses without end", itertools.repeat([]), None),
    ("literals over the limit", [[1] * 8_000_001], None),
]


def program_of(folder, text):
    """The path of a script with this text, which Bash runs."""
    path = os.path.join(folder, "program")
    with open(path, "w") as file:
        file.write(f"#!/bin/bash\n{text}\n")
    os.chmod(path, 0o755)
    return path


class Whole:
    """An integer of another kind."""

    def __init__(self, number):
        self.number = number

    def __index__(self):
        return self.number


class InFolder(unittest.TestCase):
    def setUp(self):
        held = tempfile.TemporaryDirectory()
        self.addCleanup(held.cleanup)
        self.folder = held.name


class Answers(InFolder):
    def test_first_models(self):
        for name, clauses, variables, model in FIRST_MODELS:
            with self.subTest(name):
                self.assertEqual(cubesat.solve(clauses, variables=variables), model)

    def test_without_model(self):
        for name, clauses in WITHOUT_MODEL:
            with self.subTest(name):
                self.assertIsNone(cubesat.solve(clauses))

    def test_budget_and_hands_change_no_answer(self):
        for budget, hands in ((1, 1), (1, 4), (100_000, 16)):
            with self.subTest(f"budget {budget}, hands {hands}"):
                self.assertEqual(cubesat.solve(ALTERNATING, budget=budget, hands=hands), [-1, 2, -3])
                self.assertIsNone(cubesat.solve(PIGEONS, budget=budget, hands=hands))

    def test_automatic_search_gives_the_first_model(self):
        """One conflict isn't enough for the search that is made first."""
        for options in ({}, {"search": "automatic"}, {"search": "automatic", "budget": 1}, {"search": "automatic", "budget": 1, "hands": 4, "divide": 0}):
            with self.subTest(options):
                self.assertEqual(cubesat.solve(FORCED, **options), [1, -2, -3, -4, 5])
                self.assertIsNone(cubesat.solve(PIGEONS, **options))

    def test_not_first(self):
        for options in ({}, {"budget": 1}, {"search": "automatic", "budget": 1}, {"search": "focused"}, {"search": "ordered"}):
            with self.subTest(options):
                model = cubesat.solve(FORCED, first=False, **options)
                self.assertEqual([*map(abs, model)], [1, 2, 3, 4, 5])
                self.assertTrue(all({*clause} & {*model} for clause in FORCED))
                self.assertIsNone(cubesat.solve(PIGEONS, first=False, **options))

    def test_focused_search_finds_a_model_or_none(self):
        self.assertIn(cubesat.solve(ALTERNATING, search="focused"), ([-1, 2, -3], [1, -2, 3]))
        for budget, hands in ((1, 1), (1, 4), (None, 16)):
            with self.subTest(f"budget {budget}, hands {hands}"):
                self.assertIsNone(cubesat.solve(PIGEONS, search="focused", budget=budget, hands=hands))

    def test_division_changes_no_answer(self):
        for divide in (0, 2, 64, 65_536):
            for budget, hands in ((1, 1), (2, 4), (None, 16)):
                with self.subTest(f"divide {divide}, budget {budget}, hands {hands}"):
                    self.assertIsNone(cubesat.solve(PIGEONS, search="focused", divide=divide, budget=budget, hands=hands))
                    model = cubesat.solve(ALTERNATING, search="focused", divide=divide, budget=budget, hands=hands)
                    self.assertIn(model, ([-1, 2, -3], [1, -2, 3]))
            with self.subTest(f"more pigeons, which are divided, divide {divide}"):
                self.assertIsNone(cubesat.solve(pigeons(8), search="focused", divide=divide, budget=1950, hands=2))

    def test_a_limit_that_isnt_reached_changes_nothing(self):
        self.assertEqual(cubesat.solve(ALTERNATING, seconds=1000), [-1, 2, -3])
        self.assertIsNone(cubesat.solve(PIGEONS, seconds=1000))

    def test_large(self):
        self.assertIsNone(cubesat.solve(PIGEONS, large=True))
        model = cubesat.solve([[262_144]], large=True)
        self.assertEqual(model, [*range(-1, -262_144, -1), 262_144])
        self.assertRaises(cubesat.BadClauses, cubesat.solve, [[262_144]])
        self.assertRaises(cubesat.BadClauses, cubesat.solve, [[100_000_001]], large=True)

    def test_kept_proof_is_accepted(self):
        formula, proof = os.path.join(self.folder, "f.cnf"), os.path.join(self.folder, "f.lrat")
        with open(formula, "w") as file:
            file.write(cubesat.dimacs(PIGEONS))
        for check in (True, False):
            self.assertIsNone(cubesat.solve(PIGEONS, proof=proof, check=check))
            checked = subprocess.run([cubesat.find_program(), "check", formula, proof], capture_output=True, text=True)
            self.assertEqual(checked.stdout, "accepted\n")
            os.unlink(proof)

    def test_proof_of_a_satisfiable_formula_is_empty(self):
        proof = os.path.join(self.folder, "f.lrat")
        cubesat.solve(ALTERNATING, proof=proof)
        self.assertEqual(os.path.getsize(proof), 0)

    def test_integers_of_other_kinds(self):
        named = enum.IntEnum("named", {"one": 1, "two": -2})
        for clause in ([named.one, named.two], [1, named.two], [Whole(1), -2], (Whole(it) for it in (1, -2))):
            self.assertEqual(cubesat.dimacs([clause], Whole(3)), "p cnf 3 1\n1 -2 0\n")

    def test_text_of_a_formula(self):
        self.assertEqual(cubesat.dimacs([[1, -3], []], 4), "p cnf 4 2\n1 -3 0\n0\n")
        self.assertEqual(cubesat.dimacs([]), "p cnf 0 0\n")

    def test_temporary_files_are_taken_away(self):
        with mock.patch.object(tempfile, "tempdir", self.folder):
            cubesat.solve(PIGEONS)
        self.assertEqual(os.listdir(self.folder), [])


class Refusals(InFolder):
    def test_bad_clauses(self):
        for name, clauses, variables in BAD:
            with self.subTest(name), self.assertRaises(cubesat.BadClauses):
                cubesat.solve(clauses, variables=variables)

    def test_place_of_a_bad_clause_is_named(self):
        with self.assertRaisesRegex(cubesat.BadClauses, "^clause 2: 0 "):
            cubesat.solve([[1], [2, 0]])

    def test_proof_is_asked_for_where_it_is_needed(self):
        program = program_of(self.folder, f'[[ "$*" == *--proof* ]] && exit 3; exec "{cubesat.find_program()}" "$@"')
        self.assertIsNone(cubesat.solve(PIGEONS, program=program, check=False))
        with self.assertRaises(cubesat.Fault):
            cubesat.solve(PIGEONS, program=program)

    def test_fault_has_the_line_and_words(self):
        proof = os.path.join(self.folder, "absent", "f.lrat")
        with self.assertRaises(cubesat.Fault) as caught:
            cubesat.solve(ALTERNATING, proof=proof)
        words = f"{proof}: can't be created: its folder doesn't exist"
        self.assertEqual((caught.exception.line, caught.exception.words), ("fault 56", words))
        self.assertEqual(str(caught.exception), f"fault 56\n{words}")

    def test_out_of_time(self):
        """Thirteen pigeons in twelve holes take hours, by each search. The proof that was there stays."""
        hard = pigeons(13)
        proof = os.path.join(self.folder, "f.lrat")
        with open(proof, "w") as file:
            file.write("old\n")
        for options in ({}, {"search": "ordered"}, {"search": "focused"}, {"hands": 4, "budget": 10}):
            with self.subTest(options), self.assertRaises(cubesat.OutOfTime):
                cubesat.solve(hard, seconds=1, proof=proof, **options)
            self.assertEqual(os.listdir(self.folder), ["f.lrat"])
            with open(proof) as file:
                self.assertEqual(file.read(), "old\n")

    def test_options_out_of_range(self):
        bad = [{"seconds": 0}, {"hands": 0}, {"hands": 17}, {"budget": 0}, {"budget": 100_001}, {"search": "x"}]
        bad += [{"divide": 65_537}, {"search": "focused", "divide": -1}, {"search": "ordered", "divide": 2}, {"budget": 1, "divide": 2}]
        bad += [{"search": "automatic", "budget": 100_001}, {"search": "focused", "budget": 1_000_000_001}, {"hands": 10**5000}]
        bad += [{"seconds": -1}, {"seconds": float("nan")}, {"search": "ordered", "simplify": False}, {"search": 1}]
        for options in bad:
            with self.subTest(options), self.assertRaisesRegex(ValueError, f"^({'|'.join(options)}): "):
                cubesat.solve(ALTERNATING, **options)

    def test_options_of_another_kind(self):
        bad = [{"hands": 1.0}, {"hands": "1"}, {"hands": True}, {"hands": None}]
        bad += [{"search": "focused", "budget": 2.5}, {"divide": [1]}, {"seconds": "1"}]
        for options in bad:
            with self.subTest(options), self.assertRaises(TypeError):
                cubesat.solve(ALTERNATING, **options)

    def test_options_of_other_kinds_that_are_numbers(self):
        good = [{"hands": Whole(2)}, {"budget": Whole(5)}, {"divide": Whole(2)}]
        good += [{"seconds": 0.5}, {"seconds": float("inf")}, {"seconds": Fraction(5, 2)}]
        for options in good:
            with self.subTest(options):
                self.assertEqual(cubesat.solve(ALTERNATING, **options), [-1, 2, -3])
        self.assertEqual(cubesat.solve([], variables=Whole(2)), [-1, -2])

    def test_wrong_proof_gives_no_answer(self):
        """The program is one that empties the proof that the true one wrote, so that no step adds the empty clause."""
        emptied = r'[[ "$*" =~ --proof\ ([^ ]+) ]] && : > "${BASH_REMATCH[1]}"'
        program = program_of(self.folder, f'"{cubesat.find_program()}" "$@"; status=$?; {emptied}; exit $status')
        with self.assertRaises(cubesat.Fault) as caught:
            cubesat.solve(PIGEONS, program=program)
        self.assertEqual(caught.exception.line, "refused 30")
        self.assertRegex(caught.exception.words, ": no step adds the empty clause; the proof may have been cut off$")
        self.assertIsNone(cubesat.solve(PIGEONS, program=program, check=False))

    def test_killed_program_gives_no_answer(self):
        program = program_of(self.folder, "echo s SATISFIABLE; kill -9 $$")
        with self.assertRaises(cubesat.Fault) as caught:
            cubesat.solve([], program=program)
        self.assertEqual(caught.exception.line, "ended with status -9")


@unittest.skipUnless(numpy, "there is no numpy")
class Arrays(unittest.TestCase):
    def test_clauses_are_rows(self):
        for kind in ("int8", "int64", "int32"):
            rows = numpy.array([[1, 2], [-1, 3]], dtype=kind)
            for name, clauses in (("an array", rows), ("a list of rows", [*rows]), ("a generator", (it for it in rows)), ("columns", rows.T.copy().T)):
                with self.subTest(f"{name} of {kind}"):
                    model = cubesat.solve(clauses, variables=rows.dtype.type(4), hands=rows.dtype.type(1), seconds=numpy.float64(100))
                    self.assertEqual((model, {*map(type, model)}), ([-1, 2, -3, -4], {int}))
        self.assertEqual(cubesat.solve(numpy.array([[1], [3]], dtype="uint16")), [1, -2, 3])
        self.assertEqual(cubesat.solve(numpy.empty((0, 3), dtype=int)), [])

    def test_questions(self):
        with cubesat.Solver(numpy.array(ALTERNATING)) as solver:
            solver.add_clause(numpy.array([-4, 1], dtype="int8"))
            solver.append_formula(numpy.array([[4, 5]]))
            self.assertTrue(solver.solve(numpy.array([4])))
            self.assertEqual(solver.get_model()[:4], [1, -2, 3, 4])
            self.assertFalse(solver.solve(numpy.array([-1, 4])))
            self.assertEqual(sorted(solver.get_core()), [-1, 4])
            self.assertTrue(all(model[3] == 4 for model in solver.enum_models(numpy.array([4]), limit=numpy.int64(2))))

    def test_what_is_no_literal(self):
        for name, clauses in (
            ("floats", [[1.0]]),
            ("truth values", [[True]]),
            ("rows that zeros fill up", [[1, 2], [3, 0]]),
            ("one row", [1, 2]),
            ("three dimensions", [[[1]]]),
            ("three dimensions, rows of two", [[[1, 2]]]),
            ("the least of a kind", numpy.array([[-(2**63)]])),
        ):
            with self.subTest(name), self.assertRaises(cubesat.BadClauses):
                cubesat.solve(numpy.array(clauses))


class Programs(InFolder):
    def test_module_that_is_run_is_the_program(self):
        """A file in place of a command is a formula to solve."""
        formula = os.path.join(self.folder, "four.cnf")
        with open(formula, "w") as file:
            file.write("p cnf 1 2\n1 0\n-1 0\n")
        for words, status in (([formula], 20), (["solve", formula], 20), ([formula, "--seconds", "100"], 20), (["--version"], 0)):
            with self.subTest(words):
                called = {"cwd": FOLDER, "stdout": subprocess.PIPE, "stderr": subprocess.PIPE}
                ran, same = (subprocess.run([*it, *words], **called) for it in ([sys.executable, "-m", "cubesat"], [cubesat.find_program()]))
                self.assertEqual(ran.returncode, status)
                if words[0] != formula:
                    self.assertEqual((ran.stdout, ran.stderr), (same.stdout, same.stderr))
        absent = {**os.environ, "CUBESAT": os.path.join(self.folder, "absent")}
        ran = subprocess.run([sys.executable, "-m", "cubesat"], cwd=FOLDER, env=absent, stderr=subprocess.PIPE)
        self.assertEqual((ran.returncode, ran.stderr.decode()), (1, f"cubesat: no program at {absent['CUBESAT']}\n"))

    def test_program_that_the_system_cant_run(self):
        program = program_of(self.folder, "")
        with open(program, "w") as file:
            file.write("no program")
        for call in (lambda: cubesat.solve([], program=program), lambda: cubesat.Solver(program=program)):
            self.assertRaisesRegex(cubesat.NoProgram, "can't be run", call)

    def test_missing_program(self):
        absent = os.path.join(self.folder, "absent")
        with self.assertRaises(cubesat.NoProgram):
            cubesat.solve([], program=absent)
        with mock.patch.dict(os.environ, CUBESAT=absent), self.assertRaises(cubesat.NoProgram):
            cubesat.solve([])

    def test_argument_goes_before_environment(self):
        program = program_of(self.folder, "")
        with mock.patch.dict(os.environ, CUBESAT=os.path.join(self.folder, "absent")):
            self.assertEqual(cubesat.find_program(program), program)
        with mock.patch.dict(os.environ, CUBESAT=program):
            self.assertEqual(cubesat.find_program(), program)

    def test_installed_module_finds_its_program_and_else_the_path(self):
        modules, programs = os.path.join(self.folder, "lib/python3/dist-packages"), os.path.join(self.folder, "bin")
        on_path = os.path.join(self.folder, "elsewhere")
        for folder in (modules, programs, on_path):
            os.makedirs(folder)
        module = self.loaded(shutil.copytree(os.path.dirname(cubesat.__file__), os.path.join(modules, "cubesat")))
        with mock.patch.dict(os.environ, CUBESAT="", PATH=on_path):
            with self.assertRaises(module.NoProgram):
                module.find_program()
            elsewhere = shutil.copy(program_of(self.folder, ""), os.path.join(on_path, "cubesat"))
            self.assertEqual(module.find_program(), elsewhere)
            beside = shutil.copy(elsewhere, os.path.join(programs, "cubesat"))
            self.assertEqual(os.path.realpath(module.find_program()), os.path.realpath(beside))

    @unittest.skipUnless(os.path.exists(BIN_CUBESAT), "it isn't the module of a clone")
    def test_clone_is_never_built(self):
        """The program is there or isn't, and a source is as it was or newer."""
        package = shutil.copytree(os.path.dirname(cubesat.__file__), os.path.join(self.folder, "python/cubesat"))
        for folder in ("bin", "crates/cubesat_program/src", "crates/cubesat_program/out"):
            os.makedirs(os.path.join(self.folder, folder))
        shutil.copy(BIN_CUBESAT, os.path.join(self.folder, "bin"))
        program = os.path.join(self.folder, "crates/cubesat_program/out/cubesat_program")
        for change in ("crates.txt", "crates/cubesat_program/src/main.rt"):
            with open(os.path.join(self.folder, change), "w"), mock.patch.dict(os.environ, CUBESAT=""):
                module = self.loaded(package)
                for call in (module.find_program, lambda: module.solve([]), module.Solver):
                    self.assertRaisesRegex(module.NoProgram, f"builds it: {self.folder}/bin/cubesat --version$", call)
                with self.assertRaisesRegex(cubesat.Fault, "builds it"):
                    cubesat.solve([], program=os.path.join(self.folder, "bin/cubesat"))
                os.replace(program_of(self.folder, "[ $1 = --version ] && exit; echo s SATISFIABLE; echo v 0; exit 10"), program)
                self.assertEqual((module.solve([]), module.find_program()), ([], program))

    def loaded(self, folder):
        spec = importlib.util.spec_from_file_location("copied_cubesat", os.path.join(folder, "__init__.py"), submodule_search_locations=[folder])
        module = importlib.util.module_from_spec(spec)
        with mock.patch.dict(sys.modules, copied_cubesat=module):
            spec.loader.exec_module(module)
        return module


# Ends of a process that waits for the program, alone or in a thread: what it calls, and the signal that it gets, or else the end of its input.
IN_THREAD = "threading.Thread(target={}, daemon={}).start(); "
IMPORTS = "import cubesat, os, sys, threading; from concurrent.futures import ThreadPoolExecutor"
SOLVE, ASK = "lambda: cubesat.solve([])", "lambda: cubesat.Solver().solve()"
ENDS = [
    ("killed", f"({SOLVE})()", signal.SIGKILL),
    ("told to end", f"({SOLVE})()", signal.SIGTERM),
    ("interrupted", f"({SOLVE})()", signal.SIGINT),
    ("killed with a thread", IN_THREAD.format(SOLVE, False) + "sys.stdin.read()", signal.SIGKILL),
    ("its main thread ended", IN_THREAD.format(SOLVE, True) + "sys.stdin.read()", None),
    ("ended at once", IN_THREAD.format(SOLVE, False) + "sys.stdin.read(); os._exit(0)", None),
    ("killed at a question", f"({ASK})()", signal.SIGKILL),
    ("interrupted at a question", f"({ASK})()", signal.SIGINT),
    ("ended at the question of a thread", IN_THREAD.format(ASK, True) + "sys.stdin.read()", None),
    ("killed behind the thread that made the solver", "ThreadPoolExecutor().submit(cubesat.Solver).result().solve()", signal.SIGKILL),
    ("killed, with a fork that lives on", "solver = cubesat.Solver(); os.fork() or sys.stdin.read(); solver.solve()", signal.SIGKILL),
]


class Ends(InFolder):
    def test_program_ends_with_the_process(self):
        """The program is a script that reads, as the true one does first, writes a line to a pipe, and begins another that holds it open until it ends."""
        pipe = os.path.join(self.folder, "pipe")
        os.mkfifo(pipe)
        environment = {**os.environ, "TMPDIR": self.folder, "CUBESAT": program_of(self.folder, f'read line; exec 3> "{pipe}"; echo begun >&3; sleep 30; true')}
        for name, calls, number in ENDS:
            words = [sys.executable, "-Bc", f"{IMPORTS}; {calls}"]
            how = {"cwd": FOLDER, "env": environment, "stdin": subprocess.PIPE, "stderr": subprocess.DEVNULL}
            with self.subTest(name), open(os.open(pipe, os.O_RDONLY | os.O_NONBLOCK), "rb", buffering=0) as program:
                with subprocess.Popen(words, **how) as process:
                    self.assertEqual(self.said_by(program), b"begun\n")
                    if number:
                        process.send_signal(number)
                    else:
                        process.stdin.close()
                    process.wait()
                    self.assertEqual(self.said_by(program), b"")

    def said_by(self, program):
        self.assertTrue(select.select([program], [], [], 10)[0], "it says nothing, and hasn't ended")
        return program.read(100)

    def test_program_begins_nothing_where_the_process_has_ended_before(self):
        """It gets a part of the text then, or nothing."""
        for text in ("", "p cnf 1 1\n", "p cnf 1 1\n1"):
            for command in (["solve", "-"], ["check", "-", os.devnull]):
                with self.subTest(text, command=command):
                    self.assertEqual(_programs.run(cubesat.find_program(), *command, text=text).returncode, 1)

    def test_system_that_sends_no_signal(self):
        with mock.patch.object(_programs.fcntl, "F_SETOWN", -1):
            self.assertEqual(cubesat.solve(ALTERNATING), [-1, 2, -3])


if __name__ == "__main__":
    unittest.main()
