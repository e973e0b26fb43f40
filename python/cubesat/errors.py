"""What calls of the module raise."""
from __future__ import annotations


class Error(Exception):
    """Each exception that is this module's own."""


class BadClauses(Error, ValueError):
    """What was given is no formula, or a larger one than the program reads."""


class NoProgram(Error):
    """The program isn't where it was looked for."""


class Fault(Error):
    """The program gave no answer, or it refused the proof. `line` is what it printed, and `words`, which may be empty, what it said of it in words.

    `cubesat explain` says what the numbers of the line mean, and what to change.
    """

    def __init__(self, line: str, words: str = ""):
        super().__init__("\n".join(filter(None, (line, words))))
        self.line = line
        self.words = words


class OutOfTime(Error, TimeoutError):
    """The formula wasn't decided in the seconds that it was given."""
