"""The program: where it is, how it is run, and what it said where it failed."""
from __future__ import annotations

import contextlib
import fcntl
import functools
import os
import shutil
import signal
import subprocess
import weakref
from pathlib import Path
from typing import IO, Union

from .errors import Fault, NoProgram

StrPath = Union[str, "os.PathLike[str]"]
NO_BUILD = {"CUBESAT_BUILD": "no"}


def find_program(given: StrPath | None = None) -> str:
    """The path of the program, or NoProgram.

    It is the one that is given, else the environment's CUBESAT, else the one that was installed with this module, else the one on the PATH. A name
    without a slash is looked for on the PATH. In a clone it is the one that was built there; NoProgram says how, where it wasn't, or the sources have
    changed since.
    """
    named = given or os.environ.get("CUBESAT")
    folder = Path(__file__).resolve().parent.parent
    if not named and (folder.parent / "crates.txt").exists():
        return _built_in(str(folder.parent))
    prefix = folder / "../../.." if folder.name.endswith("-packages") else folder
    wanted = [os.fspath(named)] if named else [os.path.normpath(prefix / "bin/cubesat"), "cubesat"]
    for it in wanted:
        found = shutil.which(it)
        if found is not None:
            return found
    raise NoProgram(f"no program at {wanted[0]}" + ("" if named else ", nor on the PATH; CUBESAT may name one"))


@functools.lru_cache(maxsize=None)
def _built_in(clone: str) -> str:
    """Its `bin/cubesat` knows whether the program is as the sources are, and would build it, which takes long and which nobody would see."""
    asked = run(f"{clone}/bin/cubesat", "--version", text="")
    if asked.returncode:
        raise NoProgram(asked.stderr.strip())
    return f"{clone}/crates/cubesat_program/out/cubesat_program"


class Child:
    """The program at work. `close` kills it, as does the end of a block or the last use of this object; so does the end of this process, however it ends.

    The program holds an end of a pipe, and this process the other one: where a process ends the system closes what it holds, and of that it sends the
    program a signal. No thread has a part in this. A fork of this process lets go of its copy, since the program isn't its own.

    faults: the file that its standard error goes to, which is closed with it; without one a pipe
    """

    def __init__(self, *words: str, faults: IO[bytes] | None = None):
        theirs, ours = _pipe()
        try:
            self.ran = subprocess.Popen(
                words,
                stdin=subprocess.PIPE,
                stdout=subprocess.PIPE,
                stderr=faults or subprocess.PIPE,
                bufsize=0,
                pass_fds=[theirs],
                env={**os.environ, **NO_BUILD},
                start_new_session=True,  # and so a group: a terminal's interrupt is for this process alone
            )
            _signal_end(theirs, self.ran.pid)
        except BaseException as error:
            _let_go(ours)
            if faults:
                faults.close()
            if isinstance(error, OSError):
                raise NoProgram(f"{words[0]} can't be run: {error.strerror}") from None
            raise
        finally:
            os.close(theirs)
        assert self.ran.stdin and self.ran.stdout
        self.input, self.output = self.ran.stdin, self.ran.stdout
        self._process = os.getpid()
        files = [it for it in (self.input, self.output, self.ran.stderr, faults) if it]
        self.close = weakref.finalize(self, _close, self.ran, files, ours, self._process)

    def __enter__(self) -> Child:
        return self

    def __exit__(self, *_: object) -> None:
        self.close()

    def kill(self) -> None:
        _kill(self.ran, self._process)

    def status(self) -> int:
        """The program's status, once it has ended; if it doesn't end with its input, it is killed after ten seconds."""
        self.input.close()
        try:
            return self.ran.wait(10)
        except subprocess.TimeoutExpired:
            self.kill()
            return self.ran.wait()


# Our ends of the pipes of all children.
_HELD: set[int] = set()


def _pipe() -> tuple[int, int]:
    """A pipe's ends, the child's above those that a script may use for itself."""
    low, ours = os.pipe()
    _HELD.add(ours)
    try:
        return fcntl.fcntl(low, fcntl.F_DUPFD_CLOEXEC, 10), ours
    finally:
        os.close(low)


def _close(ran: subprocess.Popen[bytes], files: list[IO[bytes]], ours: int, process: int) -> None:
    _kill(ran, process)
    if process == os.getpid():
        ran.wait()
    for file in files:
        file.close()
    _let_go(ours)


def _kill(ran: subprocess.Popen[bytes], process: int) -> None:
    """Kills the program that this process began, with what a script in its place has begun."""
    if process == os.getpid() and ran.poll() is None:
        with contextlib.suppress(ProcessLookupError):
            os.killpg(ran.pid, signal.SIGKILL)


def _let_go(end: int) -> None:
    with contextlib.suppress(KeyError):
        _HELD.remove(end)
        os.close(end)


def _let_all_go() -> None:
    for end in [*_HELD]:
        _let_go(end)


os.register_at_fork(after_in_child=_let_all_go)


def _signal_end(pipe: int, group: int) -> None:
    """Has a group of processes killed when the other end of the pipe is closed, if the system can do that, as Linux can."""
    with contextlib.suppress(OSError, AttributeError):
        fcntl.fcntl(pipe, fcntl.F_SETOWN, -group)
        fcntl.fcntl(pipe, fcntl.F_SETSIG, signal.SIGKILL)
        fcntl.fcntl(pipe, fcntl.F_SETFL, os.O_ASYNC)


def run(*words: str, text: str) -> subprocess.CompletedProcess[str]:
    """Runs the program to its end on a text, which it gets once it can't outlive this process: without the text it begins nothing."""
    with Child(*words) as child:
        answer, faults = child.ran.communicate(text.encode())
        return subprocess.CompletedProcess(words, child.ran.returncode, answer.decode(errors="replace"), faults.decode(errors="replace"))


def fault_of(ran: subprocess.CompletedProcess[str]) -> Fault:
    if ran.returncode < 0:
        return Fault(f"ended with status {ran.returncode}")
    lines = ran.stderr.splitlines()
    words = "\n".join(line[2:] for line in lines if line.startswith("c "))
    said = "\n".join(line for line in lines if not line.startswith("c ")).strip() or ran.stdout.strip()
    return Fault(said or f"ended with status {ran.returncode}", words)
