"""What scripts take of Rattle's kit: its reading of crates.txt and of edits, and its checks of copies of a crate."""
import contextlib
import importlib.machinery
import importlib.util
import os
import shutil
import sys
import tempfile

sys.dont_write_bytecode = True
ROOT = os.path.dirname(os.path.dirname(os.path.realpath(__file__)))


def load():
    """The command `rt` as a module. It loads the kit's library, which knows the crates and the prover's words."""
    found = shutil.which("rt")
    if not found:
        sys.exit("there is no rt on the PATH: README.md says where it comes from")
    loader = importlib.machinery.SourceFileLoader("rt", os.path.realpath(found))
    made = importlib.util.module_from_spec(importlib.util.spec_from_loader("rt", loader))
    loader.exec_module(made)
    made.rtlib.guarded()
    return made


rt = load()


def crates_named(names):
    """The repository's crates of these names, or all of them, the lowest first."""
    crates = sorted(rt.rtlib.crates_below(ROOT), key=lambda it: len(it.below()))
    unknown = sorted({*names} - {it.name for it in crates})
    if unknown:
        sys.exit(f"crates.txt names no crate {unknown[0]}")
    return [it for it in crates if not names or it.name in names]


def sums_of(crates):
    """The kit's sum of all that each crate is made from. By itself the kit reads a crate anew on each way that leads down to it: over two minutes for all
    crates of the program (2026-12-01)."""
    sums, sum_of = {}, rt.rtlib.Crate.stamp
    rt.rtlib.Crate.stamp = lambda crate: sums.get(crate.name) or sums.setdefault(crate.name, sum_of(crate))
    try:
        return {it.name: it.stamp() for it in crates}
    finally:
        rt.rtlib.Crate.stamp = sum_of


@contextlib.contextmanager
def kept_copy(crate):
    """A copy of what checks of the crate kept, whose files are links: the prover never writes into a file that stands, it puts a new one in its
    place. Only the one that says when the work was last used is written where it stands."""
    with tempfile.TemporaryDirectory(prefix="kept-", dir=f"{crate.folder}/out") as room:
        shutil.copytree(f"{crate.folder}/out/incremental", f"{room}/kept", copy_function=link_or_copy)
        yield f"{room}/kept"


def link_or_copy(source, to):
    if os.path.basename(source) == "rattle-last-used":
        return shutil.copy2(source, to)
    return os.link(source, to)
