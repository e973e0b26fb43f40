"""What bin/wrong reads: which function's body an edit is in, which functions call one another, and what the prover said of each."""
import collections
import glob
import re

Function = collections.namedtuple("Function", "file owner name is_const first body last")
Verdict = collections.namedtuple("Verdict", "word told")
REFUSED, PASSED, NAME_ONLY, ERROR = "refused", "LET THROUGH", "NAME ONLY", "ERROR"
# How the prover's line on a function begins that fails by itself, and not for a function that it
# calls.
FAILED = ("not proved", "no proof: expected")
CONTRACT = "its contract"
HEAD = re.compile(r"( *)(?:pub(?:\([^)]*\))? )?(const )?(?:unsafe )?fn (\w+)")
# Errors in a proof that names what the edit took away, and in what rests on that proof.
OF_NAMES = re.compile(r"has no field|is not in scope|has no `|was not admitted")


def functions_in(file, text):
    """The functions of a file in the layout of `rt fmt`, with their lines, counted from 0: the first one, the body's first, the last one."""
    lines, owner, found = text.split("\n"), "", []
    for first, line in enumerate(lines):
        block = re.match(r"impl\b(?:<[^{]*?>)? ?(.*) \{$", line)
        owner = block[1] if block else "" if line == "}" else owner
        head = HEAD.match(line)
        if head:
            indent, is_const, name = head.groups()
            # (what is written at the function's own indentation is its head's end, its body's
            # braces, or past it)
            own = (at for at in range(first, len(lines)) if lines[at][: len(indent) + 1].strip() and lines[at].startswith(indent))
            body = next((at for at in own if lines[at].endswith(("{", "}", ";"))), first)
            # (a trait's method without a body may be the file's last one)
            ends = (at for at in range(body, len(lines)) if lines[at].startswith(indent) and lines[at].endswith(("}", ";")) and lines[at][len(indent)] != " ")
            last = next(ends, body)
            found.append(Function(file, owner if indent else "", name, bool(is_const), first, body, last))
    return found


class Source:
    """The functions of a crate."""

    def __init__(self, crate):
        self.crate, self.texts = crate, {}
        for path in sorted(glob.glob(f"{crate.folder}/src/**/*.rt", recursive=True)):
            with open(path, encoding="utf-8") as file:
                self.texts[path[len(crate.folder) + 1 :]] = file.read()
        self.functions = [it for file, text in self.texts.items() for it in functions_in(file, text)]

    def function_of(self, text):
        """The function whose body has all the places that the edit changes, if it is of one body alone."""
        found, file = set(), ""
        for line in text.split("\n"):
            if line.startswith("file: "):
                file = line[len("file: ") :].strip()
            elif line.startswith("old: "):
                at = self.texts.get(file, "").split(line[len("old: ") :])[0].count("\n")
                found.add(next((it for it in self.functions if it.file == file and it.body < at < it.last), None))
        only = found.pop() if len(found) == 1 else None
        return only if only and not only.is_const else None

    def name_of(self, function, names):
        """The prover's name of a function, if just one fits. A method has its type's module in it, wherever its impl stands; an impl of a trait has
        another name."""
        module = re.sub(r"^src/|(?:^|/)(?:lib|main|mod)$", "", function.file[: -len(".rt")]).replace("/", "::")
        owner = re.sub(r"<.*", "", function.owner)
        exact = "::".join(it for it in (self.crate.name, module, owner, function.name) if it)
        ends = f"::{owner}::{function.name}"
        found = [it for it in names if it == exact] or [it for it in names if owner and it.endswith(ends)]
        return found[0] if len(found) == 1 else None

    def callees(self, function):
        """The functions that this one may call: those whose names stand in it."""
        words = {*re.findall(r"\w+", "\n".join(self.texts[function.file].split("\n")[function.body : function.last]))}
        return [it for it in self.functions if it.name in words and it != function]

    def reached(self, function):
        found, left = set(), [function]
        while left:
            for it in self.callees(left.pop()):
                if it not in found:
                    found.add(it)
                    left.append(it)
        return found

    def groups(self, edits, most):
        """The edits in groups of at most so many, in which each is of another function and none of these can call another one."""
        reached = {it.function: self.reached(it.function) for it in edits}
        apart = lambda a, b: a != b and a not in reached[b] and b not in reached[a]
        made = []
        for edit in edits:
            fits = (it for it in made if len(it) < most and all(apart(edit.function, other.function) for other in it))
            group = next(fits, None)
            if group is None:
                group = []
                made.append(group)
            group.append(edit)
        return made


def merged(source, edits):
    """The files' texts with several edits, each of another function, in place."""
    texts = {}
    for edit in edits:
        for file, text in edit.texts.items():
            rows = texts.setdefault(file, source.texts[file].split("\n"))
            new, function = text.split("\n"), edit.function
            # (an edit that takes lines in or out would move the ones below it)
            if len(new) != len(rows):
                return None
            rows[function.first : function.last + 1] = new[function.first : function.last + 1]
    return {file: "\n".join(rows) for file, rows in texts.items()}


class Said:
    """What the prover said of a check with some edits in place."""

    def __init__(self, ran):
        self.lines, self.status = ran.stdout.rstrip("\n").split("\n"), ran.returncode

    def of(self, name, function):
        """The verdict on an edit of a function: None where this check doesn't tell, as it was proved, or not tried since a function that it calls failed."""
        said = next((it for it in self.lines if it.startswith(f"fn {name}: ")), "").partition(f"fn {name}: ")[2]
        if self.status != 1 or not self.lines[-1].startswith("only=") or not said.startswith(FAILED):
            return None
        goals = goals_missed(said) + self.goals_open(function) + self.goals_refused(name)
        return refused_at(name, goals) if goals else None

    def of_whole(self, kit, texts):
        """The verdict on an edit of anything, by a check of the whole crate. It was refused for what it means just where a goal was."""
        bad = next((it for it in self.lines if kit.unread(it, texts)), "")
        if bad or any(kit.rtlib.STALE.search(it) for it in self.lines):
            return Verdict(ERROR, f"it can't be read: {bad[:200]}")
        if self.status == 0:
            return Verdict(PASSED, "the crate is still proved")
        if self.status != 1 or not self.lines[-1].startswith("logic=not-proved"):
            return Verdict(ERROR, f"the prover came to no verdict: {self.lines[-1][:200]}")
        failed = [it.groups() for it in map(re.compile(rf"\w+ (\S+): ((?:{'|'.join(FAILED)}).*)").match, self.lines) if it]
        for name, said in failed:
            goals = goals_missed(said) + self.goals_refused(name)
            if goals:
                return refused_at(name, goals)
        open_goals = self.goals_open(None)
        return refused_at(failed[0][0], open_goals) if failed and open_goals else Verdict(NAME_ONLY, " ".join(failed[0])[:200] if failed else "")

    def goals_open(self, function):
        """The goals that nothing proved, which the prover names by their places in the code."""
        found = [it for it in map(re.compile(r"note: (?:\./)?(\S+):(\d+):\d+: it is not proved .*?\(`([^`]+)`").match, self.lines) if it]
        inside = lambda it: it[1] == function.file and function.first < int(it[2]) <= function.last + 1
        return [it[3] for it in found if not function or inside(it)]

    def goals_refused(self, name):
        """The goals whose answers were refused, other than those that speak of a name that is gone. The folder of
        a function that calls itself begins with a plus sign."""
        *above, last = map(re.escape, name.split("::")[1:])
        folder = "/".join([*above, rf"\+?{last}"])
        errors = [it for it in self.lines if re.match(rf"(?:\./)?proofs/{folder}/\w+\.antt:\d+:\d+: error: ", it) and not OF_NAMES.search(it)]
        found = [re.match(r"`([^`]+)`", it.partition(": error: ")[2]) for it in errors]
        return [it[1] for it in found if it]


def goals_missed(said):
    return re.findall(r"`([^`]+)`", said.partition("did not prove")[2].partition(";")[0])


def refused_at(name, goals):
    """A refusal, with the goal that says most: one of a contract, if there is one."""
    kinds = [(kind_of(it), it) for it in goals]
    kind, goal = next((it for it in kinds if it[0] == CONTRACT), kinds[0])
    return Verdict(REFUSED, f"{name}, at {goal} ({kind})")


def kind_of(goal):
    """What a goal belongs to, by its name."""
    if goal.startswith("returns"):
        return CONTRACT
    if goal.startswith("loop"):
        return "a loop's invariant"
    return "a struct's invariant" if goal.startswith("invariant_of") else "what a step asks"
