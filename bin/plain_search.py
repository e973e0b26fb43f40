"""The two searches, division by lookahead, the tree and the text of its proof, the automatic search
and its lowering of a model, in the plainest form: without watches, a heap or marks. `bin/fuzz`
compares what the program writes with it, byte for byte; docs/DEFINITIONS.md has the rules in words.
Literals are whole numbers, as in DIMACS."""
import collections

import plain_simplify

# the greatest budget of a cube
MAX_BUDGETS = {"ordered": 1_000_000, "focused": 1_000_000_000}

# the numbers of the focused search
FIRST_STEP, RESTARTING_GROWTH, STABLE_GROWTH = 65_536, 5, 20
GREATEST_STEP, DIVISOR = 2**56, 2**40
WINDOW, ABOVE, APART = 32, 35, 5
MODE_LENGTH, ROUND_LENGTH, KEPT_GLUE = 1000, 300, 3

# the budgets of the two searches, and into how many cubes the program divides a formula, where no
# number is given
ORDERED_BUDGET, FOCUSED_BUDGET = 1000, 100_000_000
DEFAULT_DIVIDE = 64
# at this conflict the first search is asked whether the formula is divisible
FIRST_CONFLICTS = 20_000
# so many conflicts may decide a formula before it is simplified
FIRST_TRIED = 1000
# so many conflicts, divided by the literals and one, an automatic search's first search has at most
FIRST_SHARE = 100_000_000
# so many variables of a cube are looked at
CANDIDATES = 32


class Entry:
    """A literal of the trail, the number of its reason or None, its level, and its place from 1 on."""

    def __init__(self, literal, reason, level, place):
        self.literal, self.reason, self.level, self.place = literal, reason, level, place


class Line:
    """A learnt clause, its hints, and the numbers of the clauses that are forgotten behind it."""

    def __init__(self, clause, hints):
        self.clause, self.hints, self.forgets = clause, hints, []


class Clauses:
    """Clauses, numbered from 1, and which literals are false. Of each clause is counted how many of its
    literals aren't false; where at most one isn't, `last` has it, or None: false and unit clauses are
    among these."""

    def __init__(self):
        self.literals, self.open = [set()], [0]
        self.having = collections.defaultdict(list)
        self.false, self.last = set(), {}

    def add(self, clause):
        """Adds a clause; its number."""
        self.literals.append({*clause})
        number = len(self.open)
        for it in self.literals[number]:
            self.having[it].append(number)
        self.open.append(len(self.literals[number] - self.false))
        if self.open[number] < 2:
            self.last[number] = self.open_one(number)
        return number

    def open_one(self, number):
        return next((it for it in self.literals[number] if it not in self.false), None)

    def falsify(self, literal):
        self.false.add(literal)
        for number in self.having[literal]:
            self.open[number] -= 1
            if self.open[number] < 2:
                self.last[number] = self.open_one(number)

    def free(self, literal):
        self.false.remove(literal)
        for number in self.having[literal]:
            self.open[number] += 1
            if self.open[number] == 1:
                self.last[number] = literal
            elif self.open[number] == 2:
                del self.last[number]

    def forget(self, numbers):
        """A forgotten clause keeps its number, and is never false or unit again."""
        for literal, having in self.having.items():
            self.having[literal] = [it for it in having if it not in numbers]
        for number in numbers:
            self.literals[number] = {1, -1}
            self.last.pop(number, None)

    def conflict(self):
        """The least number of a false clause, or None."""
        return min((number for number, literal in self.last.items() if literal is None), default=None)

    def units(self):
        """The number of each unit clause, with its literal that isn't false; where no clause is false."""
        return [(number, literal) for number, literal in self.last.items() if -literal not in self.false]


class Trail:
    """The clauses, and a trail that begins with a cube; propagation, and learning from a conflict."""

    def __init__(self, variables, clauses, cube):
        self.variables, self.first = variables, len(clauses)
        self.clauses = Clauses()
        for it in clauses:
            self.clauses.add(it)
        self.trail, self.entry = [], {}
        for it in cube:
            self.push(it, None, 0)

    def push(self, literal, reason, level):
        self.trail.append(Entry(literal, reason, level, len(self.trail) + 1))
        self.entry[abs(literal)] = self.trail[-1]
        self.clauses.falsify(-literal)

    def back_to(self, level):
        while self.level() > level:
            literal = self.trail.pop().literal
            del self.entry[abs(literal)]
            self.clauses.free(-literal)

    def level(self):
        return self.trail[-1].level if self.trail else 0

    def level_of(self, literal):
        return self.entry[abs(literal)].level

    def free_variables(self):
        return (it for it in range(1, self.variables + 1) if it not in self.entry)

    def held_variables(self):
        """Those that stand in a first clause without both signs of a variable."""
        clauses = (it for it in self.clauses.literals[1 : self.first + 1] if not any(-literal in it for literal in it))
        return sorted({abs(literal) for it in clauses for literal in it})

    def propagate(self):
        """The number of the first false clause, or None where no clause is false or unit."""
        while True:
            conflict = self.clauses.conflict()
            units = [] if conflict else self.clauses.units()
            if not units:
                return conflict
            number, literal = min(units, key=self.turn)
            self.push(literal, number, self.level())

    def turn(self, unit):
        """By place: the place of the last false literal, and the number."""
        number, literal = unit
        return max((self.entry[abs(it)].place for it in self.clauses.literals[number] if it != literal), default=0), number

    def resolve(self, conflict, entries, removable=frozenset()):
        """Resolution from the conflict back over these entries of the trail: on those of level 0, on
        those whose negation is removable, and on those of the current level while two literals of it
        are left. The set that is left, and the numbers of the clauses, as their entries stand."""
        current = self.level()
        left, clauses = {*self.clauses.literals[conflict]}, [conflict]
        for entry in reversed(entries):
            if -entry.literal not in left or entry.reason is None:
                continue
            of_level = sum(self.level_of(it) == current for it in left)
            if entry.level == 0 or -entry.literal in removable or (entry.level == current and of_level >= 2):
                left = (left - {-entry.literal}) | (self.clauses.literals[entry.reason] - {entry.literal})
                clauses.insert(0, entry.reason)
        return left, clauses

    def learn(self, conflict, removable=frozenset()):
        """The line of a conflict: the first unique implication point's clause, without what is removable
        and without the cube's literals, by rising variable; and the hints."""
        left, hints = self.resolve(conflict, self.trail, removable)
        return Line(sorted((it for it in left if self.level_of(it) > 0), key=abs), hints)

    def settle(self):
        """The lines of the units of a trail of level 0: each entry whose reason has other literals too
        gets a clause of its literal alone as its reason. The hints are the reasons of what makes those
        others false, as their entries stand, and the reason."""
        lines = []
        for entry in self.trail:
            others = self.clauses.literals[entry.reason] - {entry.literal} if entry.reason else set()
            if others:
                against = [it.reason for it in self.trail if it.reason and -it.literal in others]
                lines.append(Line([entry.literal], [*against, entry.reason]))
                entry.reason = self.clauses.add([entry.literal])
        return lines


class Search(Trail):
    """The search in one cube. `outcome` is ('model', literals), ('refuted', lines) or ('exhausted',
    variable), and maybe ('divisible', None) of a first search."""

    def __init__(self, variables, clauses, cube, budget):
        super().__init__(variables, clauses, cube)
        self.lines, self.decisions, self.conflicts, self.outcome = [], 0, 0, None
        # the conflicts above level 0 that were learnt from
        self.counted = 0
        self.counts = collections.Counter()
        self.begin()
        while self.outcome is None:
            self.step(budget)

    def step(self, budget):
        conflict = self.propagate()
        self.end_propagation()
        if conflict is None:
            literal = self.decision()
            if literal is None:
                self.outcome = ("model", [it.literal for it in self.trail])
            else:
                self.push(literal, None, self.level() + 1)
                self.decisions += 1
            return
        self.conflicts += 1
        if self.level() == 0:
            self.outcome = ("refuted", [*self.lines, self.learn(conflict)])
        elif self.is_divisible_at(self.counted + 1, budget):
            self.outcome = ("divisible", None)
        elif self.counted + 1 == budget:
            self.outcome = ("exhausted", self.splits_on())
        else:
            self.counted += 1
            self.learn_from(conflict)

    def end_propagation(self):
        pass

    def is_divisible_at(self, conflicts, budget):
        return False

    def back_level(self, clause):
        return max((self.level_of(it) for it in clause if self.level_of(it) != self.level()), default=0)


class Ordered(Search):
    """It decides the least free variable to be false, and forgets nothing."""

    def begin(self):
        self.decided = None

    def turn(self, unit):
        return unit[0]

    def decision(self):
        free = next(self.free_variables(), None)
        self.decided = self.decided or free
        return free and -free

    def splits_on(self):
        return self.decided

    def learn_from(self, conflict):
        self.lines.append(self.learn(conflict))
        clause = self.lines[-1].clause
        self.back_to(self.back_level(clause))
        self.clauses.add(clause)


class Focused(Search):
    """It decides the held variables that gained most in conflicts, in two modes, learns shorter lines, and one
    for each unit of level 0, restarts, and forgets learnt clauses in rounds. `counts` says how often it
    does what."""

    def begin(self):
        self.is_stable, self.mode_length, self.mode_end = False, MODE_LENGTH, MODE_LENGTH
        # of the stable modes
        self.stable_decisions, self.stable_conflicts = 0, 0
        self.score_step, self.scores = FIRST_STEP, [0] * (self.variables + 1)
        self.saved = [True] * (self.variables + 1)
        # of each line, where that of a unit is 0, and of those of the restarting modes
        self.glues, self.mode_glues, self.restarted = [], [], 0
        # among which it chooses
        self.held = self.held_variables()
        # the numbers of the clauses used since the last round
        self.used = set()
        self.round, self.round_end = 1, ROUND_LENGTH

    def best(self, variables):
        return max(variables, key=lambda it: (self.scores[it], it), default=None)

    def decision(self):
        best = self.best(it for it in self.held if it not in self.entry)
        if best is None:
            return None
        self.stable_decisions += self.is_stable
        return best if self.saved[best] else -best

    def splits_on(self):
        return self.best(it for it in self.held if it not in self.entry or self.level_of(it) > 0)

    def end_propagation(self):
        if self.level() == 0:
            units = self.settle()
            self.lines += units
            self.glues += [0] * len(units)
            self.counts["units"] += len(units)

    def learn_from(self, conflict):
        left, resolved = self.resolve(conflict, [it for it in self.trail if it.level == self.level()])
        removable = self.removable(left)
        self.lines.append(self.learn(conflict, removable))
        clause = self.lines[-1].clause
        self.counts["removed literals"] += len(left & removable)
        glue, back = len({self.level_of(it) for it in clause}), self.back_level(clause)
        self.used.update(resolved)
        self.gain(self.seen(resolved, clause))
        for entry in self.trail:
            self.saved[abs(entry.literal)] = entry.literal > 0
        self.stable_conflicts += self.is_stable
        self.go_back(glue, back)
        self.glues.append(glue)
        self.used.add(self.clauses.add(clause))

    def removable(self, left):
        """Of entries between level 0 and the current one the negation is removable where each other
        literal of the reason is of level 0, in the set that is left at the current level, or removable."""
        removable = set()
        for entry in self.trail:
            if 0 < entry.level < self.level() and entry.reason is not None:
                others = self.clauses.literals[entry.reason] - {entry.literal}
                if all(self.level_of(it) == 0 or it in left or it in removable for it in others):
                    removable.add(-entry.literal)
        return removable

    def seen(self, resolved, clause):
        """The variables above level 0 in a clause that was resolved at the current level, or in the
        reason of an entry whose negation the line has."""
        against = [self.entry[abs(it)].reason for it in clause]
        numbers = [*resolved, *(it for it in against if it is not None)]
        return {abs(it) for number in numbers for it in self.clauses.literals[number] if self.level_of(it) > 0}

    def gain(self, seen):
        """The variables seen gain a step, and the step grows, faster in a restarting mode."""
        for it in seen:
            self.scores[it] += self.score_step
        self.score_step += self.score_step // (STABLE_GROWTH if self.is_stable else RESTARTING_GROWTH)
        if self.score_step >= GREATEST_STEP:
            self.score_step //= DIVISOR
            self.scores = [it // DIVISOR for it in self.scores]
            self.counts["divisions of scores"] += 1

    def go_back(self, glue, back):
        """To level 0 where the round ends or it restarts, and else to the line's level."""
        is_over, restarts = self.counted >= self.round_end, self.restarts_at(glue)
        if is_over or restarts:
            back, self.restarted = 0, self.counted
        self.counts["restarts"] += restarts
        self.back_to(back)
        if is_over:
            self.end_round()

    def restarts_at(self, glue):
        """Whether the mean of the recent glues of restarting modes, of which this is the last, is above
        35/32 of the mean of all, and the last restart or end of a round is some conflicts ago."""
        if self.is_stable:
            return False
        self.mode_glues.append(glue)
        recent, all_glues = self.mode_glues[-WINDOW:], self.mode_glues
        return (self.counted >= self.restarted + APART and len(recent) == WINDOW
                and sum(recent) * len(all_glues) > sum(all_glues) * ABOVE)

    def end_round(self):
        self.forget()
        self.rephase()
        self.counts["rounds"] += 1
        self.round += 1
        self.round_end = self.counted + ROUND_LENGTH * self.round
        if self.counted >= self.mode_end:
            self.is_stable = not self.is_stable
            self.mode_length *= 2
            self.mode_end = self.counted + self.mode_length
            self.counts["changes of mode"] += 1

    def forget(self):
        """Of the learnt clauses that weren't used since the last round, have too great a glue and are no
        reasons, all but the better quarter are forgotten, behind the last line."""
        kept = self.used | {it.reason for it in self.trail}
        learnt = enumerate(self.glues, self.first + 1)
        may_go = [(glue, len(self.clauses.literals[it]), -it) for it, glue in learnt
                  if glue > KEPT_GLUE and self.clauses.literals[it] != {1, -1} and it not in kept]
        late = {-it for _, _, it in sorted(may_go)[len(may_go) // 4:]}
        self.clauses.forget(late)
        self.lines[-1].forgets = sorted(late)
        self.used = set()
        self.counts["forgotten clauses"] += len(late)

    def rephase(self):
        """All saved values become true, in the next round the other ones, then false, and so on."""
        kind = self.round % 3
        self.saved = [kind == 1 or (kind == 2 and not it) for it in self.saved]
        self.counts["rephasings to " + ("false", "true", "other values")[kind]] += 1


class First(Focused):
    """The focused search of the cube without literals, where the formula is divided if it is divisible."""

    def is_divisible_at(self, conflicts, budget):
        """Whether this is the conflict at which the search is asked, and its stable modes decided less
        than five literals for four conflicts, of which this may be one. Decisions that were taken back
        count too."""
        stable = self.stable_conflicts + self.is_stable
        return conflicts == min(FIRST_CONFLICTS, budget) and 4 * self.stable_decisions < 5 * stable


class Look(Trail):
    """A look at a cube in place of its search. Nothing but units is learnt, and there is no budget;
    `outcome` is like a search's."""

    def __init__(self, variables, clauses, cube):
        super().__init__(variables, clauses, cube)
        conflict = self.propagate()
        free = [it for it in self.held_variables() if it not in self.entry]
        if conflict:
            self.outcome = ("refuted", [*self.settle(), self.learn(conflict)])
        elif not free:
            self.outcome = ("model", [it.literal for it in self.trail])
        else:
            self.outcome = ("exhausted", self.splits_on(self.candidates(free)))

    def candidates(self, free):
        """The first of the held variables that are free: those in many clauses with each sign, and of equal ones the greatest."""
        one_signed = [it for it in self.clauses.literals if not any(-literal in it for literal in it)]
        count = collections.Counter(literal for it in one_signed for literal in it)
        return sorted(free, key=lambda it: ((count[it] + 1) * (count[-it] + 1), it), reverse=True)[:CANDIDATES]

    def splits_on(self, candidates):
        """The first candidate of which a literal fails, or else the first that is worth most."""
        worths = {}
        for it in candidates:
            a, b = self.brings(-it), self.brings(it)
            if a is None or b is None:
                return it
            worths[it] = 1024 * a * b + a + b
        return max(candidates, key=worths.get)

    def brings(self, literal):
        """How many entries its level has where the literal is decided, or None where a clause is false."""
        self.push(literal, None, 1)
        conflict = self.propagate()
        count = sum(it.level == 1 for it in self.trail)
        self.back_to(0)
        return None if conflict else count


SEARCHES = {"ordered": Ordered, "focused": Focused}


class Satisfied(Exception):
    """A cube has a model, whose literals these are."""


def budget_of(budget, search, cube):
    return min(budget * (len(cube) + 1), MAX_BUDGETS[search])


def pure_units(variables, clauses):
    """The unit clauses of the pure variables."""
    positive = {it for clause in clauses for it in clause if it > 0}
    return [[-it] for it in range(1, variables + 1) if it not in positive]


def first_clauses(variables, clauses, search):
    """The clauses that a search begins with: those of the formula, and for the ordered search the units
    of its pure variables."""
    return [*clauses, *(pure_units(variables, clauses) if search == "ordered" else [])]


def values_of(variables, literals):
    """The values of the variables; those without a literal are false."""
    true = {*literals}
    return tuple(it in true for it in range(1, variables + 1))


def first_tried(variables, clauses, budget):
    """The focused search, undivided, that says by a few conflicts whether the formula is simplified."""
    first = min(FIRST_TRIED, budget)
    return Focused(variables, clauses, [], budget_of(first, "focused", []))


class Tree:
    """The tree of cubes and its proof, up to the first cube from the left that has a model. `model` is
    the values of the variables, or None; `proof` is empty where there is a model; `is_divided` says
    whether cubes were looked at; `simplification` is that of the formula, or None where it isn't
    simplified. The ordered search divides no formula, and simplifies none."""

    def __init__(self, variables, clauses, budget, search, divide, simplify=True):
        self.variables, self.budget, self.search = variables, budget, search
        self.divide = divide if search == "focused" else 0
        self.is_divided = False
        self.simplification, self.searched = None, []
        if simplify and search == "focused":
            tried = first_tried(variables, clauses, budget)
            if tried.outcome[0] == "exhausted":
                self.simplification = plain_simplify.Simplification(variables, clauses)
                self.searched = [tried]
        self.begin(clauses)
        self.last = len(self.clauses)
        try:
            self.cube([])
            self.model, self.proof = None, "".join(self.text)
        except Satisfied as satisfied:
            self.model, self.proof = self.extended(values_of(variables, satisfied.args[0])), ""

    def begin(self, clauses):
        """What the search begins with, and the proof's first lines."""
        if self.simplification:
            self.clauses, self.text = self.simplification.clauses, [*self.simplification.text]
            return
        self.clauses = first_clauses(self.variables, clauses, self.search)
        self.text = [f"{at} {unit[0]} 0 0\n" for at, unit in enumerate(self.clauses, 1) if at > len(clauses)]

    def extended(self, model):
        return self.simplification.extended(model) if self.simplification else model

    def add(self, literals, hints):
        self.last += 1
        self.text.append(" ".join(map(str, [self.last, *literals, 0, *hints, 0])) + "\n")

    def delete(self, numbers):
        if numbers:
            self.text.append(f"{self.last} d {' '.join(map(str, numbers))} 0\n")

    def outcome(self, cube):
        """The outcome of a cube: by its search, or where the formula is divided and there are fewer cubes
        of its size than are wanted, by a look."""
        if self.is_divided and 2 ** len(cube) < self.divide:
            return Look(self.variables, self.clauses, cube).outcome
        search = First if not cube and self.divide >= 2 else SEARCHES[self.search]
        self.searched.append(search(self.variables, self.clauses, cube, budget_of(self.budget, self.search, cube)))
        if self.searched[-1].outcome[0] == "divisible":
            self.is_divided = True
            return self.outcome(cube)
        return self.searched[-1].outcome

    def cube(self, cube):
        """The lines of a cube's tree; the number of the last addition."""
        denied = [-it for it in cube]
        kind, found = self.outcome(cube)
        if kind == "model":
            raise Satisfied(found)
        if kind == "exhausted":
            left, right = self.cube([*cube, -found]), self.cube([*cube, found])
            self.add(denied, [left, right])
            self.delete([left, right] if cube else [])
        else:
            self.refuted(cube, denied, found)
        return self.last

    def refuted(self, cube, denied, lines):
        """The lines of a refuted cube. What one forgets is deleted behind it, and what is left but for
        the last one behind that, unless the proof ends there."""
        moved, left = self.last - len(self.clauses), set()
        for line in lines:
            self.add([*line.clause, *denied], [it if it <= len(self.clauses) else it + moved for it in line.hints])
            forgets = [it + moved for it in line.forgets]
            self.delete(forgets)
            left.add(self.last)
            left.difference_update(forgets)
        self.delete(sorted(left - {self.last}) if cube else [])


class Lowering:
    """From a model to the first one. `model` is the first model; `refuted` is how many questions have
    none, whichever models the others find."""

    def __init__(self, variables, clauses, model):
        self.variables, self.clauses = variables, clauses
        self.units = pure_units(variables, clauses)
        self.model, self.refuted = self.with_units(model), 0
        prefix = []
        for it in range(1, variables + 1):
            if not self.follows(prefix, it):
                prefix.append(it if self.model[it - 1] and not self.lowers([*prefix, -it]) else -it)

    def follows(self, prefix, variable):
        """Whether the variable has a value once propagation from the prefix has come to rest."""
        trail = Trail(self.variables, [*self.clauses, *self.units], prefix)
        trail.propagate()
        return variable in trail.entry

    def with_units(self, model):
        """The model where the pure variables are false."""
        return model and tuple(value and [-it] not in self.units for it, value in enumerate(model, 1))

    def lowers(self, cube):
        """A question: whether there is a model in the cube, which then is the one at hand."""
        kind, found = Focused(self.variables, self.clauses, cube, FOCUSED_BUDGET).outcome
        if kind != "model":
            self.refuted += 1
            return False
        self.model = self.with_units(values_of(self.variables, found))
        return True


class Automatic:
    """The automatic search: the ordered search of the cube without literals with so many conflicts,
    and where they are used up the focused search by this plan. `tree` is that of the plan that
    decides, `lowering` that of its model, or None where there is no lowering."""

    def __init__(self, variables, clauses, first, divide, is_any_model, budget=FOCUSED_BUDGET, simplify=True):
        first = max(1, min(first, FIRST_SHARE // (sum(map(len, clauses)) + 1)))
        self.first = Ordered(variables, first_clauses(variables, clauses, "ordered"), [], first)
        self.is_decided = self.first.outcome[0] != "exhausted"
        plan = (first, "ordered", 0) if self.is_decided else (budget, "focused", divide)
        self.tree = Tree(variables, clauses, *plan, simplify)
        self.model, self.proof = self.tree.model, self.tree.proof
        self.is_divided, self.searched, self.lowering = self.tree.is_divided, self.tree.searched, None
        self.simplification = self.tree.simplification
        if not (self.is_decided or self.model is None or is_any_model):
            self.lowering = Lowering(variables, clauses, self.model)
            self.model = self.lowering.model
