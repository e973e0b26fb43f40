"""Simplification of a formula before the focused search, in the plainest form: each try looks over all
clauses. docs/DEFINITIONS.md has the rules in words. Literals are whole numbers, as in DIMACS."""

# the greatest weight of a variable that is tried, the most literals of a resolvent, and how many times
# the formula's literals are looked at
MOST_PAIRS, MOST_LITERALS, EFFORT = 100, 20, 100

# a clause that isn't there any more
GONE = (1, -1)


def has_both_signs(clause):
    return any(-literal in clause for literal in clause)


class Simplification:
    """`there` has the clauses that are there by their numbers, `clauses` those that the search begins
    with, `text` the proof's first lines, `eliminated` each variable with the clauses that held it."""

    def __init__(self, variables, clauses):
        self.given = dict(enumerate(clauses, 1))
        self.there = {number: frozenset(clause) for number, clause in self.given.items()}
        self.last, self.eliminated, self.text = len(clauses), [], []
        self.work, self.most_work = 0, EFFORT * sum(map(len, self.there.values()))
        self.drop([number for number, clause in self.there.items() if has_both_signs(clause)])
        self.waiting = {*range(1, variables + 1)}
        while (variable := self.next()) is not None:
            self.waiting.remove(variable)
            self.attempt(variable)
        self.clauses = [self.clause(number) for number in range(1, self.last + 1)]

    def clause(self, number):
        """As the formula has it, or as it was added."""
        return self.given.get(number, self.in_order(number)) if number in self.there else GONE

    def in_order(self, number):
        return sorted(self.there.get(number, ()), key=abs)

    def holding(self, literal):
        return [number for number in sorted(self.there) if literal in self.there[number]]

    def units(self, numbers):
        return [number for number in numbers if len(self.there[number]) == 1]

    def weight(self, variable):
        true, false = self.holding(variable), self.holding(-variable)
        return 0 if self.units(true + false) else len(true) * len(false)

    def next(self):
        """The variable that is tried next, or None where the steps end."""
        if frozenset() in self.there.values() or self.work >= self.most_work:
            return None
        weights = [(self.weight(it), it) for it in self.waiting]
        return min((it for it in weights if it[0] <= MOST_PAIRS), default=(0, None))[1]

    def attempt(self, variable):
        true, false = self.holding(variable), self.holding(-variable)
        left, right = true, false
        if self.units(true):
            left = self.units(true)[:1]
        elif self.units(false):
            right = self.units(false)[:1]
        pairs = [(one, other) for one in left for other in right]
        self.work += sum(len(self.there[one]) + len(self.there[other]) for one, other in pairs)
        resolvents = [((self.there[one] - {variable}) | (self.there[other] - {-variable}), one, other) for one, other in pairs]
        resolvents = [it for it in resolvents if not has_both_signs(it[0])]
        are_few = len(resolvents) <= len(true) + len(false) and all(len(it[0]) <= MOST_LITERALS for it in resolvents)
        if self.units(true + false) or are_few:
            self.eliminate(variable, true, false, resolvents)

    def eliminate(self, variable, true, false, resolvents):
        self.eliminated.append((variable, [self.there[number] for number in true]))
        for clause, one, other in resolvents:
            self.last += 1
            self.there[self.last] = clause
            self.text.append(" ".join(map(str, [self.last, *self.in_order(self.last), 0, one, other, 0])) + "\n")
        others = {abs(literal) for number in true + false for literal in self.there[number]}
        self.drop(true + false)
        self.waiting |= others - {variable}

    def drop(self, numbers):
        if numbers:
            self.text.append(f"{self.last} d {' '.join(map(str, sorted(numbers)))} 0\n")
        for number in numbers:
            del self.there[number]

    def extended(self, model):
        """A model of what is searched, as one of the formula: an eliminated variable is true where a
        clause that held it has no other true literal, from the last one to the first."""
        values = [False, *model]
        for variable, clauses in reversed(self.eliminated):
            others = [clause - {variable} for clause in clauses]
            values[variable] = any(not any(values[abs(it)] == (it > 0) for it in clause) for clause in others)
        return tuple(values[1:])
