"""Formulas of verification, made without chance: machines, protocols and programs that are compared, or
that never break a rule in so many steps. A formula is a number of variables and a list of clauses."""
import os
import sys

sys.dont_write_bytecode = True
sys.path.insert(0, f"{os.path.dirname(os.path.dirname(os.path.realpath(__file__)))}/examples")
import circuits  # noqa: E402


class System(circuits.Circuit):
    """Circuits over words, which are lists of literals, the lowest bit first."""

    def __init__(self):
        super().__init__()
        self.false, self.inputs = self.var("false"), 0
        self.add(-self.false)

    def input(self):
        self.inputs += 1
        return self.var("input", self.inputs)

    def word(self, bits):
        return [self.input() for _ in range(bits)]

    def all_of(self, literals):
        out = -self.false
        for it in literals:
            out = self.gate("and", out, it)
        return out

    def any_of(self, literals):
        return -self.all_of([-it for it in literals])

    def chosen(self, choice, one, other):
        return self.gate("or", self.gate("and", choice, one), self.gate("and", -choice, other))

    def choose(self, choice, one, other):
        return [self.chosen(choice, x, y) for x, y in zip(one, other)]

    def differ(self, one, other):
        return self.any_of([self.gate("xor", x, y) for x, y in zip(one, other)])

    def decoded(self, address):
        """Of each number that the address may have, whether it has it."""
        rows = [-self.false]
        for bit in address:
            rows = [*(self.gate("and", it, -bit) for it in rows), *(self.gate("and", it, bit) for it in rows)]
        return rows

    def read(self, rows, address):
        """The word in the row of this address."""
        for bit in address:
            rows = [self.choose(bit, one, other) for one, other in zip(rows[1::2], rows[::2])]
        return rows[0]

    def written(self, rows, selected, word):
        return [self.choose(it, word, row) for it, row in zip(selected, rows)]

    def next_of(self, word, counts):
        """The word, one higher where it counts."""
        out, carry = [], counts
        for bit in word:
            out.append(self.gate("xor", bit, carry))
            carry = self.gate("and", bit, carry)
        return out

    def below(self, one, other):
        """Whether one number is less than another."""
        out = self.false
        for x, y in zip(one, other):
            out = self.chosen(self.gate("xor", x, y), y, out)
        return out

    def ever(self, literals):
        """The formula that asks for inputs by which one of these comes to be."""
        self.add(*literals)
        return len(self.numbers), self.clauses


def queues(address, bits, steps):
    """A queue as a shift register has the same head as one as a ring with two pointers, whatever is put
    in and taken out."""
    system, size = System(), 1 << address
    false = system.false
    shifted, ring = ([[false] * bits for _ in range(size)] for _ in range(2))
    full, first, last, wrong = [false] * size, [false] * address, [false] * address, []
    for _ in range(steps):
        put, take, word = system.input(), system.input(), system.word(bits)
        system.add(-put, -full[-1])
        system.add(-take, full[0])
        wrong.append(system.gate("and", full[0], system.differ(shifted[0], system.read(ring, first))))
        left = system.choose(take, [*full[1:], false], full)
        shifted = [system.choose(take, behind, row) for row, behind in zip(shifted, [*shifted[1:], [false] * bits])]
        comes = [system.gate("and", put, system.gate("and", before, -it)) for before, it in zip([-false, *left], left)]
        shifted = system.written(shifted, comes, word)
        full = [system.gate("or", it, new) for it, new in zip(left, comes)]
        ring = system.written(ring, [system.gate("and", put, it) for it in system.decoded(last)], word)
        first, last = system.next_of(first, take), system.next_of(last, put)
    return system.ever(wrong)


def pipelines(address, bits, steps):
    """Registers to which sums and exclusive ors of others are written, one instruction after the other or
    with the result handed on while the next operands are read, are the same in the end."""
    system = System()
    plain = [system.word(bits) for _ in range(1 << address)]
    piped, waiting = plain, None

    def result(is_sum, one, other):
        sums = circuits.ripple(system, one, other)[:bits]
        return system.choose(is_sum, sums, [system.gate("xor", x, y) for x, y in zip(one, other)])

    for _ in range(steps):
        is_sum, to, sources = system.input(), system.word(address), [system.word(address), system.word(address)]
        plain = system.written(plain, system.decoded(to), result(is_sum, *(system.read(plain, it) for it in sources)))
        operands = [system.read(piped, it) for it in sources]
        if waiting:
            where, word = waiting
            operands = [system.choose(-system.differ(it, where), word, row) for it, row in zip(sources, operands)]
            piped = system.written(piped, system.decoded(where), word)
        waiting = to, result(is_sum, *operands)
    piped = system.written(piped, system.decoded(waiting[0]), waiting[1])
    return system.ever([system.differ(one, other) for one, other in zip(plain, piped)])


def caches(address, bits, steps):
    """What a cache reads of a word is what was written last by any, where a cache is invalid, shares the
    word, or has changed it alone (MSI), and each step one reads, writes or gives it up."""
    system, count = System(), 1 << address
    false = system.false
    shares, changed = [false] * count, [false] * count
    copies, memory = [[false] * bits for _ in range(count)], [false] * bits
    latest, wrong = memory, []
    for _ in range(steps):
        acts, writes, drops, word = system.decoded(system.word(address)), system.input(), system.input(), system.word(bits)
        system.add(-writes, -drops)
        reads = system.gate("and", -writes, -drops)
        # who has changed the word writes it back, unless it goes on with it
        for it, act, copy in zip(changed, acts, copies):
            leaves = system.gate("and", it, system.chosen(act, drops, -drops))
            memory = system.choose(leaves, copy, memory)
        has = [system.gate("or", one, other) for one, other in zip(shares, changed)]
        filled = system.choose(system.any_of([system.gate("and", act, it) for act, it in zip(acts, has)]), [false] * bits, memory)
        seen = [false] * bits
        for act, it, copy in zip(acts, has, copies):
            own = system.gate("and", act, it)
            seen = [system.gate("or", bit, system.gate("and", own, of)) for bit, of in zip(seen, copy)]
        seen = [system.gate("or", one, other) for one, other in zip(seen, filled)]
        wrong.append(system.gate("and", reads, system.differ(seen, latest)))
        after = system.choose(writes, word, seen)
        acting = [system.gate("and", act, -drops) for act in acts]
        copies = system.written(copies, acting, after)
        latest = system.choose(writes, word, latest)
        keeps = [system.gate("and", act, system.gate("and", it, reads)) for act, it in zip(acts, changed)]
        changed = [
            system.gate("or", system.gate("and", act, writes), system.gate("or", keep, system.gate("and", system.gate("and", -act, it), drops)))
            for act, keep, it in zip(acts, keeps, changed)
        ]
        stays = [system.gate("and", -act, system.gate("and", it, -writes)) for act, it in zip(acts, has)]
        shares = [
            system.gate("and", -now, system.gate("or", stay, system.gate("and", act, reads))) for now, stay, act in zip(changed, stays, acts)
        ]
    return system.ever(wrong)


def sorts(count, bits):
    """Numbers sorted by exchanges of neighbours are those sorted by inserting one after the other."""
    system = System()

    def exchanged(one, other):
        is_less = system.below(other, one)
        return system.choose(is_less, other, one), system.choose(is_less, one, other)

    numbers = [system.word(bits) for _ in range(count)]
    bubbled = [*numbers]
    for end in range(count - 1, 0, -1):
        for at in range(end):
            bubbled[at], bubbled[at + 1] = exchanged(bubbled[at], bubbled[at + 1])
    inserted = []
    for new in numbers:
        for at, it in enumerate(inserted):
            inserted[at], new = exchanged(it, new)
        inserted.append(new)
    return system.ever([system.differ(one, other) for one, other in zip(bubbled, inserted)])
