"""Formulas of many kinds, made from fixed seeds: what `bin/benchmark` measures. A formula is a number
of variables and a list of clauses."""
import itertools
import os
import random
import sys

sys.dont_write_bytecode = True
sys.path.insert(0, f"{os.path.dirname(os.path.dirname(os.path.realpath(__file__)))}/examples")
import circuits  # noqa: E402
from solver import Formula  # noqa: E402


def write(path, formula):
    variables, clauses = formula
    with open(path, "w") as file:
        file.write(f"p cnf {variables} {len(clauses)}\n" + "".join(" ".join(map(str, [*it, 0])) + "\n" for it in clauses))


def numbered(formula):
    return len(formula.numbers), formula.clauses


def different(circuit, ones, others):
    """A formula that asks for an input at which two outputs of the same place differ."""
    circuit.add(*(circuit.gate("xor", one, other) for one, other in zip(ones, others)))
    return numbered(circuit)


def numbers_of(circuit, bits):
    return ([circuit.var(name, bit) for bit in range(bits)] for name in "ab")


def adders(bits):
    """A ripple adder is the same as one with carries computed ahead, with its inputs exchanged."""
    circuit = circuits.Circuit()
    a, b = numbers_of(circuit, bits)
    return different(circuit, circuits.ripple(circuit, a, b), circuits.lookahead(circuit, b, a, False))


def product(circuit, a, b):
    """The sum of the rows a * b[0], 2a * b[1], ..."""
    rows = [[circuit.gate("and", *sorted((x, y))) for x in a] for y in b]
    out, rest = [], rows[0]
    for row in rows[1:]:
        out.append(rest[0])
        high = rest[1:]
        total = circuits.ripple(circuit, high, row[: len(high)])
        if len(row) > len(high):
            last, carry = row[-1], total.pop()
            total += [circuit.gate("xor", last, carry), circuit.gate("and", last, carry)]
        rest = total
    return [*out, *rest]


def multipliers(bits):
    """a * b is b * a."""
    circuit = circuits.Circuit()
    a, b = numbers_of(circuit, bits)
    return different(circuit, product(circuit, a, b), product(circuit, b, a))


def factors(number, bits):
    """Two numbers of so many bits, both above 1, whose product this is."""
    circuit = circuits.Circuit()
    a, b = numbers_of(circuit, bits)
    for at, it in enumerate(product(circuit, a, b)):
        circuit.add(it if number >> at & 1 else -it)
    circuit.add(*a[1:])
    circuit.add(*b[1:])
    return numbered(circuit)


def sliding(steps, seed):
    """Eight tiles in a square of nine cells, each numbered for where it belongs: so many steps of the
    empty cell, 0, order them."""
    dice, formula, nine = random.Random(seed), Formula(), range(9)
    near = {cell: [it for it in nine if abs(cell // 3 - it // 3) + abs(cell % 3 - it % 3) == 1] for cell in nine}
    begin = [0, *dice.sample(range(1, 9), 8)]
    for time in range(steps + 1):
        for at in nine:
            formula.exactly_one([formula.var(time, tile, at) for tile in nine])
            formula.exactly_one([formula.var(time, at, cell) for cell in nine])
    for time in range(steps):
        for empty in nine:
            here = formula.var(time, 0, empty)
            formula.add(-here, *(formula.var(time + 1, 0, it) for it in near[empty]))
            for tile, to in itertools.product(range(1, 9), near[empty]):
                formula.add(-here, -formula.var(time + 1, 0, to), -formula.var(time, tile, to), formula.var(time + 1, tile, empty))
        # a tile stays, unless the empty cell comes to it
        for tile, cell in itertools.product(range(1, 9), nine):
            formula.add(-formula.var(time, tile, cell), formula.var(time + 1, 0, cell), formula.var(time + 1, tile, cell))
    for cell in nine:
        formula.add(formula.var(0, begin[cell], cell))
        formula.add(formula.var(steps, cell, cell))
    return numbered(formula)


def counter(bits, steps, target):
    """A counter begins at 1, and each step adds 1 or doubles it, until it is at the target."""
    circuit = circuits.Circuit()
    false = circuit.var("false")
    circuit.add(-false)
    value = [circuit.var("first", bit) for bit in range(bits)]
    for at, it in enumerate(value):
        circuit.add(it if at == 0 else -it)
    for step in range(steps):
        is_doubled = circuit.var("doubled", step)
        one_more = circuits.ripple(circuit, value, [-false, *[false] * (bits - 1)])[:bits]
        following = [circuit.var("value", step, bit) for bit in range(bits)]
        for bit, it in enumerate(following):
            for chosen, source in ((is_doubled, value[bit - 1] if bit else false), (-is_doubled, one_more[bit])):
                circuit.add(-chosen, -source, it), circuit.add(-chosen, source, -it)
        value = following
    for bit, it in enumerate(value):
        circuit.add(it if target >> bit & 1 else -it)
    return numbered(circuit)


def shop(jobs, machines, end, seed):
    """Each job goes over all machines in an order of its own, 1 to 9 hours at each; a machine has one
    job at a time, and all is done at the end."""
    dice, formula = random.Random(seed), Formula()
    orders = [dice.sample(range(machines), machines) for _ in range(jobs)]
    hours = {(job, machine): dice.randint(1, 9) for job in range(jobs) for machine in range(machines)}

    def begun(task, time):
        """The literal that says that a task has begun by this time; known before 0, and at its last time."""
        if time < 0:
            return False
        return True if time > end - hours[task] else formula.var(task, time)

    def follows(after, before, *unless):
        """The one task begins once the other is done."""
        for time in range(end - hours[after] + 1):
            done = begun(before, time - hours[before])
            if done is not True:
                # what begins by its last time always does
                clause = [*unless, *([] if time == end - hours[after] else [-begun(after, time)]), *([done] if done else [])]
                formula.add(*clause)

    for task in hours:
        for time in range(end - hours[task]):
            formula.add(-begun(task, time), formula.var(task, time + 1))
        formula.add(formula.var(task, end - hours[task]))
    for job, order in enumerate(orders):
        for before, after in zip(order, order[1:]):
            follows((job, after), (job, before))
    for machine in range(machines):
        for one, other in itertools.combinations(range(jobs), 2):
            first = formula.var("first", machine, one, other)
            follows((other, machine), (one, machine), -first)
            follows((one, machine), (other, machine), first)
    return numbered(formula)


def colouring(nodes, edges, colours, seed):
    """A random graph."""
    dice, formula = random.Random(seed), Formula()
    for node in range(nodes):
        formula.add(*(formula.var(node, colour) for colour in range(colours)))
    for one, other in dice.sample([*itertools.combinations(range(nodes), 2)], edges):
        for colour in range(colours):
            formula.add(-formula.var(one, colour), -formula.var(other, colour))
    return numbered(formula)


def latin_square(size, holes, seed):
    """A square whose rows and columns have each number once, with holes to be filled again."""
    dice, formula, every = random.Random(seed), Formula(), range(size)
    rows, columns, names = (dice.sample(every, size) for _ in range(3))
    given = [(row, column, names[(rows[row] + columns[column]) % size]) for row in every for column in every]
    for one, other in itertools.product(every, repeat=2):
        formula.exactly_one([formula.var(one, other, it) for it in every])
        formula.exactly_one([formula.var(one, it, other) for it in every])
        formula.exactly_one([formula.var(it, one, other) for it in every])
    for cell in dice.sample(given, size * size - holes):
        formula.add(formula.var(*cell))
    return numbered(formula)


def progressions(count, lengths):
    """The numbers up to count in two parts, of which neither has so many numbers at equal distances."""
    clauses = []
    for sign, length in zip((1, -1), lengths):
        for first, step in itertools.product(range(1, count + 1), range(1, count)):
            if first + (length - 1) * step <= count:
                clauses.append([sign * (first + at * step) for at in range(length)])
    return count, clauses


def schur(count, colours):
    """The numbers up to count in colours, none of which has two numbers and their sum, nor one and its double."""
    formula = Formula()
    for number in range(1, count + 1):
        formula.add(*(formula.var(number, it) for it in range(colours)))
    for one, other in itertools.combinations_with_replacement(range(1, count + 1), 2):
        if one + other <= count:
            for it in range(colours):
                formula.add(*(-formula.var(number, it) for number in sorted({one, other, one + other})))
    return numbered(formula)


def chessboard(size):
    """A board without two opposite corners, to be covered by dominoes."""
    formula, corners = Formula(), {(0, 0), (size - 1, size - 1)}
    cells = {*itertools.product(range(size), repeat=2)} - corners
    for row, column in sorted(cells):
        near = [(row, column + 1), (row + 1, column), (row, column - 1), (row - 1, column)]
        formula.exactly_one([formula.var(*sorted([(row, column), it])) for it in near if it in cells])
    return numbered(formula)


def random_3_sat(variables, seed):
    dice = random.Random(seed)
    return variables, [[dice.choice((-1, 1)) * it for it in dice.sample(range(1, variables + 1), 3)] for _ in range(int(4.26 * variables))]


def pigeonhole(holes):
    """One pigeon more than holes."""
    formula = Formula()
    for pigeon in range(holes + 1):
        formula.add(*(formula.var(pigeon, hole) for hole in range(holes)))
    for hole in range(holes):
        formula.at_most_one([formula.var(pigeon, hole) for pigeon in range(holes + 1)])
    return numbered(formula)


def parity(size, seed):
    """Two sums of the same bits in different orders differ."""
    circuit, bits = circuits.Circuit(), range(size)
    ends = []
    for order in (bits, random.Random(seed).sample(bits, size)):
        total, *rest = [circuit.var(bit) for bit in order]
        for it in rest:
            total = circuit.gate("xor", total, it)
        ends.append(total)
    return different(circuit, ends[:1], ends[1:])
