#!/usr/bin/env python3
"""Compares two circuits that add numbers: one carries from bit to bit, the other computes all carries from 'generate' and 'propagate' signals.

They are equal where no input makes an output bit differ: the formula that asks for such an input has no model, and its proof is checked. With
`--broken` one gate of the second circuit is wrong, and the input that shows it is printed.
"""
from solver import Formula, arguments, solve

BITS = 4


class Circuit(Formula):
    """Gates are named by what they compute, so that gates of the same inputs are one."""

    def gate(self, kind, a, b):
        out = self.var(kind, a, b)
        if kind == "and":
            self.add(-a, -b, out), self.add(a, -out), self.add(b, -out)
        elif kind == "or":
            self.add(a, b, -out), self.add(-a, out), self.add(-b, out)
        else:
            self.add(-a, -b, -out), self.add(a, b, -out), self.add(a, -b, out), self.add(-a, b, out)
        return out


def ripple(circuit, a, b):
    sums, carry = [circuit.gate("xor", a[0], b[0])], circuit.gate("and", a[0], b[0])
    for x, y in zip(a[1:], b[1:]):
        half = circuit.gate("xor", x, y)
        sums.append(circuit.gate("xor", half, carry))
        carry = circuit.gate("or", circuit.gate("and", x, y), circuit.gate("and", half, carry))
    return [*sums, carry]


def lookahead(circuit, a, b, is_broken):
    generate = [circuit.gate("and", x, y) for x, y in zip(a, b)]
    propagate = [circuit.gate("or", x, y) for x, y in zip(a, b)]
    if is_broken:
        propagate[1] = generate[1]
    carries = [generate[0]]
    for at in range(1, len(a)):
        carries.append(circuit.gate("or", generate[at], circuit.gate("and", propagate[at], carries[-1])))
    halves = [circuit.gate("xor", x, y) for x, y in zip(a, b)]
    return [halves[0], *(circuit.gate("xor", half, carry) for half, carry in zip(halves[1:], carries)), carries[-1]]


def main():
    parser = arguments(__doc__)
    parser.add_argument("--broken", action="store_true", help="make one gate of the second circuit wrong")
    is_broken, circuit = parser.parse_args().broken, Circuit()
    a = [circuit.var("a", bit) for bit in range(BITS)]
    b = [circuit.var("b", bit) for bit in range(BITS)]
    pairs = zip(ripple(circuit, a, b), lookahead(circuit, a, b, is_broken))
    circuit.add(*(circuit.gate("xor", one, other) for one, other in pairs))
    true = solve(circuit, search="focused", refuted="the circuits are equal")
    if true is None:
        return
    left, right = (sum(2**bit for bit in range(BITS) if (name, bit) in true) for name in "ab")
    print(f"the circuits differ at {left} + {right}")


if __name__ == "__main__":
    main()
