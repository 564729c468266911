"""A wide match as the shelf has them: do two sites' feature bits differ in fewer than so many places? Counted by adders.

    python3 -B python/tests/shelf.py > examples/circuits/shelf.circuit

writes the file of the mender's walk in docs/CIRCUITS.md, whose gate 310 is damaged. The tests hold the stored file to it.
"""

import pathlib
import sys

sys.path.insert(0, str(pathlib.Path(__file__).resolve().parent.parent))

from bakebutton.circuit import AND, NOT, OR, XOR, Circuit  # noqa: E402

DAMAGED = 310


class Builder:
    """Gates as they are made; each method answers the wire of its result."""

    def __init__(self, owners):
        self.owners, self.gates = owners, []

    def add(self, kind, first, second=0):
        self.gates.append((kind, first, second))
        return len(self.owners) + len(self.gates) - 1

    def half(self, a, b):
        return self.add(XOR, a, b), self.add(AND, a, b)

    def full(self, a, b, c):
        """Sum and carry of three bits."""
        two = self.add(XOR, a, b)
        either, both = self.add(AND, two, c), self.add(AND, a, b)
        return self.add(XOR, two, c), self.add(OR, either, both)

    def total(self, one, two):
        """The sum of two numbers, lowest bit first."""
        bit, carry = self.half(one[0], two[0])
        found = [bit]
        for a, b in zip(one[1:], two[1:]):
            bit, carry = self.full(a, b, carry)
            found.append(bit)
        return found + [carry]

    def count(self, row):
        """How many of a row's bits are set, by halving the row and adding the two counts."""
        if len(row) == 1:
            return row
        half = len(row) // 2
        return self.total(self.count(row[:half]), self.count(row[half:]))


def match(width, keep):
    """A circuit of 2 * width inputs: fewer than 2 ** keep places differ. Width is a power of two."""
    made = Builder([1] * width + [2] * width)
    count = made.count([made.add(XOR, n, width + n) for n in range(width)])
    high = count[keep]
    for bit in count[keep + 1:]:
        high = made.add(OR, high, bit)
    return Circuit(made.owners, made.gates, [made.add(NOT, high)])


def shelf():
    """The 64-bit match with a bit of gate 310's second turned: a wire that is not there."""
    circuit = match(64, 3)
    kind, first, second = circuit.gates[DAMAGED]
    circuit.gates[DAMAGED] = (kind, first, second ^ 0x1000)
    return circuit


if __name__ == "__main__":
    sys.stdout.buffer.write(shelf().file())
