"""Circuits for the trials: the edges by name, small ones to be damaged, and
drawn numbers that are the same under every Python.
"""

import calls
import damage
from calls import AND, NOT, OR, XOR, Circuit

KINDS = (AND, OR, XOR, NOT)
# Every owner and every kind of gate; opened are the last wire, one between and
# an input.
EACH = Circuit([1, 2, 3], [(AND, 0, 1), (XOR, 3, 2), (NOT, 4, 0),
                           (OR, 5, 0)], [6, 3, 0])


class Draw:
    """Numbers drawn by splitmix64, the same under every Python."""

    def __init__(self, seed):
        self.state = seed

    def getrandbits(self, count):
        mask = 2**64 - 1
        self.state = (self.state + 0x9E3779B97F4A7C15) & mask
        word = self.state
        word = (word ^ word >> 30) * 0xBF58476D1CE4E5B9 & mask
        word = (word ^ word >> 27) * 0x94D049BB133111EB & mask
        return (word ^ word >> 31) >> 64 - count

    def random(self):
        return self.getrandbits(53) / 2**53

    def randrange(self, below):
        return self.getrandbits(64) % below

    def randint(self, least, most):
        return least + self.randrange(most - least + 1)

    def choice(self, things):
        return things[self.randrange(len(things))]

    def randbytes(self, count):
        return bytes(self.getrandbits(8) for _ in range(count))


def limit(inputs, gates, outputs, kinds=KINDS):
    """A circuit of these counts.  Each gate reads the wire before it, so that
    the last wire, which is opened first, hangs on all of them."""
    owners = [n % 3 + 1 for n in range(inputs)]
    records = []
    for g in range(gates):
        kind, last = kinds[g % len(kinds)], inputs + g - 1
        records.append((kind, last, 0 if kind == NOT else last // 2))
    wires = inputs + gates
    return Circuit(owners, records, [wires - 1 - n % wires
                                     for n in range(outputs)])


def lent_bits(rng, case):
    """The same call with bits in its lent buffers.  A refused call prints them
    as they were, and a bit is one sign, not three."""
    return dict(case, **{part: damage.draw_bits(rng, len(case[part]))
                         for part in case if part.endswith(" lent")})


def small_edges():
    """Both operands one wire, for each kind; a wire opened twice; inputs
    opened directly; no output; no gate; nothing."""
    return [Circuit([1, 2, 3], [(XOR, 0, 0), (AND, 1, 1), (OR, 2, 2),
                                (AND, 4, 4), (OR, 5, 5), (XOR, 7, 7),
                                (NOT, 8, 0)], [3, 4, 5, 6, 7, 8, 9]),
            Circuit([1, 2], [(AND, 0, 0)], [2]),
            Circuit([1, 2], [(AND, 0, 1)], [2, 2]),
            Circuit([3, 1], [(OR, 0, 1)], [0, 2, 1, 0]),
            Circuit([2, 3], [(AND, 0, 1), (NOT, 2, 0), (OR, 3, 0)], []),
            Circuit([3, 2, 1], [], [2, 1, 0]),
            Circuit([2], [], []),
            Circuit([], [], [])]


def bases(rng):
    """The small circuits that are damaged."""
    yield calls.MARKED
    for counts in ((1, 1, 1), (2, 3, 1), (3, 5, 2), (4, 2, 4), (6, 9, 3)):
        yield damage.draw_circuit(rng, *counts)


def any_parts(rng):
    """A good header before owners, gates and outputs of any kind."""
    inputs, gates, outputs = (rng.randrange(n) for n in (6, 6, 5))
    wires = inputs + gates + 1
    odd = rng.choice([2, 10, 40])  # one of so many numbers is any number

    def number(usual):
        return rng.getrandbits(16) if rng.randrange(odd) == 0 else usual

    owners = [number(rng.randint(1, 3)) % 256 for _ in range(inputs)]
    records = [(number(rng.choice([1, 2, 4])),
                number(rng.randrange(inputs + g or 1)),
                number(rng.randrange(inputs + g or 1)))
               for g in range(gates)]
    wanted = [number(rng.randrange(wires)) for _ in range(outputs)]
    return Circuit(owners, records, wanted).file()
