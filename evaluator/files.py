"""The trial calls that take a file alone: open, gate, owner, output, check and
traffic, on edges by name and on damaged files.

A call is a case of damage.py's: its name, its file and, for gate, owner and
output, the asked number.
"""

import calls
import circuits
import damage
import faults
from kinds import counts_of

SEED = 20261
NAMES = [*damage.NAMES[:5], "traffic"]
ROOM = 65536  # the longest file that the program takes
LARGE = 4000  # a file above this goes through fewer calls


def case(name, file, number=0):
    return {"call": name, "file": file, "number": number}


def numbers_at(count):
    near = {0, count, count + 1, 65536, 65537, 2**32 - 1}
    return sorted(near | {count - 1} - {-1})


def all_calls(file):
    """A file through every call, with the numbers at its counts."""
    inputs, gates, outputs = counts_of(file)
    yield case("open", file)
    yield case("check", file)
    yield case("traffic", file)
    for name, count in (("gate", gates), ("owner", inputs),
                        ("output", outputs)):
        numbers = numbers_at(count)
        if len(file) > LARGE:
            numbers = [count - 1, count]
        if damage.check_header(file):
            numbers = sorted({0, count} if len(file) <= LARGE else {count})
        for number in numbers:
            yield case(name, file, number)


def some_calls(rng, file):
    """A file through check and, for one of three, through another call."""
    yield case("check", file)
    if rng.randrange(3) == 0:
        name = rng.choice(["open", "gate", "owner", "output", "traffic",
                           "traffic"])
        yield case(name, file, rng.choice([0, 1, 2, 5, 65536]))


# The edges by name.

def named_files():
    named = dict(calls.marked())

    def checked(name):
        return named[name][9:]  # behind a check call's number and length

    marked = calls.MARKED.file()
    empty = calls.Circuit([], [], []).file()
    return [marked, checked("K11 AND 0 2"), checked("K11 AND 0 0"), empty,
            empty[:31], b"", bytes(31), bytes(32), b"\xff" * 32,
            checked("I 1024"), checked("I 1025"), checked("O 256"),
            checked("O 257"), checked("G 3072"), checked("G 3073"),
            checked("all at their limits"),
            *(circuit.file() for circuit in circuits.small_edges())]


def named():
    for file in named_files():
        yield from all_calls(file)
    yield case("check", (calls.MARKED.file() + bytes(ROOM))[:ROOM])
    yield from last_bad()


def last_bad():
    """The last owner, gate and output of the largest counts are bad."""
    for counts, fault in (((1024, 0, 1), 4), ((1, 3072, 1), 5),
                          ((3, 2, 256), 6), ((1024, 3072, 256), 6)):
        inputs, gates, outputs = counts
        circuit = calls.Circuit([1] * inputs, [(calls.XOR, 0, 0)] * gates,
                                [0] * outputs)
        if fault == 4:
            circuit.owners[-1] = 4
        elif fault == 5:
            circuit.gates[-1] = (calls.AND, 0, circuit.wires - 1)
        else:
            circuit.outputs[-1] = circuit.wires
        yield case("check", circuit.file())


# Damage.

def one_fault(rng, circuit):
    for fault in faults.file_faults(rng, circuit):
        yield from some_calls(rng, faults.put(circuit.file(), fault))


def two_faults(rng, circuit, count):
    """Two at once, of two kinds or of one, so that the order shows."""
    file = circuit.file()
    kinds = [list(faults.header_faults(rng, file)),
             list(faults.length_faults(file)),
             *[list(faults.part_faults(circuit))] * 3]
    for _ in range(count):
        two = [rng.choice(rng.choice(kinds)) for _ in range(2)]
        two.sort(key=lambda fault: fault[0] is None)  # lengths last
        yield from some_calls(rng, faults.put(faults.put(file, two[0]),
                                              two[1]))


def drawn_case(rng):
    """A call drawn and damaged as the evaluator's own test does it."""
    circuit = damage.draw_circuit(rng, *damage.draw_counts(rng))
    drawn = damage.draw_call(rng, rng.choice(NAMES), circuit)
    for _ in range(rng.choice([1, 1, 2, 3])):
        damage.damage(rng, drawn)
    return case(drawn["call"], drawn["file"], drawn["number"])


def damaged():
    rng = circuits.Draw(SEED)
    for circuit in circuits.bases(rng):
        yield from one_fault(rng, circuit)
        yield from two_faults(rng, circuit, 250)
    for _ in range(1000):
        yield from some_calls(rng, circuits.any_parts(rng))
    for _ in range(1000):
        yield drawn_case(rng)
    for _ in range(200):
        yield from some_calls(rng, rng.randbytes(rng.randrange(70)))


def cases():
    return [*named(), *damaged()]
