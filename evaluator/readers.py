"""The trial calls to a reader: the questions of files.py, with counts beside
the file that may be its own, near them, another's or anything: the answer is
the file's own.
"""

import struct

import circuits
import damage
import files
from kinds import counts_of

SEED = 20268
QUESTIONS = dict(zip(damage.READERS, (1, 0, 2)))  # by which count it goes
NUMBERS = [0, 1, 255, 256, 65535, 65536, 2**31, 2**32 - 1]


def case(name, file, counts, number):
    return {"call": name, "file": file, "number": number,
            "counts": struct.pack("<3I", *(n % 2**32 for n in counts))}


def own_counts(file):
    """The file's own, and the numbers at them."""
    for name, which in QUESTIONS.items():
        count = counts_of(file)[which]
        numbers = files.numbers_at(count)
        if damage.check_header(file):
            numbers = sorted({0, count})
        if len(file) > files.LARGE:
            numbers = [count]
        for number in numbers:
            yield case(name, file, counts_of(file), number)


def other_counts(file):
    """Each count one off, all at once, in another order, and none at all."""
    inputs, gates, outputs = counts_of(file)
    for counts in ((inputs + 1, gates, outputs), (inputs, gates + 1, outputs),
                   (inputs, gates, outputs + 1), (inputs - 1, gates, outputs),
                   (inputs, gates - 1, outputs - 1), (inputs, gates, 0),
                   (gates, inputs, outputs), (outputs, gates, inputs),
                   (0, 0, 0), (1024, 3072, 256), (2**32 - 1,) * 3):
        yield counts


def named():
    for file in files.named_files():
        yield from own_counts(file)
        if len(file) <= files.LARGE:
            for counts in other_counts(file):
                for name, which in QUESTIONS.items():
                    for number in sorted({0, counts_of(file)[which]}):
                        yield case(name, file, counts, number)


def drawn():
    """Calls drawn and damaged as the evaluator's own test does it, and some
    with counts drawn anew."""
    rng = circuits.Draw(SEED)
    for _ in range(900):
        circuit = damage.draw_circuit(rng, *damage.draw_counts(rng))
        one = damage.draw_call(rng, rng.choice(damage.READERS), circuit)
        for _ in range(rng.choice([0, 1, 1, 2])):
            damage.damage(rng, one)
        if rng.randrange(4) == 0:
            at = 4 * rng.randrange(3)
            one["counts"] = (one["counts"][:at]
                             + struct.pack("<I", rng.choice(NUMBERS))
                             + one["counts"][at + 4:])
        yield {key: one[key] for key in ("call", "file", "number", "counts")}


def cases():
    return [*named(), *drawn()]
