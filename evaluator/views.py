"""The trial calls of plain values, view and re-taping: edges by name, sites,
first and second inputs, faults in every slice, sequences, and drawn ones.

A call is a case of damage.py's.  Lent buffers hold drawn bytes before it.
"""

import itertools

import calls
import circuits
import clean
import damage
import faults
from calls import AND, NOT, OR, XOR, Circuit
from together import NO_SITES, SITES

SEED = 20263
NAMES = ["plain", "view", "retape"]
TRIES = 40  # draws of second inputs, before the first ones are taken

# Every owner and every kind of gate; the last wire alone is opened.
LAST = Circuit(circuits.EACH.owners, circuits.EACH.gates, [6])


def sized(rng, case):
    """The same call with buffers of the wanted lengths, of drawn bytes."""
    name = case["call"]
    lengths = damage.lent_lengths(name, case["circuit"], case["number"])
    return dict(case, **{part + " lent": rng.randbytes(length) for part, length
                         in zip(damage.LENT[name], lengths)})


def drawn(rng, name, circuit, site=None, **given):
    """A good call on a circuit: all is drawn or given."""
    case = dict(damage.draw_call(rng, name, circuit), **given)
    case["number"] = site or rng.choice(SITES)
    if name == "retape" and "second" not in given:
        case["second"] = fitting(rng, circuit, case["inputs"], case["number"])
    return sized(rng, case)


def fitting(rng, circuit, inputs, site):
    """Second inputs with the own and the opened bits of the first: other ones,
    where some are soon found."""
    for _ in range(TRIES):
        second = others_turned(rng, circuit, inputs, site)
        if second != inputs and not damage.check_same(circuit, inputs, second,
                                                      site):
            return second
    return inputs


def others_turned(rng, circuit, inputs, site):
    return bytes(bit if owner == site else bit ^ rng.getrandbits(1)
                 for owner, bit in zip(circuit.owners, inputs))


def with_part(case, part, fault):
    return dict(case, **{part: faults.put(case[part], fault)})


def lent(name):
    return [part + " lent" for part in damage.LENT[name]]


def all_bits(count):
    return map(bytes, itertools.product((0, 1), repeat=count))


# The edges by name.

def limits(rng):
    """Each count at its limit and one above, and all at their limits.  Only
    with all at their limits every gate is an AND or OR."""
    for counts in ((1024, 0, 1), (1, 3072, 1), (3, 4, 256)):
        circuit = circuits.limit(*counts, kinds=(AND, OR) + 7 * (XOR, NOT))
        for name in NAMES:
            yield drawn(rng, name, circuit)
    for counts in ((1025, 0, 1), (1, 3073, 1), (3, 4, 257)):
        circuit = circuits.limit(*counts, kinds=(XOR, NOT))
        for name in NAMES:
            yield circuits.lent_bits(rng, drawn(rng, name, circuit))
    circuit = damage.draw_circuit(rng, 1024, 3072, 256, (AND, OR))
    yield drawn(rng, "plain", circuit)
    yield drawn(rng, "view", circuit)
    # Of 256 drawn outputs some would differ: only inputs are opened.
    circuit.outputs = list(range(256))
    case = drawn(rng, "retape", circuit, second=b"")
    case["second"] = case["inputs"][:256] + others_turned(
        rng, circuit, case["inputs"], case["number"])[256:]
    yield case


def opened_often(rng):
    """A gate opened 256 times, behind which the inputs may change."""
    circuit = Circuit([1, 2, 3], [(AND, 0, 1), (OR, 3, 2)], [4] * 256)
    for site in SITES:
        yield drawn(rng, "retape", circuit, site)


def small_edges(rng):
    """The small circuits, through every call at every site, with tapes as
    long as is wanted, one short and one long."""
    for circuit in circuits.small_edges():
        length = circuit.tapes_length()
        yield drawn(rng, "plain", circuit)
        for name in ("view", "retape"):
            for site in SITES:
                yield drawn(rng, name, circuit, site)
            for tapes in (length - 1, length + 1):
                if tapes >= 0:
                    yield with_part(drawn(rng, name, circuit), "tapes",
                                    (None, tapes))


# Every site, all first and second inputs.

def every_input(rng):
    for circuit in (calls.MARKED, LAST):
        for first in all_bits(len(circuit.owners)):
            yield drawn(rng, "plain", circuit, inputs=first)
            for site in SITES:
                yield drawn(rng, "view", circuit, site, inputs=first)
                for second in all_bits(len(circuit.owners)):
                    yield drawn(rng, "retape", circuit, site, inputs=first,
                                second=second)


def own_and_opened(rng, count):
    """Drawn circuits of more inputs: own bits equal or not, opened bits equal
    or not, others' bits before the own ones changed or not."""
    for _ in range(count):
        circuit = damage.draw_circuit(rng, rng.randint(4, 8), rng.randrange(9),
                                      rng.randint(1, 4))
        case = drawn(rng, "retape", circuit)
        second = others_turned(rng, circuit, case["inputs"], case["number"])
        if rng.randrange(2):
            second = faults.put(second, (rng.randrange(len(second)), b"\1"))
        yield dict(case, second=second)


def any_circuits(rng, count):
    """Drawn circuits through a drawn call, nothing wrong with it."""
    for _ in range(count):
        circuit = damage.draw_circuit(rng, *damage.draw_counts(rng))
        yield drawn(rng, rng.choice(NAMES), circuit)


# Sequences.  Each call of one has the sequence's number, so that the stored
# text can be held to what goes for all of them together.

def three_inputs(rng):
    """A circuit, a site and three inputs that this site cannot tell apart."""
    while True:
        circuit = damage.draw_circuit(rng, rng.randint(3, 6),
                                      rng.randint(1, 8), rng.randrange(3))
        site = rng.choice(SITES)
        first = damage.draw_bits(rng, len(circuit.owners))
        alike = [second for second in all_bits(len(first)) if second != first
                 and not damage.check_same(circuit, first, second, site)]
        if len(alike) >= 2:
            second = rng.choice(alike)
            alike.remove(second)
            return circuit, site, [first, second, rng.choice(alike)]


def sequence(rng, number):
    """There and back, and by way of a third set of inputs: the views with all
    three, and the re-tapings first to second, back, on to the third, and from
    the first straight to the third."""
    circuit, site, inputs = three_inputs(rng)
    tapes = [damage.draw_bits(rng, circuit.tapes_length())]
    for second in inputs[1:]:
        tapes.append(clean.new_tapes(circuit, inputs[0], tapes[0], second,
                                     site))
    for n in range(3):
        yield drawn(rng, "view", circuit, site, inputs=inputs[n],
                    tapes=tapes[n], sequence=number)
    for one, two in ((0, 1), (1, 0), (1, 2), (0, 2)):
        yield drawn(rng, "retape", circuit, site, inputs=inputs[one],
                    tapes=tapes[one], second=inputs[two], sequence=number)


def sequences(rng, count):
    for number in range(count):
        yield from sequence(rng, number)


# Faults.

def bad_parts(rng):
    for fault in faults.bad_parts(circuits.EACH):
        for name in NAMES:
            yield with_part(drawn(rng, name, circuits.EACH), "file", fault)


def file_faults(rng, circuit):
    """Each fault of a file, one of six through each call."""
    for fault in faults.file_faults(rng, circuit):
        which = rng.randrange(6)
        if which < 3:
            yield with_part(drawn(rng, NAMES[which], circuit), "file", fault)


def slice_faults(rng, circuit):
    """Each fault of inputs, tapes and second inputs, of the lent lengths and
    of the site."""
    for name in NAMES:
        for part in damage.GIVEN[name]:
            for fault in faults.bit_faults(rng, drawn(rng, name, circuit)[
                    part]):
                yield with_part(drawn(rng, name, circuit), part, fault)
        for part in lent(name):
            size = len(drawn(rng, name, circuit, 1)[part])
            for new in (0, size - 1, size + 1, 2 * size + 5):
                if new >= 0:
                    yield with_part(drawn(rng, name, circuit), part,
                                    (None, new))
        if name != "plain":
            for site in NO_SITES:
                yield dict(drawn(rng, name, circuit), number=site)


def another_site(rng, circuit):
    """A view whose buffer would fit another site."""
    for site in SITES:
        for other in SITES:
            if site != other:
                yield dict(drawn(rng, "view", circuit, other), number=site)


def some_fault(rng, case, part):
    """One fault of a part, or of the site, drawn."""
    if part == "number":
        return dict(case, number=rng.choice(NO_SITES))
    if part == "file":
        choice = list(faults.part_faults(case["circuit"]))
    elif part in damage.GIVEN[case["call"]]:
        choice = list(faults.bit_faults(rng, case[part]))
        if part == "second":  # or it is good, and other own bits are in it
            choice.append((0, bytes(bit ^ 1 for bit in case[part])))
    else:
        choice = [(None, rng.randrange(2 * len(case[part]) + 3))]
    return with_part(case, part, rng.choice(choice)) if choice else case


def two_faults(rng, circuit, count):
    """Faults in two things at once, so that the order shows."""
    for _ in range(count):
        name = rng.choice(NAMES[1:] * 2 + NAMES)
        parts = damage.GIVEN[name] + lent(name)
        if name != "plain":
            parts += ["number", "number"]
        case = drawn(rng, name, circuit)
        for part in (rng.choice(parts), rng.choice(parts + ["file"])):
            case = some_fault(rng, case, part)
        yield case


def damaged(rng, count):
    """Calls drawn and damaged as the evaluator's own test does it."""
    for _ in range(count):
        circuit = damage.draw_circuit(rng, *damage.draw_counts(rng))
        case = drawn(rng, rng.choice(NAMES), circuit)
        for _ in range(rng.choice([1, 1, 2, 3])):
            damage.damage(rng, case)
        yield case


def cases():
    rng = circuits.Draw(SEED)
    found = [*limits(rng), *opened_often(rng), *small_edges(rng),
             *every_input(rng), *own_and_opened(rng, 200),
             *any_circuits(rng, 300), *sequences(rng, 45),
             *bad_parts(rng)]
    for circuit in circuits.bases(rng):
        found += [*file_faults(rng, circuit), *slice_faults(rng, circuit),
                  *another_site(rng, circuit), *two_faults(rng, circuit, 60)]
    return found + [*damaged(rng, 600)]
