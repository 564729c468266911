"""The trial calls of run and listing: edges by name, disturbed lines, faults
in every slice, and drawn ones.

A call is a case of damage.py's.  Lent buffers hold drawn bytes before it.
"""

import calls
import circuits
import damage
import faults
from calls import AND, NOT, OR, XOR

SEED = 20262
PARTS = ["inputs", "tapes", "line"]
LENT = [name + " lent" for name in damage.LENT["run"]]

# The six bits of an opening go 1>2, 1>3, 2>3, 2>1, 3>1, 3>2.  Turning one of
# the first pair below makes site 1 object, one of the second site 2, one of
# the third site 3; turning both of a pair makes that site open the other bit.
COPIES = ((3, 4), (0, 5), (1, 2))


def drawn(rng, name, circuit, **given):
    """A good call on a circuit: clean line, all else drawn or given."""
    case = damage.draw_call(rng, name, circuit)
    case["line"] = bytes(circuit.line_length())
    case.update(given)
    case["job"] = calls.job(case["file"], case["inputs"], case["tapes"])
    return case


def with_part(case, part, fault):
    return dict(case, **{part: faults.put(case[part], fault)})


def as_job(case):
    """The listing of what a run is given."""
    return dict(case, call="listing", job=calls.job(
        case["file"], case["inputs"], case["tapes"]))


def both(case):
    yield case
    yield as_job(case)


def line_of(circuit, places):
    return bytes(n in places for n in range(circuit.line_length()))


# The edges by name.

def edges(rng):
    """Each count at its limit and one above; an abort at the last of 256
    outputs; small circuits with tapes as long as is wanted, one short and one
    long, and on drawn lines."""
    for counts in ((1024, 0, 1), (1, 3072, 1), (3, 4, 256)):
        yield from both(drawn(rng, "run", circuits.limit(*counts)))
    for counts in ((1025, 0, 1), (1, 3073, 1), (3, 4, 257)):
        circuit = circuits.limit(*counts, kinds=(XOR, NOT))
        yield from both(circuits.lent_bits(rng, drawn(rng, "run", circuit)))
    circuit = circuits.limit(3, 4, 256)
    yield drawn(rng, "run", circuit, line=line_of(
        circuit, {circuit.line_length() - 1}))
    for circuit in circuits.small_edges():
        length = circuit.tapes_length()
        for tapes in sorted({length, max(length - 1, 0), length + 1}):
            yield from both(with_part(drawn(rng, "run", circuit), "tapes",
                                      (None, tapes)))
        for _ in range(12):
            yield drawn(rng, "run", circuit, line=damage.draw_line(
                rng, circuit.line_length()))


def largest(rng):
    """All counts at their limits and every gate an AND or OR: a clean run,
    the largest job and one a byte longer."""
    circuit = damage.draw_circuit(rng, 1024, 3072, 256, (AND, OR))
    yield drawn(rng, "run", circuit)
    job = drawn(rng, "listing", circuit)
    yield job
    yield dict(job, job=calls.u32(41521) + job["job"][4:] + b"\0")


# Lines.

def turned(pattern):
    """The places of an opening's bits that a number of 6 bits sets."""
    return {n for n in range(6) if pattern >> n & 1}


def alike(sites):
    """Both copies of some sites: nobody objects."""
    return {n for s in range(3) if sites >> s & 1 for n in COPIES[s]}


def objecting(rng, sites):
    """One copy of each of some sites: these object."""
    return {COPIES[s][rng.randrange(2)] for s in range(3) if sites >> s & 1}


def openings_of(circuit, *places):
    """A line that is disturbed in its openings only, as told for each."""
    start = circuit.line_length() - 6 * len(circuit.outputs)
    return line_of(circuit, {start + 6 * n + at
                             for n, some in enumerate(places) for at in some})


def marked_lines():
    """K1's circuit: each bit of the line alone, for all inputs, and all 64
    patterns of the opening."""
    circuit = calls.MARKED
    for inputs in ("00", "01", "10", "11"):
        for at in range(circuit.line_length()):
            yield inputs, line_of(circuit, {at})
    for pattern in range(64):
        yield "11", openings_of(circuit, turned(pattern))


def lines(rng):
    for inputs, line in marked_lines():
        yield drawn(rng, "run", calls.MARKED, inputs=calls.bits(inputs),
                    tapes=calls.TAPES, line=line)
    each = circuits.EACH
    for at in range(each.line_length()):
        for _ in range(2):
            yield drawn(rng, "run", each, line=line_of(each, {at}))
    # Nobody objects at the first opening, though it is disturbed; at the
    # second, or only at the last, some object or none.
    for before in range(8):
        for sites in range(8):
            yield drawn(rng, "run", each, line=openings_of(
                each, alike(before), objecting(rng, sites)))
            yield drawn(rng, "run", each, line=openings_of(
                each, alike(before), alike(rng.randrange(8)),
                objecting(rng, sites)))


def drawn_lines(rng, count):
    """Drawn circuits on drawn lines, thin ones and thick ones."""
    for _ in range(count):
        circuit = damage.draw_circuit(rng, *damage.draw_counts(rng))
        case = damage.draw_call(rng, "run", circuit)
        length = circuit.line_length()
        if rng.randrange(3) == 0 and length:
            places = {rng.randrange(length) for _ in range(rng.randint(1, 4))}
            case["line"] = line_of(circuit, places)
        yield case


# Faults.

def bad_parts(rng):
    for fault in faults.bad_parts(circuits.EACH):
        yield from both(with_part(drawn(rng, "run", circuits.EACH), "file",
                                  fault))


def file_faults(rng, circuit):
    """Each fault of a file, a third of them through each call."""
    for fault in faults.file_faults(rng, circuit):
        case = with_part(drawn(rng, "run", circuit), "file", fault)
        which = rng.randrange(3)
        if which == 0:
            yield case
        elif which == 1:
            yield as_job(case)


def slice_faults(rng, circuit):
    """Each fault of inputs, tapes and line, and of the lent lengths."""
    for part in PARTS:
        good = drawn(rng, "run", circuit)
        for fault in faults.bit_faults(rng, good[part]):
            case = with_part(drawn(rng, "run", circuit), part, fault)
            yield case
            if part != "line":
                yield as_job(case)
    for part in LENT:
        size = len(drawn(rng, "run", circuit)[part])
        for new in (0, size - 1, size + 1, 2 * size + 5):
            if 0 <= new != size:
                yield with_part(drawn(rng, "run", circuit), part, (None, new))


def two_slices(rng, circuit, count):
    """Faults in two things at once, so that the order shows."""
    for _ in range(count):
        case = drawn(rng, "run", circuit)
        for part in (rng.choice(["file"] + PARTS * 2 + LENT * 2)
                     for _ in range(2)):
            if part == "file":
                choice = faults.part_faults(circuit)
            elif part in PARTS:
                choice = faults.bit_faults(rng, case[part])
            else:
                choice = [(None, rng.randrange(2 * len(case[part]) + 3))]
            found = list(choice)
            if found:
                case = with_part(case, part, rng.choice(found))
        yield case
        if rng.randrange(3) == 0:
            yield as_job(case)


def job_faults(rng, circuit):
    good = drawn(rng, "listing", circuit)
    for fault in faults.job_faults(rng, good["job"]):
        yield with_part(good, "job", fault)
    for _ in range(40):
        case = drawn(rng, "listing", circuit)
        for _ in range(2):
            fault = rng.choice(list(faults.job_faults(rng, good["job"])))
            if fault[0] is not None or rng.randrange(4) == 0:
                case = with_part(case, "job", fault)
        yield case


def damaged(rng, name, count):
    """Calls drawn and damaged as the evaluator's own test does it."""
    for _ in range(count):
        circuit = damage.draw_circuit(rng, *damage.draw_counts(rng))
        case = damage.draw_call(rng, name, circuit)
        for _ in range(rng.choice([0, 1, 1, 2, 3])):
            damage.damage(rng, case)
        yield case


def cases():
    rng = circuits.Draw(SEED)
    found = [*edges(rng), *largest(rng), *lines(rng), *drawn_lines(rng, 900),
             *bad_parts(rng)]
    for circuit in circuits.bases(rng):
        found += [*file_faults(rng, circuit), *slice_faults(rng, circuit),
                  *two_slices(rng, circuit, 60), *job_faults(rng, circuit)]
    return found + [*damaged(rng, "run", 600), *damaged(rng, "listing", 400)]
