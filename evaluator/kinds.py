"""Which kinds of answers must occur among the trials, and which of them an
answer is.  A kind is a line of text, the call's name first; what must occur
is counted from the evaluator's answers.
"""

import struct

import damage
import textkinds
import together

QUESTIONS = {"owner": 4, "gate": 5, "output": 6, "owner_read": 4,
             "gate_read": 5, "output_read": 6}
CHECKED = ["check", "traffic", "run", "listing", "plain", "view",
           "retape"]  # these make 1 to 6
BITS = {"run": (7, 8, 9), "listing": (7, 8), "plain": (7,), "view": (7, 8),
        "retape": (7, 8, 12)}
VALUES = {"from_bristol": (4,)}  # 4 for a value's owner, no wire's
SLICE = {7: "inputs", 8: "tapes", 9: "line", 12: "second"}
COUNTS = ("I", "G", "O")
LIMITS = (1024, 3072, 256)
WHERE = ("at the first", "at one between", "at the last")
LENGTH = ("one short", "one long", "far off")
KINDS = {1: "XOR", 2: "AND", 4: "OR"}
EDGES = ["all at their limits", "the empty circuit", "O = 0",
         "a wire opened twice", "an input opened directly",
         *(f"both operands of {kind} one wire" for kind in KINDS.values())]
EDGES += [f"{name} {count}" for name, limit in zip(COUNTS, LIMITS)
          for count in (limit, limit + 1)]
HEADER = [(1, 0), (2, 0), (2, 1), (2, 2),
          (3, 0), (3, 16), (3, 20), (3, 24), (3, 28)]


def needed_of(name):
    """The kinds that a call's answers must have."""
    if name == textkinds.NAME:
        yield from textkinds.needed()
        return
    yield f"{name} good"
    yield from (f"{name}, {edge}" for edge in EDGES)
    yield from (f"{name} refused {n} {p}" for n, p in HEADER)
    if name in QUESTIONS:
        yield f"{name} refused {QUESTIONS[name]} at the count"
    if name in damage.READERS:
        yield from needed_of_counts(name)
    if name in CHECKED:
        yield from (f"{name} refused {n} {where}"
                    for n in (4, 5, 6) for where in WHERE)
    yield from (f"{name} refused {n} {kind}" for n in BITS.get(name, ())
                for kind in WHERE + LENGTH)
    yield from (f"{name} refused 10, {part} {how}"
                for part in damage.LENT.get(name, ()) for how in LENGTH)
    yield from together.needed_of(name)
    if name == "run":
        yield from needed_of_run()
    if name == "listing":
        yield from (f"listing refused 14 {p}" for p in (4, 8, 12))
        yield from (f"listing refused 14 0, {why}" for why in (
            "under 16", "41521 bytes", "a wrong length"))
        yield "listing good of 41520 bytes"


def needed_of_counts(name):
    """Counts beside a reader's file that are not its own."""
    yield from (f"{name} refused {n}, other counts" for n in (1, 2, 3))
    for answer in ("good", "refused at the count"):
        yield from (f"{name} {answer}, {count} too {how}"
                    for count in COUNTS for how in ("small", "large"))
        yield f"{name} {answer}, against the count beside the file"


def needed_of_run():
    for sites in range(1, 8):
        yield f"run abort of sites {sites} at the first output"
        yield f"run abort of sites {sites} at a later output"
    yield "run abort at the last of three or more outputs"
    yield "run abort behind a disturbed opening"
    yield "run abort, no opening disturbed"
    yield "run good on a clean line"
    for part in ("inputs", "gates", "openings"):
        yield f"run good though {part} were disturbed"
    yield "run good on a disturbed line, outputs alike and plain"
    yield "run good on a disturbed line, outputs alike and not plain"
    yield "run good on a disturbed line, outputs unlike"


# What an answer is.

def parts_of(case):
    """The slices by name, a listing's from its job."""
    if case["call"] != "listing":
        return case
    second, third = struct.unpack("<2I", (case["job"] + bytes(16))[8:16])
    job = case["job"]
    return {"file": job[16:second], "inputs": job[second:third],
            "tapes": job[third:]}


def counts_of(file):
    """I, G and O as the header has them."""
    return struct.unpack("<3I", (file + bytes(16))[4:16])


def where(place, count):
    if place == 0:
        return "at the first"
    return "at the last" if place == count - 1 else "at one between"


def off(length, wanted):
    return {-1: "one short", 1: "one long"}.get(length - wanted, "far off")


def of_job(job):
    """Why a job is refused with 14, place 0."""
    if len(job) < 16:
        return "under 16"
    told = struct.unpack("<I", job[:4])[0]
    return "a wrong length" if told != len(job) else f"{len(job)} bytes"


def of_bits(case, number, place):
    """Refusals 7, 8, 9 and 12: the wanted length, or else an index."""
    parts = parts_of(case)
    circuit = damage.read(parts["file"])
    wanted = {8: circuit.tapes_length(), 9: circuit.line_length()}.get(
        number, len(circuit.owners))
    length = len(parts[SLICE[number]])
    if length != wanted:
        return off(length, wanted) if place == wanted else "elsewhere"
    return where(place, wanted)


def of_refusal(case, number, place):
    name = case["call"]
    head = f"{name} refused {number}"
    if number in (4, 5, 6):
        count = counts_of(parts_of(case)["file"])[number - 4]
        if name in QUESTIONS:
            return f"{head} at the count" if place == count else head
        return f"{head} {where(place, count)}"
    if number in SLICE:
        return f"{head} {of_bits(case, number, place)}"
    if number == 10:
        part = damage.LENT[name][place]
        wanted = damage.lent_lengths(name, damage.read(case["file"]),
                                     case["number"])[place]
        return f"{head}, {part} {off(len(case[part + ' lent']), wanted)}"
    if (number, place) == (14, 0):
        return f"{head} 0, {of_job(case['job'])}"
    return f"{head} {place}"


def of_counts(case, refusal):
    """How the counts beside a reader's file are unlike its own; and whether
    by them the number would be in its range, or not, where by the file's it
    is not, or is."""
    name, number = case["call"], case["number"]
    own, beside = counts_of(case["file"]), counts_of(bytes(4) + case["counts"])
    asked = QUESTIONS[name] - 4
    if refusal and refusal[0] != QUESTIONS[name]:
        if own != beside:
            yield f"{name} refused {refusal[0]}, other counts"
        return
    answer = f"{name} {'refused at the count' if refusal else 'good'}"
    for count, one, other in zip(COUNTS, own, beside):
        how = "small" if other < one else "large"
        if one != other:
            yield f"{answer}, {count} too {how}"
    if (number < own[asked]) != (number < beside[asked]):
        yield f"{answer}, against the count beside the file"


def above_limit(file, place):
    """The count that is one above its limit, all else of the file fitting."""
    counts = counts_of(file)
    inputs, gates, outputs = counts
    if (counts[place] == LIMITS[place] + 1
            and len(file) == 32 + inputs + 6 * gates + 2 * outputs):
        return {f"{COUNTS[place]} {counts[place]}"}
    return set()


def of_edges(case, refusal):
    """The edges that a call's file has.  An answer counts that is good, an
    abort, or a question's own refusal; above a limit, refusal 2."""
    file = parts_of(case)["file"]
    if refusal and refusal[0] == 2:
        return above_limit(file, refusal[1])
    if refusal and QUESTIONS.get(case["call"]) != refusal[0]:
        return set()
    circuit, counts = damage.read(file), counts_of(file)
    found = {f"{name} {count}" for name, count, limit in zip(
        COUNTS, counts, LIMITS) if count == limit}
    found |= {f"both operands of {KINDS[kind]} one wire"
              for kind, first, second in circuit.gates
              if first == second and kind in KINDS}
    tests = {
        "all at their limits": counts == LIMITS,
        "the empty circuit": counts == (0, 0, 0),
        "O = 0": counts[2] == 0 < min(counts[:2]),
        "a wire opened twice":
            len(set(circuit.outputs)) < len(circuit.outputs),
        "an input opened directly": any(
            wire < counts[0] for wire in circuit.outputs)}
    return found | {edge for edge, holds in tests.items() if holds}


def disturbed(circuit, line):
    """Whether inputs, gates and each opening were."""
    inputs, outputs = 4 * len(circuit.owners), len(circuit.outputs)
    start = len(line) - 6 * outputs
    return (any(line[:inputs]), any(line[inputs:start]),
            [any(line[start + 6 * n:start + 6 * n + 6])
             for n in range(outputs)])


def of_abort(case, output, sites):
    circuit = damage.read(case["file"])
    opened = disturbed(circuit, case["line"])[2]
    later = "a later" if output else "the first"
    yield f"run abort of sites {sites} at {later} output"
    if 2 <= output == len(opened) - 1:
        yield "run abort at the last of three or more outputs"
    if any(opened[:output]):
        yield "run abort behind a disturbed opening"
    if not any(opened):
        yield "run abort, no opening disturbed"


def of_good_run(case, lines):
    if not any(case["line"]):
        yield "run good on a clean line"
        return
    circuit = damage.read(case["file"])
    inputs, gates, opened = disturbed(circuit, case["line"])
    for part, was in (("inputs", inputs), ("gates", gates),
                      ("openings", any(opened))):
        if was:
            yield f"run good though {part} were disturbed"
    outputs = damage.buffers_of(case, lines)["outputs"]
    value = damage.plain(circuit, case["inputs"])
    threes = [outputs[n:n + 3] for n in range(0, len(outputs), 3)]
    plain = [bytes([value[wire]] * 3) for wire in circuit.outputs]
    how = "unlike"
    if all(len(set(three)) == 1 for three in threes):
        how = "alike and plain" if threes == plain else "alike and not plain"
    yield f"run good on a disturbed line, outputs {how}"


def kinds_of(case, answer, lines):
    """The kinds that an answer is of."""
    name, outcome, *rest = answer.split()
    numbers = tuple(map(int, rest))
    refusal = numbers if outcome == "refused" else None
    if name == textkinds.NAME:
        return textkinds.kinds_of(case, refusal)
    found = {f"{name}, {edge}" for edge in of_edges(case, refusal)}
    if name in damage.READERS:
        found |= set(of_counts(case, refusal))
    if refusal:
        return (found | {of_refusal(case, *refusal)}
                | set(together.of_refusal(case, *refusal)))
    if outcome == "abort":
        return found | set(of_abort(case, *numbers))
    if name == "run":
        found |= set(of_good_run(case, lines))
    if name == "listing" and len(case["job"]) == 41520:
        found.add("listing good of 41520 bytes")
    found |= set(together.of_good(case, lines))
    return found | {f"{name} good"}
