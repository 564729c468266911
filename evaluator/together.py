"""Kinds of answers of plain values, view and re-taping: the sites, the order
of the checks, 13, what new tapes are like, and sequences of calls.
"""

import calls
import clean
import damage

SITES = (1, 2, 3)
NO_SITES = (0, 4, 255, 257, 65537, 2**32 - 1)  # two of them end in a 1
OF_A_SITE = ("view", "retape")
# A call with both faults must be there, and be refused for the first.
BEFORE = {
    "plain": [(7, 10)],
    "view": [(7, 8), (7, 11), (8, 11), (8, 10), (11, 10)],
    "retape": [(7, 8), (7, 11), (8, 11), (8, 10), (11, 10), (11, 12),
               (10, 12), (10, 13), (12, 13)],
}
OWN = ("the first own input", "a later own input",
       "an own input behind another's that differs",
       "an own input, and an opened bit differs too")
OPENED = ("the first output", "a later output", "an input opened directly",
          "a wire opened twice")
GOOD = ("the same inputs", "other inputs and the same tapes",
        "an input's draw moved", "an AND's draw moved", "an OR's draw moved",
        "an inner wire differs")


def needed_of(name):
    yield from (f"{name} refused {one}, {two} too"
                for one, two in BEFORE.get(name, ()))
    if name in OF_A_SITE:
        yield from (f"{name} good at site {site}" for site in SITES)
        yield from (f"{name} refused 11 of site {site}" for site in NO_SITES)
        yield f"{name} refused 10, both buffers"
    if name == "view":
        yield from (f"view refused 10 at site {site}, another site's length"
                    for site in SITES)
    if name == "retape":
        for site in SITES:
            yield from (f"retape refused 13 at site {site}, {where}"
                        for where in OWN + OPENED)
            yield from (f"retape good at site {site}, {how}" for how in GOOD)
            yield f"retape there and back at site {site}"
            yield f"retape by way of a third at site {site}"


def needed_of_both():
    """What sequences must show if both view and re-taping are made."""
    return {f"views alike before and after at site {site}" for site in SITES}


# One call.

def faulty(case, circuit):
    """The checks from 7 on that a call on a good circuit does not pass, each
    judged alone.  With no site, a view's buffer is unfit if it is for all."""
    name, site, inputs = case["call"], case["number"], len(circuit.owners)
    sites = [site] if site in SITES else SITES
    given = [(7, "inputs", inputs), (8, "tapes", circuit.tapes_length()),
             (12, "second", inputs)]
    found = {number for number, part, wanted in given
             if part in damage.GIVEN[name]
             and damage.check_bits(number, case[part], wanted)}
    if name in OF_A_SITE and site not in SITES:
        found.add(11)
    if all(damage.check_buffers(dict(case, number=s), circuit)
           for s in sites):
        found.add(10)
    if name == "retape" and len(case["second"]) == inputs and any(
            owner == site and one != two for owner, one, two in zip(
                circuit.owners, case["inputs"], case["second"])):
        found.add(13)
    return found


def of_refusal(case, number, place):
    name = case["call"]
    if name not in BEFORE or number < 7:
        return
    circuit = damage.read(case["file"])
    yield from (f"{name} refused {number}, {later} too"
                for later in faulty(case, circuit) - {number})
    if number == 11:
        yield f"{name} refused 11 of site {case['number']}"
    if number == 10 and name in OF_A_SITE:
        yield from of_buffers(case, circuit)
    if number == 13:
        yield from (f"retape refused 13 at site {case['number']}, {where}"
                    for where in of_13(case, circuit, place))


def of_buffers(case, circuit):
    name, site = case["call"], case["number"]
    wanted = damage.lent_lengths(name, circuit, site)
    length = [len(case[part + " lent"]) for part in damage.LENT[name]]
    if all(one != two for one, two in zip(length, wanted)):
        yield f"{name} refused 10, both buffers"
    if name == "view" and length[0] != wanted[0] and length[0] in map(
            circuit.view_length, SITES):
        yield f"view refused 10 at site {site}, another site's length"


def of_13(case, circuit, place):
    """Which own input, or which output, 13 tells of."""
    inputs, second = case["inputs"], case["second"]
    one, two = (damage.plain(circuit, bits) for bits in (inputs, second))
    opened = any(one[wire] != two[wire] for wire in circuit.outputs)
    if place >= len(inputs):
        number = place - len(inputs)
        wire = circuit.outputs[number]
        yield OPENED[number > 0]
        if wire < len(inputs):
            yield OPENED[2]
        if circuit.outputs.count(wire) > 1:
            yield OPENED[3]
        return
    yield OWN[case["number"] in circuit.owners[:place]]
    if inputs[:place] != second[:place]:
        yield OWN[2]
    if opened:
        yield OWN[3]


def of_good(case, lines):
    name, site = case["call"], case["number"]
    if name in OF_A_SITE:
        yield f"{name} good at site {site}"
    if name == "retape":
        yield from (f"retape good at site {site}, {how}"
                    for how in of_tapes(case, lines))


def of_tapes(case, lines):
    """Which of the next site's draws were moved."""
    circuit, inputs = damage.read(case["file"]), case["inputs"]
    new = damage.buffers_of(case, lines)["tapes"]
    if inputs == case["second"]:
        yield "the same inputs"
        return
    if new == case["tapes"]:
        yield "other inputs and the same tapes"
    one, two = (damage.plain(circuit, bits)[len(inputs):]
                for bits in (inputs, case["second"]))
    if one != two:
        yield "an inner wire differs"
    following = clean.after(case["number"])
    at = clean.Run(circuit, inputs, case["tapes"]).starts[following]
    steps = ["an input" for owner in circuit.owners if owner == following]
    steps += [{calls.AND: "an AND", calls.OR: "an OR"}[kind]
              for kind, _, _ in circuit.gates
              if kind in (calls.AND, calls.OR)]
    for n, step in enumerate(steps):
        if new[at + 2 * n] != case["tapes"][at + 2 * n]:
            yield f"{step}'s draw moved"


# Sequences.

def of_sequence(some):
    """What is wrong with a sequence, or None, and the kinds it is of.  `some`
    has its cases, each with its text.  Whichever way inputs are reached, their
    tapes are the same, and the site's view is."""
    case = some[0][0]
    site, known, ways = case["number"], {}, set()
    for case, (answer, lines) in some:
        if answer != case["call"] + " good":
            return "not good", set()
        if case["call"] == "view":
            continue
        one, two = case["inputs"], case["second"]
        new = damage.buffers_of(case, lines)["tapes"]
        if known.setdefault(one, case["tapes"]) != case["tapes"]:
            return "not the tapes that the call before gave", set()
        if known.setdefault(two, new) != new:
            return "other tapes than the way before gave", set()
        ways.add((one, two))
    views = {lines[0] for case, (_, lines) in some if case["call"] == "view"}
    if len(views) > 1:
        return "the views differ", set()
    return None, set(of_ways(site, known, ways, some))


def of_ways(site, known, ways, some):
    there_and_back = any((two, one) in ways and known[one] != known[two]
                         for one, two in ways)
    third = any((two, three) in ways and (one, three) in ways
                and len({known[one], known[two], known[three]}) == 3
                for one, two in ways for three in known)
    if there_and_back:
        yield f"retape there and back at site {site}"
    if third:
        yield f"retape by way of a third at site {site}"
    viewed = {(case["inputs"], case["tapes"]) for case, _ in some
              if case["call"] == "view"}
    if there_and_back and third and viewed == set(known.items()):
        yield f"views alike before and after at site {site}"
