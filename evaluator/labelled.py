"""Holds the labels of bits (python/bakebutton/labels.py) to the evaluator: who sends which part of what to whom, at which place.

A label says what a bit is. On a clean run the bit must be the part that the label says, of what clean.py has its sender deal or hold; the
labels' senders and receivers must add up to the traffic; a bit that is changed on the way must change, of the wires through its step, the
one part at the one site that its label says; a view's and a tape's bits must be what theirs say. people.py runs it.
"""

import calls
import check
import circuits
import clean
import damage
from bakebutton import circuit, labels

CIRCUITS = 60


class Wrong(Exception):
    """What a label says and is not so."""


def deals_of(run, made_circuit):
    """The parts that each site deals, by step, number and sender, from a clean run told by clean.py."""
    deals, at = {}, iter(run.deals)
    for n in range(len(made_circuit.owners)):
        site, _, _, parts = next(at)
        deals["input", n, site] = parts
    for n, gate in enumerate(made_circuit.gates):
        for _ in range(3 if gate[0] in (calls.AND, calls.OR) else 0):
            site, _, _, parts = next(at)
            deals["gate", n, site] = parts
    return deals


def check_values(found, circuit_, run, transcript):
    """Each delivered bit of a clean run is the part that its label says, of what its sender deals or holds."""
    deals = deals_of(run, circuit_)
    for label, bit in zip(found, transcript):
        parts = run.parts[circuit_.outputs[label.number]] if label.step == "output" else deals[label.step, label.number, label.sender]
        if parts[label.part] != bit:
            raise Wrong(f"a label is wrong: {label}")
        if label.step == "output" and label.part not in (label.sender, clean.after(label.sender)):
            raise Wrong(f"a site sends a part that it does not hold: {label}")


def check_changed(program, made_circuit, found, inputs, tapes, rng):
    """A changed bit changes, of the wires through its step, one part at its receiver; an opening's bit changes none."""
    wires = made_circuit.wires
    for label in rng.sample(found, min(6, len(found))):
        texts = [check.printed(program, calls.run_of(made_circuit, inputs, tapes, change)).splitlines() for change in ((), (label.bit,))]
        one, two = (damage.bytes_of(lines[3].partition(" ")[2]) for lines in texts)
        moved = [n for n in range(6 * wires) if one[n] != two[n]]
        if label.step == "output":
            if moved:
                raise Wrong(f"an opening's bit changes the store: {label}")
            continue
        wire = label.number + (len(made_circuit.owners) if label.step == "gate" else 0)
        second = label.part != label.receiver
        wanted = 2 * wires * (label.receiver - 1) + 2 * wire + second
        if [n for n in moved if n % (2 * wires) // 2 <= wire] != [wanted]:
            raise Wrong(f"a changed bit changes other parts than its label says: {label}")


def check_views(program, made_circuit, inputs, tapes, run, transcript):
    """Each bit of the evaluator's view is what its label says."""
    drawn = labels.drawn(circuit.read(made_circuit.file()))
    for site in (1, 2, 3):
        view = damage.bytes_of(check.printed(program, calls.view_of(made_circuit, inputs, tapes, site)).splitlines()[1].partition(" ")[2])
        found = labels.seen(circuit.read(made_circuit.file()), site)
        if len(found) != len(view):
            raise Wrong(f"site {site}'s view has {len(view)} bits and {len(found)} labels")
        for label, bit in zip(found, view):
            known = {"own input": lambda of: inputs[of], "own tape": lambda of: tapes[of.bit], "received": lambda of: transcript[of.bit],
                     "opened": lambda of: run.value(made_circuit.outputs[of])}[label.group](label.of)
            if known != bit or (label.group == "own tape" and drawn[label.of.bit].site != site):
                raise Wrong(f"a view's label is wrong: {label}")
    deals = deals_of(run, made_circuit)
    for label in drawn:
        if deals[label.step, label.number, label.site][label.part] != tapes[label.bit]:
            raise Wrong(f"a tape's label is wrong: {label}")


def check_labels(program, rng):
    """How many bits of how many circuits are as their labels say."""
    count = 0
    some = [calls.MARKED, circuits.EACH, *circuits.small_edges()]
    some += [damage.draw_circuit(rng, rng.randint(1, 6), rng.randrange(12), rng.randrange(4)) for _ in range(CIRCUITS)]
    for made_circuit in some:
        file = made_circuit.file()
        found = labels.sent(circuit.read(file))
        if len(found) != made_circuit.line_length():
            raise Wrong(f"{made_circuit.line_length()} bits are sent, and {len(found)} have labels")
        table = [[sum((one.sender, one.receiver) == (s, r) and one.what != "compare" for one in found) for r in (1, 2, 3)] for s in (1, 2, 3)]
        if table != damage.traffic(made_circuit):
            raise Wrong(f"the labels' senders and receivers are not the traffic's: {table}")
        inputs, tapes = damage.draw_bits(rng, len(made_circuit.owners)), damage.draw_bits(rng, made_circuit.tapes_length())
        text_of_run = check.printed(program, calls.run_of(made_circuit, inputs, tapes)).splitlines()
        transcript, run = damage.bytes_of(text_of_run[2].partition(" ")[2]), clean.Run(made_circuit, inputs, tapes)
        check_values(found, made_circuit, run, transcript)
        check_changed(program, made_circuit, found, inputs, tapes, rng)
        check_views(program, made_circuit, inputs, tapes, run, transcript)
        count += len(found)
    return count, len(some)


def wrong(program, rng):
    """What is wrong with the labels, or None. program: the evaluator's."""
    try:
        count, circuits_ = check_labels(program, rng)
    except Wrong as told:
        return str(told)
    print(f"labels of {count} sent bits, and of tapes and views, of {circuits_} circuits as the evaluator sends them")
    return None
