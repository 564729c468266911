"""What each bit is: of the line and the transcript, of a tape, of a view. Worked out from a good circuit by the order of sending.

Inputs come first, then gates, then outputs, each by number. An input's owner shares it: two parts to the next site, two to the one after.
At an AND or OR each of sites 1, 2, 3 shares a piece so. XOR and NOT send nothing. At an output each site sends each other site the part
that it lacks, so that a site gets two copies. Where sender s sends to s+1 and then to s+2, a receiver's part k comes before part k+1.
"""

import collections

from .circuit import SITES, after

# bit: its number in the order of sending. step: "input", "gate" or "output", and number. part: of the wire (at a gate, of the sender's
# piece). what: "share", "piece", "copy" or "compare"; the last is the copy that only serves to be compared, and that traffic leaves out.
Sent = collections.namedtuple("Sent", "bit step number sender receiver part what")
# A random bit: which site draws it, for what, and which part it becomes.
Drawn = collections.namedtuple("Drawn", "bit site step number part")
# A bit of a view: "own input", "own tape", "received" or "opened", and the input's or output's number, the Drawn or the Sent that it is.
Seen = collections.namedtuple("Seen", "bit group of")


def _shared(step, number, sender, what):
    """The four bits by which a site shares: (receiver, part) in the order of sending."""
    for receiver in (after(sender), after(sender, 2)):
        for part in (receiver, after(receiver)):
            yield step, number, sender, receiver, part, what


def _opened(number):
    """The six bits of an opening. Receiver k lacks part k+2; the copy from k+1 is the one that traffic counts."""
    for sender in SITES:
        for receiver in (after(sender), after(sender, 2)):
            what = "copy" if sender == after(receiver) else "compare"
            yield "output", number, sender, receiver, after(receiver, 2), what


def _all_sent(circuit):
    for n, owner in enumerate(circuit.owners):
        yield from _shared("input", n, owner, "share")
    for n in circuit.product_gates():
        for sender in SITES:
            yield from _shared("gate", n, sender, "piece")
    for n in range(len(circuit.outputs)):
        yield from _opened(n)


def sent(circuit):
    """A label for each bit of the line, which are those of the transcript too."""
    return [Sent(bit, *label) for bit, label in enumerate(_all_sent(circuit))]


def drawn(circuit):
    """A label for each bit of the tapes: site by site, own inputs by wire, then AND and OR gates by number, two draws each."""
    found = []
    for site in SITES:
        for step, numbers in (("input", circuit.own_inputs(site)), ("gate", circuit.product_gates())):
            for number in numbers:
                for part in (after(site), after(site, 2)):
                    found.append(Drawn(len(found), site, step, number, part))
    return found


def seen(circuit, site):
    """A label for each bit of a site's view."""
    found = [("own input", n) for n in circuit.own_inputs(site)]
    found += [("own tape", label) for label in drawn(circuit) if label.site == site]
    found += [("received", label) for label in sent(circuit) if label.receiver == site]
    found += [("opened", n) for n in range(len(circuit.outputs))]
    return [Seen(bit, group, of) for bit, (group, of) in enumerate(found)]


def by_step(found):
    """Labels by (step, number)."""
    steps = {}
    for label in found:
        steps.setdefault((label.step, label.number), []).append(label)
    return steps
