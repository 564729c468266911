"""A run on a clean line told once more, over Python's own lists: the parts of
all wires, a site's view, and the new tapes of a re-taping by their rule.

The evaluator finds new tapes by trying draws until the site receives what it
received.  Here they are worked out: the site gets the next site's second draw
and the part that is not drawn, so the first draw moves as the shared value
does.  The one before deals the site its two draws, and they stay.
"""

from calls import NOT, OR, XOR


def after(site):
    return site % 3 + 1


class Run:
    """The parts of all wires, and every deal: who shares, where on the tapes
    its draws stand, the value and its parts.  At the deals of the site `moved`
    the first draw is moved so that `values` would have been shared alike."""

    def __init__(self, circuit, inputs, tapes, moved=None, values=None):
        self.circuit, self.inputs = circuit, inputs
        self.tapes, self.moved, self.values = bytearray(tapes), moved, values
        self.starts, self.deals, self.parts = {}, [], []
        at = 0
        for site in (1, 2, 3):
            self.starts[site] = at
            at += 2 * (circuit.owners.count(site) + circuit.products)
        self.ends = {1: self.starts[2], 2: self.starts[3], 3: at}
        self.places = dict(self.starts)
        for owner, value in zip(circuit.owners, inputs):
            self.parts.append(self.share(owner, value))
        for gate in circuit.gates:
            self.parts.append(self.gate(*gate))

    def share(self, site, value):
        at = self.places[site]
        self.places[site] += 2
        if site == self.moved:
            self.tapes[at] ^= value ^ self.values[at]
        one, two = self.tapes[at:at + 2]
        parts = {after(site): one, after(after(site)): two,
                 site: value ^ one ^ two}
        self.deals.append((site, at, value, parts))
        return parts

    def gate(self, kind, first, second):
        x, y = self.parts[first], self.parts[second]
        if kind == NOT:
            return flipped(x)
        if kind == XOR:
            return xored(x, y)
        if kind == OR:
            return flipped(self.product(flipped(x), flipped(y)))
        return self.product(x, y)

    def product(self, x, y):
        parts = {1: 0, 2: 0, 3: 0}
        for s in (1, 2, 3):
            t = after(s)
            value = x[s] & y[s] ^ x[s] & y[t] ^ x[t] & y[s]
            parts = xored(parts, self.share(s, value))
        return parts

    def value(self, wire):
        return self.parts[wire][1] ^ self.parts[wire][2] ^ self.parts[wire][3]

    def pairs(self, site):
        return bytes(part for parts in self.parts
                     for part in (parts[site], parts[after(site)]))

    def store(self):
        return b"".join(self.pairs(site) for site in (1, 2, 3))

    def view(self, site):
        """Own inputs, own tape, delivered bits, opened bits."""
        own = [value for owner, value in zip(self.circuit.owners, self.inputs)
               if owner == site]
        tape = self.tapes[self.starts[site]:self.ends[site]]
        got = [part for sender, _, _, parts in self.deals if sender != site
               for part in (parts[site], parts[after(site)])]
        for wire in self.circuit.outputs:
            got += 2 * [self.parts[wire][after(after(site))]]
        opened = [self.value(wire) for wire in self.circuit.outputs]
        return bytes([*own, *tape, *got, *opened])


def flipped(parts):
    return {**parts, 1: 1 - parts[1]}


def xored(x, y):
    return {part: x[part] ^ y[part] for part in (1, 2, 3)}


def new_tapes(circuit, inputs, tapes, second, site):
    """The tapes that explain the site's view by the second inputs."""
    first = Run(circuit, inputs, tapes)
    values = {at: value for _, at, value, _ in first.deals}
    return bytes(Run(circuit, second, tapes, after(site), values).tapes)
