"""A picture of a circuit as Graphviz text: inputs by site, gates, outputs, and what the check refuses marked. A bad circuit has one too."""

from . import reasons, words
from .circuit import KINDS, NOT
from .show import counts_told

FILL = {1: "#dbe9f6", 2: "#fdf0d0", 3: "#dff0dc"}  # sites 1, 2, 3
MARK = 'color="#c00000", penwidth=3, fontcolor="#c00000"'


def quoted(text):
    """A text between quotes as Graphviz takes it. A line feed is written \\n."""
    return '"' + text.replace("\\", "\\\\").replace('"', '\\"').replace("\n", "\\n") + '"'


def near(circuit, gate, steps):
    """The wires at most so many gates away from a gate, either way."""
    inputs, found = len(circuit.owners), {len(circuit.owners) + gate}
    reads = {inputs + n: set(operands(one)) for n, one in enumerate(circuit.gates)}
    for _ in range(steps):
        below = {wire for own in found for wire in reads.get(own, ()) if wire < circuit.wires}
        above = {own for own, wires in reads.items() if wires & found}
        found = found | below | above
    return found


def operands(gate):
    kind, first, second = gate
    return (first,) if kind == NOT and second == 0 else (first, second)


class Picture:
    """Lines of a picture. shown: the wires to draw; marked: what the check refuses, as ("gate", 310)."""

    def __init__(self, circuit, refused=None, shown=None):
        self.circuit, self.refused = circuit, refused
        self.shown = set(range(circuit.wires)) if shown is None else shown
        self.marked = reasons.place_of(refused) if refused else None
        self.missing, self.left_out = set(), set()

    def node(self, name, label, style, mark=False):
        yield f"  {name} [label={quoted(label)}, {style}{', ' + MARK if mark else ''}];"

    def inputs(self):
        for n, owner in enumerate(self.circuit.owners):
            if n in self.shown:
                style = f'shape=box, style=filled, fillcolor="{FILL.get(owner, "#ffffff")}"'
                yield from self.node(f"w{n}", f"{self.circuit.names[n]}\ninput {n}, site {owner}", style, self.marked == ("input", n))

    def edge(self, wire, own):
        """From a wire to the gate that reads it. What is no lower wire is dashed; what is not drawn gets a small sign in its place."""
        bad = wire >= own
        if wire >= self.circuit.wires:
            self.missing.add(wire)
            source = f"x{wire}"
        elif wire in self.shown:
            source = f"w{wire}"
        else:
            self.left_out.add(wire)
            source = f"l{wire}"
        dashes = ' [style=dashed, color="#c00000"]' if bad else ""
        return f"  {source} -> w{own}{dashes};"

    def gates(self):
        inputs = len(self.circuit.owners)
        for n, gate in enumerate(self.circuit.gates):
            own, mark = inputs + n, self.marked == ("gate", n)
            if own not in self.shown:
                continue
            label = f"{KINDS.get(gate[0], f'KIND {gate[0]}')}\n{self.circuit.names[own]}\ngate {n}, wire {own}"
            label += f"\nrefused {self.refused.number} {self.refused.place}" if mark else ""
            yield from self.node(f"w{own}", label, "shape=ellipse", mark)
            yield from (self.edge(wire, own) for wire in operands(gate))

    def outputs(self):
        for n, wire in enumerate(self.circuit.outputs):
            mark = self.marked == ("output", n)
            if wire in self.shown or mark:
                yield from self.node(f"o{n}", f"{self.circuit.output_name(n)}\noutput {n}", "shape=box, style=rounded", mark)
                if wire >= self.circuit.wires:
                    self.missing.add(wire)
                yield f"  {'w' if wire < self.circuit.wires else 'x'}{wire} -> o{n};"

    def lines(self):
        title = counts_told((len(self.circuit.owners), len(self.circuit.gates), len(self.circuit.outputs)))
        if self.refused:
            title += "\n" + words.told(self.refused)
        yield "digraph circuit {"
        yield f'  graph [rankdir=LR, labelloc=t, label={quoted(title)}, fontname="sans-serif"];'
        yield '  node [fontname="sans-serif", fontsize=11]; edge [arrowsize=0.6];'
        yield from self.inputs()
        yield from self.gates()
        yield from self.outputs()
        for wire in sorted(self.missing):
            yield from self.node(f"x{wire}", f"@{wire}\nno such wire", 'shape=plaintext, fontcolor="#c00000"')
        for wire in sorted(self.left_out):
            yield from self.node(f"l{wire}", f"{self.circuit.name(wire)} ..", 'shape=plaintext, fontcolor="#606060"')
        yield "}"


def write(circuit, refused=None, shown=None):
    return "\n".join(Picture(circuit, refused, shown).lines()) + "\n"
