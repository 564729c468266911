"""A circuit as numbers, good or bad, and the names that a person gave them.

A circuit is read from a file by the library's questions, so what stands here is what the engine reads. Nothing is judged here: numbers
are kept as they stand, and `engine.check` says whether the circuit is good.
"""

import struct

from . import engine

XOR, AND, NOT, OR = 1, 2, 3, 4
KINDS = {XOR: "XOR", AND: "AND", NOT: "NOT", OR: "OR"}
PRODUCTS = (AND, OR)  # the kinds for which bits are sent
SITES = (1, 2, 3)


def after(site, steps=1):
    """Sites and parts go in a ring: after 3 comes 1."""
    return (site - 1 + steps) % 3 + 1


class Circuit:
    """owners: a number each. gates: (kind, first, second). outputs: wire numbers.

    names has one for each wire, labels one for each output or None; lines says in which line of a text an input, gate or output stands,
    ("gate", 310) for instance."""

    def __init__(self, owners, gates, outputs, names=None, labels=None, lines=None):
        self.owners, self.gates, self.outputs = list(owners), [tuple(gate) for gate in gates], list(outputs)
        self.names = list(names or self.plain_names())
        self.labels = list(labels or [None] * len(self.outputs))
        self.lines = dict(lines or {})

    def plain_names(self):
        """Names for a circuit that has none: i and an input's number, g and a gate's, so that `gate 310` is g310."""
        return [f"i{n}" for n in range(len(self.owners))] + [f"g{n}" for n in range(len(self.gates))]

    @property
    def wires(self):
        return len(self.owners) + len(self.gates)

    def name(self, wire):
        """A wire's name, or @ and its number where there is no such wire."""
        return self.names[wire] if wire < self.wires else f"@{wire}"

    def output_name(self, number):
        return self.labels[number] or self.name(self.outputs[number])

    def step_name(self, kind, number):
        """An input, gate or output in words: its number, which the engine speaks of, and its name."""
        if kind == "output":
            return f"output {number} {self.output_name(number)}"
        return f"{kind} {number} {self.name(number if kind == 'input' else len(self.owners) + number)}"

    def gate_text(self, number, operand=None):
        """A gate as the text form writes what stands behind the equals sign."""
        kind, first, second = self.gates[number]
        operand = operand or self.name
        if kind == NOT and second == 0:
            return f"NOT {operand(first)}"
        if kind in (XOR, AND, OR):
            return f"{operand(first)} {KINDS[kind]} {operand(second)}"
        return f"KIND {kind} {operand(first)} {operand(second)}"

    def own_inputs(self, site):
        return [n for n, owner in enumerate(self.owners) if owner == site]

    def product_gates(self):
        """The AND and OR gates, by number."""
        return [n for n, gate in enumerate(self.gates) if gate[0] in PRODUCTS]

    def file(self):
        """The circuit file, byte by byte as docs/FORMAT.md has it."""
        gates_at = 32 + len(self.owners)
        outputs_at = gates_at + 6 * len(self.gates)
        header = (outputs_at + 2 * len(self.outputs), len(self.owners), len(self.gates), len(self.outputs), 32, gates_at, outputs_at, 0)
        return b"".join([struct.pack("<8I", *header), bytes(self.owners), *(struct.pack("<3H", *gate) for gate in self.gates),
                         struct.pack(f"<{len(self.outputs)}H", *self.outputs)])


def read(file):
    """The circuit of a file that the reader can open; Refused where it cannot."""
    counts = engine.open_file(file)
    return Circuit([engine.owner(file, n) for n in range(counts.inputs)],
                   [engine.gate(file, n) for n in range(counts.gates)],
                   [engine.output(file, n) for n in range(counts.outputs)])
