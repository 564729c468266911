"""Writes the text form of a circuit; parse.py reads it. docs/CIRCUITS.md has the grammar.

A wire that a gate may not read is written by its number, @1500, which the reader of texts takes for any wire: so a bad circuit has a text
too, and it makes the same bytes again.
"""

from . import engine, reasons, words
from .errors import Refused

HEAD = ("# Each line makes one input, gate or output, in the order of their numbers: i0 is input 0, g0 is gate 0.",
        "# A gate reads what stands above it. @7 is the wire of number 7; gate 0 makes wire {inputs}.")


def refusal(circuit):
    """What the engine's check says against a circuit, or None."""
    try:
        engine.check(circuit.file())
    except Refused as refused:
        return refused
    return None


def _operand(circuit, own):
    """How an operand of the gate that makes the wire `own` is written."""
    return lambda wire: circuit.name(wire) if wire < own else f"@{wire}"


def _lines(circuit):
    """(what stands there, its line) for every input, gate and output."""
    inputs = len(circuit.owners)
    for n, owner in enumerate(circuit.owners):
        yield ("input", n), f"input {circuit.names[n]} of site {owner}"
    for n in range(len(circuit.gates)):
        yield ("gate", n), f"{circuit.names[inputs + n]} = {circuit.gate_text(n, _operand(circuit, inputs + n))}"
    for n, wire in enumerate(circuit.outputs):
        label = circuit.labels[n]
        yield ("output", n), f"output {circuit.name(wire)}" + (f" as {label}" if label else "")


def write(circuit):
    """The text of a circuit. Where the check refuses it, what is refused stands as a comment above its line."""
    refused, lines, last = refusal(circuit), [line.format(inputs=len(circuit.owners)) for line in HEAD], None
    at = reasons.place_of(refused) if refused else None
    if refused and at is None:
        lines.append("# " + words.told(refused))
    for what, line in _lines(circuit):
        if what[0] != last:
            lines.append("")
            last = what[0]
        if what == at:
            lines += ["# " + said for said in (words.told(refused), *reasons.reasons(circuit, refused))]
        lines.append(line)
    return "\n".join(lines) + "\n"
