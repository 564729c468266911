"""More words for a refusal of the engine's: which input, gate or output it speaks of, and what of it is wrong.

The engine says that gate 310 is wrong and not why. Only what it has refused is looked at here; whether it is refused is never asked.
"""

import contextlib

from .circuit import KINDS, NOT
from .errors import Refused

PARTS = {4: "input", 5: "gate", 6: "output"}
SLICES = {7: "inputs", 8: "tapes", 9: "line", 12: "second inputs"}


def place_of(refused):
    """("gate", 310) for 5 310; None where the place is none of a circuit's."""
    part = PARTS.get(refused.number)
    return None if part is None or refused.mark else (part, refused.place)


def _gate(circuit, number):
    kind, first, second = circuit.gates[number]
    own = len(circuit.owners) + number
    yield f"gate {number} makes wire {own} and is stored as kind {kind} ({KINDS.get(kind, 'no kind')}), first {first}, second {second}"
    if kind not in KINDS:
        yield f"kind {kind} is none of 1 XOR, 2 AND, 3 NOT, 4 OR"
        return
    operands = [("first", first)] + ([] if kind == NOT else [("second", second)])
    for which, wire in operands:
        if wire >= own:
            missing = f": the circuit has {circuit.wires} wires" if wire >= circuit.wires else ""
            yield f"its {which}, wire {wire}, is not lower than its own{missing}"
    if kind == NOT and second != 0:
        yield f"a NOT reads one wire, and its second must be 0: it is {second}"


def _differs(circuit, place):
    """13's place is an input, or behind the inputs an output."""
    inputs = len(circuit.owners)
    if place < inputs:
        return f"{circuit.step_name('input', place)} is the site's own, and the second inputs change it"
    return f"{circuit.step_name('output', place - inputs)} opens another bit with the second inputs"


def reasons(circuit, refused, given=None):
    """Lines for a person. given: how many bits of each slice there were."""
    found = []
    if refused.mark:
        return found
    if refused.number == 4:
        found.append(f"its owner is stored as {circuit.owners[refused.place]}")
    elif refused.number == 5:
        found += _gate(circuit, refused.place)
    elif refused.number == 6:
        found.append(f"it is stored as wire {circuit.outputs[refused.place]}, and the circuit has {circuit.wires} wires")
    elif refused.number == 13:
        found.append(_differs(circuit, refused.place))
    elif refused.number in SLICES and given and SLICES[refused.number] in given:
        found.append(f"{given[SLICES[refused.number]]} bits were given for the {SLICES[refused.number]}")
    return found


LONGEST_LINE = 100


def of_text(text, refused):
    """The line of a Bristol Fashion text that its refusal names, with signs that are not seen spelled out."""
    lines = text.split(b"\n")
    lines = lines if lines[-1] else lines[:-1]  # behind the last line feed there is no line
    if refused.number not in (15, 16, 17) or not 0 < refused.place <= len(lines):
        return []
    line = lines[refused.place - 1].strip(b" \r")
    signs = "".join(chr(byte) if 32 <= byte < 127 else f"\\x{byte:02x}" for byte in line[:LONGEST_LINE])
    return [f"line {refused.place} of {len(lines)} is: {signs}{' ..' if line[LONGEST_LINE:] else ''}".rstrip()]


@contextlib.contextmanager
def explained(circuit, **given):
    """Adds these words to a refusal that comes out of the block, the line of a text first where the circuit came from one.

    given: the slices by name, `second_inputs` for the second ones."""
    try:
        yield
    except Refused as refused:
        lengths = {name.replace("_", " "): len(found) for name, found in given.items() if found is not None}
        line = circuit.lines.get(place_of(refused))
        refused.reasons = [*([f"it stands in line {line} of the text"] if line else []), *reasons(circuit, refused, lengths)]
        raise
