"""Commands about a circuit alone: texts and file, the check, lengths, traffic, a picture, words."""

import sys

from . import circuit, engine, picture, reasons, sources, streams, text, words
from .errors import Mistake, Refused
from .show import counts_told, table


def refused_lines(refused, name):
    """A refusal for a person: the numbers and their words, then what more is known."""
    return [f"{name}: {words.told(refused)}", *(f"    {reason}" for reason in refused.reasons)]


def check(found):
    """The counts of a circuit, or its refusal with reasons."""
    with reasons.explained(found.circuit):
        return engine.check(found.file)


def file(words_):
    """Text to circuit file."""
    streams.ready(words_.out, [words_.text])
    streams.binary_ready(words_.out)
    found = sources.parsed(streams.read(words_.text), words_.text)
    try:
        check(found)
    except Refused:
        if not words_.anyway:
            raise
        streams.write(words_.out, found.file)
        raise
    streams.write(words_.out, found.file)


def bristol(words_):
    """Bristol Fashion text to circuit file."""
    streams.ready(words_.out, [words_.text])
    streams.binary_ready(words_.out)
    found = streams.read(words_.text)
    try:
        made = engine.from_bristol(found, words_.owners)
    except Refused as refused:
        refused.reasons = reasons.of_text(found, refused)
        raise
    streams.write(words_.out, made)


def to_text(words_):
    """Circuit file to text. A refused circuit has a text too, so the refusal is told and is no failure."""
    streams.ready(words_.out, [words_.file])
    stored = streams.read(words_.file)
    if sources.is_text(stored):
        raise Mistake(f"{sources.title(words_.file)} is a text already")
    made = circuit.read(stored)
    streams.write(words_.out, text.write(made))
    refused = text.refusal(made)
    if refused:
        print(f"bakebutton: {sources.title(words_.file)} is written as text, and is {words.told(refused)}", file=sys.stderr)


def told_check(words_):
    """The check's answer on standard output, with all that is known of a refusal."""
    found = None
    try:
        found = sources.source(words_.circuit)
        counts = check(found)
    except Refused as refused:
        print("\n".join(refused_lines(refused, sources.title(words_.circuit))))
        return 1
    print(f"{found.name}: good: {counts_told(counts)}")
    return 0


def sizes(words_):
    found = sources.source(words_.circuit)
    with reasons.explained(found.circuit):
        answer = engine.sizes(found.file)
    print("\n".join(table(["slice or buffer", "bytes"], [[name.replace("view_", "view of site "), count] for name, count in answer._asdict().items()],
                          ("bytes",))))


def traffic(words_):
    found = sources.source(words_.circuit)
    with reasons.explained(found.circuit):
        rows = engine.traffic(found.file)
    print("\n".join(table(["bits sent", "to 1", "to 2", "to 3"], [[f"from {n}", *row] for n, row in enumerate(rows, 1)], ("to 1", "to 2", "to 3"))))
    print(f"total {sum(map(sum, rows))}; the comparing copies of the openings are left out")


def draw(words_):
    """A picture, of all or of what is near a gate. A refused circuit has one too; only what the reader cannot open has none."""
    streams.ready(words_.out, [words_.circuit])
    found = sources.source(words_.circuit)
    refused, shown = text.refusal(found.circuit), None
    if words_.near is not None:
        gate = words_.gate
        if gate is None and refused and reasons.place_of(refused) and refused.number == 5:
            gate = refused.place
        if gate is None:
            raise Mistake("--near wants --gate: the check refuses no gate of this circuit", status=2)
        if gate >= len(found.circuit.gates):
            raise Mistake(f"there is no gate {gate}: the circuit has {len(found.circuit.gates)}", status=2)
        shown = picture.near(found.circuit, gate, words_.near)
    elif words_.gate is not None:
        raise Mistake("--gate wants --near: how many gates away is to be drawn", status=2)
    streams.write(words_.out, picture.write(found.circuit, refused, shown))


def explain(words_):
    """Words for a number and a place."""
    found = words.of(words_.number, words_.place)
    if found is None:
        raise Mistake(f"the engine has no answer {words_.number} {words_.place}")
    print(found)
