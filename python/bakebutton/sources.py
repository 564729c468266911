"""What a command is given: a circuit (its file or its text) with inputs and tapes, or a job.

Which of the two a circuit is shows by its bytes: a circuit file has zero bytes, in its header already, and a text has none.
"""

import collections
import os
import unicodedata

from . import bits, circuit, engine, jobs, parse, reasons, streams, tapes
from .errors import Mistake

# name: what the file is called, for a title. circuit: None where the reader cannot open the file.
Source = collections.namedtuple("Source", "name file circuit is_text")
# drawn: whether the tapes were drawn here, and not given.
Given = collections.namedtuple("Given", "name file circuit inputs tapes drawn")

CONTROL = frozenset(range(32)) - frozenset(b"\t\n\r")


def title(path):
    return "standard input" if path == "-" else os.path.basename(path)


def decoded(found, path):
    """The text of a text; Mistake where it is none."""
    try:
        text = found.decode("utf-8-sig")
    except UnicodeDecodeError as error:
        line = found[:error.start].count(b"\n") + 1
        raise Mistake(f"{title(path)}:{line}: a byte that is no UTF-8") from None
    for number, line in enumerate(text.split("\n"), 1):
        for sign in line:
            if sign not in "\t\r" and unicodedata.category(sign) in ("Cc", "Cf"):
                raise Mistake(f"{title(path)}:{number}: a control sign that is not seen, {ascii(sign)}")
    return text


def parsed(found, path):
    made = parse.parse(decoded(found, path), title(path))
    return Source(title(path), made.file(), made, True)


def is_text(found):
    return bool(found) and not any(byte in CONTROL for byte in found)


def source(path):
    """A circuit from its text, or from its file as the reader reads it. Refused where the reader cannot open it."""
    found = streams.read(path)
    if is_text(found):
        return parsed(found, path)
    return Source(title(path), found, circuit.read(found), False)


def bits_of(word, what, made=None):
    """Bits as they stand on the command line. made: the circuit whose inputs may be given by name."""
    if word.startswith("@"):
        if word == "@":
            raise Mistake(f"@ for the {what} wants a file's name behind it", status=2)
        return bits.of_bytes(streams.read(word[1:]), what)
    if made is not None and "=" in word:
        return bits.of_names(word, made)
    return bits.of_text(word, what)


def inputs_of(word, found, what="inputs"):
    """The inputs given for a circuit. None are wanted where it has none."""
    names = found.names[:len(found.owners)]
    if word is None:
        if names:
            option = "--second" if what == "second inputs" else "--inputs"
            raise Mistake(f"no {what} are given: {option} and {len(names)} bits, for {' '.join(names[:12])}{' ..' if names[12:] else ''}", status=2)
        return b""
    return bits_of(word, what, found)


def given(words):
    """Circuit, inputs and tapes of a command's words."""
    if words.job is not None:
        if words.circuit or words.inputs or words.tapes:
            raise Mistake("a job has its circuit, inputs and tapes: --job stands alone", status=2)
        job = jobs.apart(streams.read(words.job))
        return Given(title(words.job), job.circuit, circuit.read(job.circuit), job.inputs, job.tapes, False)
    if words.circuit is None:
        raise Mistake("no circuit is given: a CIRCUIT with --inputs, or --job JOB", status=2)
    found = source(words.circuit)
    inputs = inputs_of(words.inputs, found.circuit)
    with reasons.explained(found.circuit):
        engine.check(found.file)
    drawn = tapes.draw(found.file) if words.tapes is None else bits_of(words.tapes, "tapes")
    return Given(found.name, found.file, found.circuit, inputs, drawn, words.tapes is None)
