"""Reads the text form of a circuit. docs/CIRCUITS.md has the grammar; text.py writes it.

Every fault is told with its line, all of them at once. What a text can say and the engine refuses (an owner that is no site, a wire that
is not lower) is no fault here: the engine's check speaks of it, and a bad circuit must have a text.
"""

import difflib
import re

from .circuit import AND, NOT, OR, XOR, Circuit
from .errors import Mistake

WORDS = {"XOR": XOR, "AND": AND, "OR": OR, "NOT": NOT}
RESERVED = {"input", "output", "of", "site", "as", "kind", "and", "or", "xor", "not"}
TOKEN = re.compile(r"[^\s=]+|=")
NAME = re.compile(r"[^\W\d][\w.\[\]]*")
FORMS = ("input NAME of site NUMBER", "NAME = WIRE AND WIRE (or XOR, OR)", "NAME = NOT WIRE", "NAME = KIND NUMBER WIRE WIRE",
         "output WIRE [as NAME]")
MOST = 20  # faults are told, so that a screen holds them


class Fault(Exception):
    """What is wrong with one line."""


def is_name(word):
    return bool(NAME.fullmatch(word)) and word.lower() not in RESERVED


def number_of(word, most, what):
    """A number as it stands in a file. Only the signs 0 to 9 are digits."""
    if not re.fullmatch("[0-9]{1,9}", word):
        raise Fault(f"'{word}' stands where {what}, a number, belongs")
    if int(word) > most:
        raise Fault(f"{what} is at most {most}, and {word} does not fit")
    return int(word)


class Parser:
    """The lines read so far. An operand is ("input", n), ("gate", n) or a number: wires are numbered when all inputs are known."""

    def __init__(self):
        self.owners, self.gates, self.outputs = [], [], []
        self.wires, self.made, self.labels, self.lines = {}, {}, {}, {}
        self.faults, self.below = [], {}

    def new_name(self, word, at, line):
        """Takes a name for a wire."""
        if not is_name(word):
            why = "is a word of the form itself" if word.lower() in RESERVED else "is no name: a letter or _, then letters, digits, _ . [ ]"
            raise Fault(f"'{word}' {why}")
        if word in self.wires:
            raise Fault(f"'{word}' is made in line {self.made[word]} already")
        self.wires[word], self.made[word] = at, line

    def wire(self, word):
        """The wire that a word means: a name made above, or @ and a number."""
        if word.startswith("@"):
            return number_of(word[1:], 65535, "a wire's number")
        if word in self.wires:
            return self.wires[word]
        if word in self.below:
            raise Fault(f"'{word}' is made in line {self.below[word]}: a line reads only what stands above it")
        if not is_name(word):
            raise Fault(f"'{word}' stands where a wire belongs: a name made above, or @ and a number")
        close = difflib.get_close_matches(word, self.wires, 1)
        raise Fault(f"'{word}' is made nowhere" + (f"; is it '{close[0]}'?" if close else ""))

    def input(self, words, line):
        if len(words) != 5 or words[2:4] != ["of", "site"]:
            raise Fault("an input is written: " + FORMS[0])
        self.new_name(words[1], ("input", len(self.owners)), line)
        self.lines["input", len(self.owners)] = line
        self.owners.append(0)  # its place is taken even where the number is wrong, so that later lines are judged rightly
        self.owners[-1] = number_of(words[4], 255, "the owner")

    def gate(self, words, line):
        self.new_name(words[0], ("gate", len(self.gates)), line)
        self.lines["gate", len(self.gates)] = line
        self.gates.append((0, 0, 0))
        own = self.wires.pop(words[0])  # a gate does not read itself
        try:
            self.gates[-1] = self.made_of(words[2:])
        finally:
            self.wires[words[0]] = own

    def made_of(self, rest):
        """Kind and operands of what stands behind the equals sign."""
        word = [part.upper() for part in rest]
        if len(rest) == 2 and word[0] == "NOT":
            return NOT, self.wire(rest[1]), 0
        if len(rest) == 3 and word[1] in ("AND", "OR", "XOR"):
            return WORDS[word[1]], self.wire(rest[0]), self.wire(rest[2])
        if len(rest) == 4 and word[0] == "KIND":
            return number_of(rest[1], 65535, "a kind"), self.wire(rest[2]), self.wire(rest[3])
        raise Fault("a gate is written: " + "; ".join(FORMS[1:4]))

    def output(self, words, line):
        if len(words) not in (2, 4) or (len(words) == 4 and words[2] != "as"):
            raise Fault("an output is written: " + FORMS[4])
        self.lines["output", len(self.outputs)] = line
        self.outputs.append(0)
        self.outputs[-1] = self.wire(words[1])
        if len(words) == 4:
            if not is_name(words[3]):
                raise Fault(f"'{words[3]}' is no name")
            if words[3] in self.labels.values():
                raise Fault(f"another output has the name '{words[3]}'")
            self.labels[len(self.outputs) - 1] = words[3]

    def line(self, words, number):
        if len(words) > 1 and words[1] == "=":
            self.gate(words, number)
        elif words[0] == "input":
            self.input(words, number)
        elif words[0] == "output":
            self.output(words, number)
        else:
            raise Fault("a line is one of: " + "; ".join(FORMS))

    def circuit(self):
        """The circuit, when all lines are read: now gate 0's wire is known."""
        def wire(found):
            if isinstance(found, int):
                return found
            number = found[1] if found[0] == "input" else len(self.owners) + found[1]
            if number > 65535:
                raise Mistake(f"there are more wires than numbers for them: wire {number} is read, and 65535 is the last")
            return number

        names = sorted(self.wires, key=lambda name: wire_order(self.wires[name]))
        return Circuit(self.owners, [(kind, wire(first), wire(second)) for kind, first, second in self.gates],
                       [wire(found) for found in self.outputs], names, [self.labels.get(n) for n in range(len(self.outputs))], self.lines)


def wire_order(found):
    return found[0] == "gate", found[1]


def words_of(line):
    return TOKEN.findall(line.split("#", 1)[0])


def parse(text, name="text"):
    """The circuit of a text; Mistake with every fault and its line."""
    parser = Parser()
    lines = [(number, words_of(line)) for number, line in enumerate(text.split("\n"), 1)]
    for number, words in lines:  # what is made where, for a name that is used too early
        if len(words) > 1 and (words[1] == "=" or words[0] == "input"):
            parser.below.setdefault(words[0] if words[1] == "=" else words[1], number)
    for number, words in lines:
        if words:
            try:
                parser.line(words, number)
            except Fault as fault:
                parser.faults.append(f"{name}:{number}: {fault}")
    if parser.faults:
        more = len(parser.faults) - MOST
        raise Mistake(*parser.faults[:MOST], *([f"{name}: and {more} more"] if more > 0 else []))
    return parser.circuit()
