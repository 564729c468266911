"""Bristol Fashion text read a second time, from the words of request T-01.

The evaluator goes through a text once and stops at the first fault.  Here all
lines are taken apart first, every fault of every line is told, and the first
of them is the refusal.  What a text means, and which file it gives, is worked
out from its wires backwards: each wire is asked which line made it.
"""

import random
import re

from calls import AND, NOT, XOR, Circuit

ROOM = 20000
WORDS = {b"XOR": 2, b"AND": 2, b"INV": 1, b"EQW": 1}  # how many wires it reads
KINDS = {b"XOR": XOR, b"AND": AND, b"INV": NOT}
LIMITS = (1024, 3072, 256)


def lines_of(text):
    """The lines, without their LF.  Behind the last LF there is none."""
    lines = text.split(b"\n")
    return lines if lines[-1] else lines[:-1]


def words_of(line):
    return [word for word in line.replace(b"\r", b" ").split(b" ") if word]


def number(word):
    """The number that a word is, or None."""
    return int(word) if re.fullmatch(rb"[0-9]{1,5}", word) else None


def numbers(words):
    """The numbers that words are, or None if one is not."""
    found = [number(word) for word in words]
    return None if None in found else found


class Gate:
    """A gate line of the right form: its line, word, and wires."""

    def __init__(self, line, words):
        self.line, self.word = line, words[-1]
        self.reads, self.writes = numbers(words[:2])
        wires = numbers(words[2:-1])
        self.operands = wires[:self.reads]
        self.results = wires[self.reads:]


class Text:
    """A text taken apart as far as its form allows.  Of a line that is not of
    its form there is None, and the line is among the bad ones."""

    def __init__(self, text):
        lines = lines_of(text)
        self.lines = len(lines)
        self.full = [(n, words) for n, words in enumerate(
            map(words_of, lines), 1) if words]
        self.bad = set()
        self.said, self.wires = self.header(0, self.counts) or (None, None)
        self.inputs = self.header(1, self.widths)
        self.outputs = self.header(2, self.widths)
        self.gates = [self.gate(line, words) for line, words in self.full[3:]]

    def header(self, which, form):
        if which >= len(self.full):
            return None
        line, words = self.full[which]
        found = form(numbers(words))
        if found is None:
            self.bad.add(line)
        return found

    def counts(self, found):
        good = found is not None and len(found) == 2 and found[1] <= 8192
        return found if good else None

    def widths(self, found):
        if found is None or self.wires is None or len(found) != found[0] + 1:
            return None
        return found[1:] if sum(found[1:]) <= self.wires else None

    def gate(self, line, words):
        """A gate line whose form is good, whatever its word is."""
        counts = numbers(words[:2])
        form = (self.wires is not None and counts is not None
                and len(counts) == 2 and len(words) == 3 + sum(counts))
        wires = numbers(words[2:-1]) if form else None
        if wires is None or any(wire >= self.wires for wire in wires):
            self.bad.add(line)
            return None
        gate = Gate(line, words)
        if gate.word in WORDS and (gate.reads, gate.writes) != (
                WORDS[gate.word], 1):
            self.bad.add(line)
        return gate

    def makers(self):
        """Which line first writes a wire; 0 for an input."""
        made = dict.fromkeys(range(sum(self.inputs or [])), 0)
        for gate in self.gates:
            if gate is not None:
                for wire in gate.results:
                    made.setdefault(wire, gate.line)
        return made

    def faults(self):
        """Every fault that has a line, as (line, number)."""
        found = [(line, 15) for line in self.bad]
        if self.said is not None:
            found += [(line, 15) for line, _ in self.full[3 + self.said:]]
        made = self.makers()
        for gate in filter(None, self.gates):
            if gate.word not in WORDS:
                found.append((gate.line, 16))
            early = [wire for wire in gate.operands
                     if made.get(wire, gate.line) >= gate.line]
            twice = [wire for wire in gate.results
                     if made[wire] < gate.line]
            if early or twice:
                found.append((gate.line, 17))
        return found

    def missing(self):
        """Whether a line is, where no line there is has a fault."""
        return len(self.full) < 3 or len(self.gates) < self.said

    def opened(self):
        """The outputs, "the highest" wires."""
        return range(self.wires - sum(self.outputs), self.wires)

    def counts_of_ours(self):
        return (sum(self.inputs),
                sum(gate.word != b"EQW" for gate in self.gates),
                sum(self.outputs))


def faults_of(text, owners, room):
    """The refusals that are due at each stage, in their order, as far as what
    stands before lets them be told.  The first of them goes out."""
    if room != ROOM:
        yield 10, 0
    read = Text(text)
    lines = read.faults()
    yield from ((refusal, line) for line, refusal in sorted(lines))
    if lines:
        return
    if read.missing():
        yield 15, read.lines
        return
    made = read.makers()
    if any(wire not in made for wire in read.opened()):
        yield 17, read.lines
    if len(owners) != len(read.inputs):
        yield 4, len(read.inputs)
    else:
        yield from ((4, n) for n, owner in enumerate(owners)
                    if owner not in (1, 2, 3))
    yield from ((2, place) for place, (count, most) in enumerate(zip(
        read.counts_of_ours(), LIMITS)) if count > most)


def refusal_of(text, owners, room):
    return next(faults_of(text, owners, room), None)


# What a good text means, and the file that it gives.

def values_of(read, inputs):
    """The plain values of a text's wires, by its own meaning."""
    value = dict(enumerate(inputs))
    for gate in read.gates:
        x = [value[wire] for wire in gate.operands]
        value[gate.results[0]] = {
            b"XOR": lambda: x[0] ^ x[1], b"AND": lambda: x[0] & x[1],
            b"INV": lambda: 1 - x[0], b"EQW": lambda: x[0]}[gate.word]()
    return value


def circuit_of(text, owners):
    """Our circuit of a good text: each wire is that of the line which made it,
    and that of an EQW the one which it reads."""
    read = Text(text)
    makers = {gate.results[0]: gate for gate in read.gates}
    ours = [gate for gate in read.gates if gate.word != b"EQW"]
    inputs = sum(read.inputs)
    place = {gate.line: inputs + n for n, gate in enumerate(ours)}

    def wire(of):
        while of in makers and makers[of].word == b"EQW":
            of = makers[of].operands[0]
        return place[makers[of].line] if of in makers else of

    records = [(KINDS[gate.word], *map(wire, gate.operands), 0)[:3]
               for gate in ours]
    return Circuit([owner for owner, width in zip(owners, read.inputs)
                    for _ in range(width)], records,
                   [wire(of) for of in read.opened()])


def some_inputs(count):
    """All inputs where they are few, and some drawn ones where they aren't."""
    if count <= 3:
        return [[n >> k & 1 for k in range(count)] for n in range(1 << count)]
    rng = random.Random(count)
    return [[rng.getrandbits(1) for _ in range(count)] for _ in range(5)]


def wrong_file(text, owners, circuit, plain):
    """What is wrong with the circuit of a written file.  `plain` has the plain
    values of its wires, by document 01."""
    wanted, read = circuit_of(text, owners), Text(text)
    if circuit.owners != wanted.owners:
        return "the owners"
    if circuit.file() != wanted.file():
        return "the gates or the outputs"
    for inputs in some_inputs(len(circuit.owners)):
        value, ours = values_of(read, inputs), plain(circuit, inputs)
        if ([value[wire] for wire in read.opened()]
                != [ours[wire] for wire in circuit.outputs]):
            return "the plain outputs"
    return None
