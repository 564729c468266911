"""Writes streams of calls for the evaluator; docs/TRIALS.md has their form.

    python3 evaluator/calls.py marked > FILE

writes the stream of the marked examples K1 to K12, of the edges, and of small
Bristol Fashion texts.
"""

import struct
import sys

XOR, AND, NOT, OR = 1, 2, 3, 4
ODD = 0xA5  # fills a lent buffer before a call, so that "unchanged" is seen


def u32(number):
    return struct.pack("<I", number)


class Circuit:
    """Owners, gates as (kind, first, second), and output wires."""

    def __init__(self, owners, gates, outputs):
        self.owners, self.gates, self.outputs = owners, gates, outputs

    @property
    def wires(self):
        return len(self.owners) + len(self.gates)

    @property
    def products(self):
        return sum(kind in (AND, OR) for kind, _, _ in self.gates)

    def tapes_length(self):
        return 2 * len(self.owners) + 6 * self.products

    def line_length(self):
        return (4 * len(self.owners) + 12 * self.products
                + 6 * len(self.outputs))

    def view_length(self, site):
        return (2 * len(self.owners) + self.owners.count(site)
                + 6 * self.products + 3 * len(self.outputs))

    def file(self):
        gates_at = 32 + len(self.owners)
        outputs_at = gates_at + 6 * len(self.gates)
        length = outputs_at + 2 * len(self.outputs)
        header = (length, len(self.owners), len(self.gates),
                  len(self.outputs), 32, gates_at, outputs_at, 0)
        return (struct.pack("<8I", *header) + bytes(self.owners)
                + b"".join(struct.pack("<3H", *gate) for gate in self.gates)
                + b"".join(struct.pack("<H", wire) for wire in self.outputs))


def bits(text):
    """The bits of a text such as "1011 0101 10", one byte each."""
    return bytes(int(sign) for sign in text if sign in "01")


def odd(length, byte=ODD):
    return bytes([byte]) * length


def job(file, inputs, tapes):
    """A job of the listing program."""
    second = 16 + len(file)
    third = second + len(inputs)
    header = struct.pack("<4I", third + len(tapes), 16, second, third)
    return header + file + inputs + tapes


# The calls, each with what it is given and what it is lent, as bytes.

def _call(which, number, *slices):
    return bytes([which]) + u32(number) + b"".join(
        u32(len(part)) + part for part in slices)


def call_open(file):
    return _call(1, 0, file)


def call_gate(file, number):
    return _call(2, number, file)


def call_owner(file, number):
    return _call(3, number, file)


def call_output(file, number):
    return _call(4, number, file)


def call_check(file):
    return _call(5, 0, file)


def call_plain(file, inputs, values):
    return _call(6, 0, file, inputs, values)


def call_run(file, inputs, tapes, line, outputs, transcript, store):
    return _call(7, 0, file, inputs, tapes, line, outputs, transcript, store)


def call_view(file, inputs, tapes, site, view, store):
    return _call(8, site, file, inputs, tapes, view, store)


def call_retape(file, inputs, tapes, second, site, new_tapes, room):
    return _call(9, site, file, inputs, tapes, second, new_tapes, room)


def call_traffic(file):
    return _call(10, 0, file)


def call_listing(whole_job):
    return _call(11, 0, whole_job)


def call_gate_read(file, counts, number):
    return _call(12, number, file, counts)


def call_owner_read(file, counts, number):
    return _call(13, number, file, counts)


def call_output_read(file, counts, number):
    return _call(14, number, file, counts)


def call_from_bristol(text, owners, room=20000):
    """The room is told by its length; what stands in it is always the same."""
    return _call(15, room, text, owners)


# The same calls for a good circuit, lent buffers of the right lengths with
# odd bytes in them.

def plain_of(circuit, inputs):
    return call_plain(circuit.file(), inputs, odd(circuit.wires))


def run_of(circuit, inputs, tapes, set_bits=(), byte=ODD):
    length = circuit.line_length()
    line = bytes(n in set_bits for n in range(length))
    return call_run(circuit.file(), inputs, tapes, line,
                    odd(3 * len(circuit.outputs), byte), odd(length, byte),
                    odd(6 * circuit.wires, byte))


def view_of(circuit, inputs, tapes, site):
    length = circuit.view_length(site) if site in (1, 2, 3) else 0
    return call_view(circuit.file(), inputs, tapes, site, odd(length),
                     odd(6 * circuit.wires))


def retape_of(circuit, inputs, tapes, second, site):
    return call_retape(circuit.file(), inputs, tapes, second, site,
                       odd(circuit.tapes_length()), odd(4 * circuit.wires))


MARKED = Circuit([1, 2], [(AND, 0, 1)], [2])
TAPES = bits("1011 0101 10")


def marked_examples():
    """K1 to K12, each call with its name."""
    file, both, first, second, none = MARKED.file(), *map(
        bits, ("1 1", "1 0", "0 1", "0 0"))

    def run(*set_bits, byte=ODD):
        return run_of(MARKED, both, TAPES, set_bits, byte)

    return [
        ("K1 run", run()),
        ("K1 plain", plain_of(MARKED, both)),
        ("K1 open", call_open(file)),
        ("K1 check", call_check(file)),
        ("K1 gate 0", call_gate(file, 0)),
        ("K1 owner 1", call_owner(file, 1)),
        ("K1 output 0", call_output(file, 0)),
        ("K1 gate 65536", call_gate(file, 65536)),
        ("K1 owner 2", call_owner(file, 2)),
        ("K1 output 1", call_output(file, 1)),
        ("K1 listing", call_listing(job(file, both, TAPES))),
        ("K2", run(byte=0x5A)),
        ("K3", view_of(MARKED, both, TAPES, 3)),
        ("K4", run(20)),
        ("K5", run(23, 24)),
        ("K6", run(8)),
        ("K7", run(0)),
        ("K8", retape_of(MARKED, first, TAPES, second, 3)),
        ("K9", retape_of(MARKED, both, TAPES, first, 3)),
        ("K10", retape_of(MARKED, first, TAPES, none, 1)),
        ("K11 AND 0 2",
         call_check(Circuit([1, 2], [(AND, 0, 2)], [2]).file())),
        ("K11 AND 0 0",
         call_check(Circuit([1, 2], [(AND, 0, 0)], [2]).file())),
        ("K12", call_traffic(file)),
    ]


def empty_circuit():
    """The empty circuit through every call."""
    empty, none = Circuit([], [], []), b""
    file = empty.file()
    return [
        ("empty open", call_open(file)),
        ("empty gate", call_gate(file, 0)),
        ("empty owner", call_owner(file, 0)),
        ("empty output", call_output(file, 0)),
        ("empty check", call_check(file)),
        ("empty plain", plain_of(empty, none)),
        ("empty run", run_of(empty, none, none)),
        ("empty view", view_of(empty, none, none, 1)),
        ("empty view 0", view_of(empty, none, none, 0)),
        ("empty retape", retape_of(empty, none, none, none, 2)),
        ("empty retape 4", retape_of(empty, none, none, none, 4)),
        ("empty traffic", call_traffic(file)),
        ("empty listing", call_listing(job(file, none, none))),
        ("empty from_bristol", call_from_bristol(b"0 0\n0\n0\n", none)),
    ]


def edges():
    """The limits, tapes one short and one long, and the empty circuit."""
    def counts(inputs, gates, outputs):
        owners = [n % 3 + 1 for n in range(inputs)]
        records = [(n % 2 + 1, n, 0) for n in range(gates)]
        wires = [n % (inputs + gates) for n in range(outputs)]
        return call_check(Circuit(owners, records, wires).file())

    both = bits("1 1")
    return [
        ("I 1024", counts(1024, 0, 1)),
        ("I 1025", counts(1025, 0, 1)),
        ("G 3072", counts(1, 3072, 1)),
        ("G 3073", counts(1, 3073, 1)),
        ("O 256", counts(3, 2, 256)),
        ("O 257", counts(3, 2, 257)),
        ("all at their limits", counts(1024, 3072, 256)),
        ("tapes one short", run_of(MARKED, both, TAPES[:-1])),
        ("tapes one long", run_of(MARKED, both, TAPES + b"\0")),
    ] + empty_circuit()


def text_of(*lines, end="\n"):
    return "".join(line + end for line in lines).encode()


AND_TEXT = ["1 3", "2 1 1", "1 1", "2 1 0 1 2 AND"]  # of the marked circuit


def good_texts():
    """Bristol Fashion texts that are good, each with its name."""
    def named(name, owners, *lines):
        return "text " + name, call_from_bristol(text_of(*lines),
                                                 bytes(owners))

    crooked = ("\r\n  1 3\n\n2\r1  1 \r\n1 1\n \r \n"
               " 2 1 0 1 2 AND\n\n   ").encode()
    return [
        named("AND", [1, 2], *AND_TEXT),
        named("XOR", [3, 1], *AND_TEXT[:3], "2 1 1 0 2 XOR"),
        named("INV", [2], "1 2", "1 1", "1 1", "1 1 0 1 INV"),
        named("EQW", [1], "1 2", "1 1", "1 1", "1 1 0 1 EQW"),
        named("EQW of an EQW", [3], "4 6", "1 2", "1 1", "1 1 1 3 EQW",
              "1 1 3 2 EQW", "2 1 2 0 4 AND", "1 1 4 5 EQW"),
        named("an input opened", [2, 3], "1 3", "2 1 1", "1 2",
              "2 1 0 1 2 XOR"),
        named("wires in any order", [2, 1], "5 9", "2 2 1", "2 1 1",
              "2 1 0 1 6 XOR", "1 1 6 3 INV", "2 1 3 2 8 AND",
              "1 1 8 4 EQW", "1 1 4 7 INV"),
        named("widths of 0", [1, 2, 3], "0 1", "3 0 1 0", "2 0 1"),
        named("leading zeros", [1, 2], "00001 0003", "2 01 00001", "001 1",
              "2 1 00000 01 00002 AND"),
        ("text CR LF", call_from_bristol(text_of(*AND_TEXT, end="\r\n"),
                                         b"\1\2")),
        ("text blank lines", call_from_bristol(crooked, b"\1\2")),
        ("text no last LF", call_from_bristol(text_of(*AND_TEXT)[:-1],
                                              b"\1\2")),
        named("I 1024", [1], "0 1024", "1 1024", "0"),
        named("O 256", [3], "0 256", "1 256", "1 256"),
    ]


def refused_gates():
    """Gate lines with a fault, or with some: the first one counts."""
    def named(first, *lines):
        return ("text " + ", ".join(lines), call_from_bristol(text_of(
            first, *AND_TEXT[1:3], *lines), b"\1\2"))

    alone = ["2 1 000000 1 2 AND", "2 1 0 1 3 AND", "1 1 0 2 AND",
             "2 1 0 1 99999 FOO", "3 1 0 1 1 2 MAND", "2 1 0 1 2 and",
             "2 1 0 1 0 3", "2 1 2 0 2 AND", "2 1 0 2 2 XOR", "1 1 0 1 INV"]
    return [*(named("1 3", line) for line in alone),
            named("2 4", "2 1 0 1 2 AND", "1 1 0 2 EQW"),
            named("2 4", "1 1 2 3 INV", "2 1 0 1 9 AND"),
            named("2 4", "2 1 0 1 9 AND", "1 1 2 3 INV"),
            named("1 4", "1 1 0 3 INV", "1 1 2 3 OR"),
            named("2 4", "1 1 0 2 INV")]


def refused_texts():
    """The same of rooms, header lines, owners and limits."""
    def named(name, *lines, owners=(1, 2), room=20000):
        return "text " + name, call_from_bristol(text_of(*lines),
                                                 bytes(owners), room)

    return [
        named("room 19999", *AND_TEXT, room=19999),
        named("room 20001 and all else bad", "", owners=[], room=20001),
        ("text empty", call_from_bristol(b"", b"\1\2")),
        named("blank", ""),
        named("wires 8193", "1 8193", *AND_TEXT[1:]),
        named("a width less", "1 3", "2 1", *AND_TEXT[2:]),
        named("a sum above the wires", *AND_TEXT[:2], "2 1 3", AND_TEXT[3]),
        named("a tab behind the gate word", *AND_TEXT[:3],
              AND_TEXT[3] + "\t"),
        named("a line missing, blank ones behind", *AND_TEXT[:3], "", "\r"),
        named("an output never written", "0 3", *AND_TEXT[1:3], owners=[]),
        named("an owner less", *AND_TEXT, owners=[4]),
        named("a bad owner", *AND_TEXT, owners=[3, 0]),
        named("a bad owner of a width of 0", "0 1", "2 1 0", "1 1",
              owners=[1, 4]),
        named("I 1025, a bad owner", "0 1025", "1 1025", "0", owners=[4]),
        named("I 1025, O 257", "0 1025", "1 1025", "1 257", owners=[1]),
        named("O 257", "0 257", "1 257", "1 257", owners=[1]),
    ]


def marked():
    return (marked_examples() + edges() + good_texts() + refused_gates()
            + refused_texts())


if __name__ == "__main__":
    if sys.argv[1:] != ["marked"]:
        sys.exit("python3 evaluator/calls.py marked > FILE")
    sys.stdout.buffer.write(b"".join(call for _, call in marked()))
