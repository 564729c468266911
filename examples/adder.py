"""An adder in Bristol Fashion: two numbers of 64 bits, lowest bit first, and their sum modulo 2 ** 64.

    python3 -B examples/adder.py > examples/circuits/adder64.bristol

writes the stored text; evaluator/sums.py holds it to this and to plain sums.
"""

BITS = 64


class Text:
    """Gate lines as they are made; each answers the wire that it writes."""

    def __init__(self, inputs):
        self.wires, self.lines = inputs, []

    def gate(self, word, *reads):
        self.lines.append(" ".join(map(str, [len(reads), 1, *reads, self.wires, word])))
        self.wires += 1
        return self.wires - 1


def adder(bits):
    """A full adder has one AND: the carry changes only where both bits differ from it. The last carry is not made."""
    text = Text(2 * bits)
    sums, carry = [text.gate("XOR", 0, bits)], text.gate("AND", 0, bits)
    for n in range(1, bits):
        one = text.gate("XOR", n, carry)
        sums.append(text.gate("XOR", one, bits + n))
        if n < bits - 1:
            two = text.gate("XOR", bits + n, carry)
            carry = text.gate("XOR", text.gate("AND", one, two), carry)
    for wire in sums:  # outputs are the highest wires
        text.gate("EQW", wire)
    return "\n".join([f"{len(text.lines)} {text.wires}", f"2 {bits} {bits}", f"1 {bits}", "", *text.lines]) + "\n"


if __name__ == "__main__":
    print(adder(BITS), end="")
