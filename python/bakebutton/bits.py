"""Bits as people write them. In the engine a bit is a byte, 0 or 1; here also the signs 0 and 1, apart or together, or names with values.

    11    "1011 0101 10"    a=1,b=0    @FILE (any of the first two, or the bytes themselves)    @- (standard input)
"""

import re

from .errors import Mistake

SIGNS = b"01 \t\r\n_"
NAMED = re.compile(r"([^\s,=]+)=([01])")


def of_text(text, what):
    """The bits of a text of 0 and 1."""
    for n, sign in enumerate(text):
        if sign not in "01 \t\r\n_":
            raise Mistake(f"the {what} are the signs 0 and 1, and sign {n + 1} is {sign!r}", status=2)
    return bytes(int(sign) for sign in text if sign in "01")


def of_bytes(found, what):
    """The bits of a file. Bytes that are neither text nor bits go to the engine as they are, which says where the first wrong one is."""
    if found and all(byte in SIGNS for byte in found):
        return of_text(found.decode("ascii"), what)
    if found and all(32 <= byte < 127 or byte in b"\t\r\n" for byte in found):
        return of_text(found.decode("ascii"), what)  # a text with other signs: this names the first
    return found


def of_names(text, circuit):
    """Inputs by name: each of the circuit's once, in any order."""
    found = {}
    for word in re.split(r"[\s,]+", text.strip()):
        named = NAMED.fullmatch(word)
        if not named:
            raise Mistake(f"'{word}' is not NAME=0 or NAME=1", status=2)
        name, bit = named.groups()
        if name not in circuit.names[:len(circuit.owners)]:
            raise Mistake(f"the circuit has no input '{name}'", status=2)
        if name in found:
            raise Mistake(f"input '{name}' is given twice", status=2)
        found[name] = int(bit)
    missing = [name for name in circuit.names[:len(circuit.owners)] if name not in found]
    if missing:
        raise Mistake("no value is given for the inputs " + " ".join(missing), status=2)
    return bytes(found[name] for name in circuit.names[:len(circuit.owners)])


def indices(text):
    """The numbers of a list such as 20,23-24."""
    found = set()
    for word in text.split(","):
        span = re.fullmatch(r"\s*([0-9]{1,7})(?:-([0-9]{1,7}))?\s*", word)
        if not span:
            raise Mistake(f"'{word}' is no bit's number: write 20, or 20,23-24", status=2)
        first, last = int(span.group(1)), int(span.group(2) or span.group(1))
        if last < first:
            raise Mistake(f"'{word}' ends before it begins", status=2)
        found.update(range(first, last + 1))
    return sorted(found)


def line_of(changed, length):
    """A line of this length with these bits changed on the way."""
    for n in changed:
        if n >= length:
            last = f", 0 to {length - 1}" if length else ""
            raise Mistake(f"there is no bit {n} to change: the line has {length} bits{last}", status=2)
    line = bytearray(length)
    for n in changed:
        line[n] = 1
    return bytes(line)


def shown(bits, every=0):
    """Bits as signs, with a space behind each group of so many. A byte that is no bit is x and its two hex digits."""
    signs = [str(bit) if bit < 2 else f"x{bit:02x}" for bit in bits]
    if not every:
        return "".join(signs)
    return " ".join("".join(signs[n:n + every]) for n in range(0, len(signs), every))
