"""The trial calls of from_bristol: one text of every word with each of its
words, lines and bytes changed in turn; owners, rooms and blank lines; texts
at the limits; and drawn ones.

A call is a case of damage.py's: a text, the owners of its input values, and
the room's length as its number.
"""

import circuits
import texts
from texts import call, gate, lines_of, numbered, plainly

SEED = 20270
# Every word and wires in any order: 3 is made before 4, 7 behind 8, 5 never.
# Two input values, two outputs, of which the last hangs on all inputs.
EACH = [line.encode().split() for line in (
    "5 9", "2 2 1", "2 1 1", "2 1 0 1 6 XOR", "1 1 6 3 INV", "2 1 3 2 8 AND",
    "1 1 8 4 EQW", "1 1 4 7 INV")]
OWNERS = bytes([2, 1])
SMALL = [line.encode().split() for line in (
    "1 3", "2 1 1", "1 1", "2 1 0 1 2 AND")]
PUT = [b"0", b"1", b"2", b"3", b"5", b"8", b"9", b"00001", b"000001",
       b"8193", b"99999", b"-1", b"1x"]
NAMES = [b"XOR", b"AND", b"INV", b"EQW", b"OR", b"xor", b"XO", b"XORX",
         b"EQ", b"MAND", b"NOT", b"0", b"\xff"]
BLANK = [b"", b" ", b"\r", b" \r  \r"]
BYTES = [*range(34), 43, 45, 46, 47, 48, 57, 58, 65, 68, 97, 100, 127, 128,
         133, 160, 255]
LARGE_LINE = 66000  # behind so many lines a number has 17 bits


def changed(lines, at, line):
    return lines[:at] + line + lines[at + 1:]


# One text, changed in one place.

def each_word():
    """Each word in turn is another, is missing, and stands there twice."""
    for n, line in enumerate(EACH):
        for k, word in enumerate(line):
            others = PUT if word.isdigit() else NAMES
            for new in (*([other] for other in others if other != word),
                        [], [word, word]):
                yield plainly(changed(EACH, n, [changed(line, k, new)]))


def each_line():
    """Each line is missing, stands there twice, changes its place, or is told
    without its words."""
    for n, line in enumerate(EACH):
        yield plainly(changed(EACH, n, []))
        yield plainly(changed(EACH, n, [line, line]))
        yield plainly(changed(EACH, n, [[]]))
        for k in range(n):
            moved = changed(changed(EACH, n, [EACH[k]]), k, [line])
            yield plainly(moved)


def each_count():
    """Gate lines with any two counts, for known words and others."""
    for name in (b"XOR", b"INV", b"EQW", b"AND", b"NOP"):
        for reads in range(4):
            for writes in range(3):
                wires = [0, 1, 6, 3, 2][:reads] + [8, 3][:writes]
                line = numbered(reads, writes, *wires) + [name]
                yield plainly(changed(EACH, 5, [line]))


def each_byte():
    """A byte as it parts two words, stands before, in or behind a word."""
    for byte in BYTES:
        one = bytes([byte])
        for old in (b"0 1 6", b"XOR", b"9\n", b"8 4 EQW"):
            at = {b"0 1 6": 1, b"XOR": 3, b"9\n": 1, b"8 4 EQW": 4}[old]
            new = old[:at] + one + old[at + (old == b"0 1 6"):]
            yield plainly(EACH).replace(old, new, 1)


def each_end():
    """The text cut short at each byte, with LF and with CR LF."""
    for end in (b"\n", b"\r\n"):
        text = plainly(SMALL, end)
        yield from (text[:length] for length in range(len(text) + 1))
    text = plainly(EACH)
    yield from (text[:length] for length in range(0, len(text), 5))


def each_blank():
    """A line without words before each line and behind the last: in a good
    text, in one with a line missing, and in one with an output unwritten."""
    missing = changed(EACH, 0, [[b"6", b"9"]])
    unwritten = changed(changed(EACH, 7, []), 0, [[b"4", b"9"]])
    for lines in (EACH, missing, unwritten):
        rows = [b" ".join(line) for line in lines]
        for n in range(len(rows) + 1):
            for blank in BLANK[n % 2::2]:
                text = b"\n".join(rows[:n] + [blank] + rows[n:])
                yield text + (b"" if n % 3 else b"\n")


def one_change():
    for part in (each_word, each_line, each_count, each_byte, each_end,
                 each_blank):
        for text in part():
            yield call(text, OWNERS)


# Good texts and edges of numbers.

def good():
    """The ways to write a good text, and good texts of odd shapes."""
    for end in (b"\n", b"\r\n", b"\r\r\n", b" \n"):
        yield call(plainly(EACH, end), OWNERS)
        yield call(plainly(EACH, end)[:-1], OWNERS)
    for digits in range(1, 7):
        yield call(plainly([[word.rjust(digits, b"0") if word.isdigit()
                             else word for word in line] for line in EACH]),
                   OWNERS)
    yield from (call(text, owners) for text, owners in shapes())


def shapes():
    def text(wires, inputs, outputs, *gates):
        return plainly(lines_of(wires, inputs, outputs, gates))

    yield text(0, [], []), b""
    yield text(0, [0, 0], [0]), b"\3\1"
    yield text(3, [], []), b""
    yield text(2, [2], [2]), b"\2"
    yield text(2, [1, 1], [1, 1, 0]), b"\3\2"
    yield text(3, [2], [0, 3], gate(b"XOR", 1, 1, 2)), b"\1"
    yield text(3, [1, 0], [2], gate(b"EQW", 0, 2), gate(b"EQW", 2, 1)), b"\2\3"
    yield text(4, [1], [3], gate(b"INV", 0, 3), gate(b"EQW", 3, 1),
               gate(b"EQW", 3, 2)), b"\3"
    yield text(6, [2, 1], [1], gate(b"EQW", 2, 4), gate(b"AND", 4, 4, 3),
               gate(b"EQW", 3, 5)), b"\1\3"
    # The highest wire there can be, and its neighbours as inputs.
    yield text(8192, [2], [1], gate(b"AND", 0, 1, 8191)), b"\1"
    yield text(8192, [1], [2], gate(b"INV", 0, 8191),
               gate(b"EQW", 8191, 8190)), b"\1"


def wire_counts():
    """The wire count and both sums at their edges, alone and together."""
    for wires in (0, 1, 2, 3, 8191, 8192, 8193, 9999, 99999):
        yield plainly(changed(SMALL, 0, [numbered(1, wires)]))
    for said in (0, 2, 3072, 8192, 99999):
        yield plainly(changed(SMALL, 0, [numbered(said, 3)]))
    for which in (1, 2):
        for widths in ([3], [4], [1, 3], [2, 2], [0, 3], [99999],
                       [99999, 99999], [65535, 1], [65536], [0, 0, 0, 0]):
            line = numbered(len(widths), *widths)
            yield plainly(changed(SMALL, which, [line]))
    for sums in ((8192, 8192), (8192, 8193), (8193, 8192)):
        yield plainly(lines_of(8192, sums[:1], sums[1:], []))


def owners():
    """Owners of every length, and each of them bad."""
    for values in ([], [1], [1, 1], [1, 0, 1], [0, 0, 0], [2, 1, 0, 3, 1]):
        wires = sum(values)
        text = plainly(lines_of(wires, values, [wires], []))
        for length in range(len(values) + 3):
            yield call(text, bytes([1, 2, 3, 1, 2, 3, 1][:length]))
        yield call(text, bytes(3 * len(values) + 40))
        good = [3, 2, 1, 3, 2][:len(values)]
        for n in range(len(values)):
            for bad in (0, 4, 49, 255):
                yield call(text, changed(good, n, [bad]))
            yield call(text, good[:n] + [4] * (len(values) - n))


def rooms():
    for room in (0, 1, 31, 32, 63, 19968, 19999, 20001, 20002, 20480):
        yield call(plainly(EACH), OWNERS, room)
        yield call(plainly(EACH[:-1]), OWNERS, room)
        yield call(plainly(EACH), b"\1\4", room)
    yield call(b"", b"", 19999)
    yield call(plainly(lines_of(1025, [1025], [], [])), b"\1", 20001)


# Texts at the limits.

def short_lines(inputs, gates, outputs):
    """Gates that read wires 0 and 1, so that a text of many is short."""
    lines = [gate(b"XOR", 0, 1, inputs + g) for g in range(gates)]
    return plainly(lines_of(inputs + gates, [inputs], [outputs], lines))


def limits():
    """Each count at its limit and one above it, alone and with another; all at
    their limits; more gate lines than gates, by EQW."""
    for inputs, outputs in ((1024, 0), (1024, 256), (1025, 0), (1025, 257),
                            (300, 256), (300, 257)):
        yield call(short_lines(inputs, 0, outputs), [2])
        yield call(short_lines(inputs, 0, outputs), [0])
    yield call(texts.limit(1024, 3072, 256), [3])
    yield call(short_lines(2, 3072, 1), [1])
    yield call(short_lines(2, 3073, 257), [1])
    yield call(short_lines(1025, 3073, 1), [1])
    yield call(texts.limit(1, 72, 256, renamed=3050), [2])
    yield call(plainly(lines_of(8192, [1024, 7168], [8192], [])), b"\1\2")


def long_texts():
    """Line numbers and counts of values that need more than 16 bits or four
    digits: a bad line, a line missing and a good text behind many blank
    lines; 10,000 values of no wires, of which the last may be bad."""
    blank = LARGE_LINE * b"\n"
    yield call(blank + plainly(changed(SMALL, 3, [gate(b"AND", 2, 1, 2)])),
               b"\1\2")
    yield call(plainly(SMALL[:3]) + blank, b"\1\2")
    yield call(plainly(SMALL[:2]) + blank + plainly(SMALL[2:]), b"\1\2")
    values = plainly([numbered(0, 0), [b"10000"] + 10000 * [b"0"], [b"0"]])
    yield call(values, 10000 * b"\3")
    yield call(values, 9999 * b"\3" + b"\0")


# Several faults at once.

def two_faults(rng, count):
    """Two damages to the words of one line or of two, so that the order shows
    by lines, and on one line by number."""
    for _ in range(count):
        lines = [list(line) for line in EACH]
        one = rng.choice(lines[1:])
        for line in (one, rng.choice([one, *lines[3:]])):
            at = rng.randrange(len(line))
            line[at] = rng.choice(PUT if line[at].isdigit() else NAMES)
        owner = rng.choice([OWNERS, OWNERS, b"\1", b"\4\1"])
        yield call(plainly(lines), owner)


def of_one_line():
    """Lines with two faults or three: of form, word and wires."""
    for line in ("2 1 5 1 8 FOO", "1 1 5 8 FOO", "2 1 3 9 8 FOO",
                 "1 1 5 8 AND", "2 1 6 2 0 OR", "3 1 0 5 7 0 MAND",
                 "2 1 3 2 00008 EQW", "1 1 8 8 EQW", "2 1 8 8 8 XOR",
                 "2 1 3 2 6 XOR x", "0 0 NOP", "0 1 0 EQ", "1 1 1 8 EQ"):
        yield call(plainly(changed(EACH, 5, [line.encode().split()])), OWNERS)
    # The same behind the last gate line that the text says there is.
    for line in ("2 1 0 1 5 XOR", "2 1 0 1 6 XOR", "2 1 5 1 5 FOO", "x"):
        yield call(plainly(EACH + [line.encode().split()]), OWNERS)


def of_stages():
    """An output unwritten, bad owners and counts above their limits, in any
    company."""
    for inputs in (1, 1025):
        for written in (True, False):
            for given in ([1], [], [4]):
                yield call(plainly(lines_of(
                    inputs + 1, [inputs], [1],
                    [gate(b"INV", 0, inputs)] * written)), given)
                yield call(plainly(lines_of(
                    inputs + 300, [inputs], [257 + 43 * (not written)],
                    [gate(b"INV", 0, inputs + n) for n in range(300)
                     if written])), given)


def drawn(rng, count):
    return [texts.draw_case(rng) for _ in range(count)]


def cases():
    rng = circuits.Draw(SEED)
    return [*one_change(), *good(),
            *(call(text, b"\1\2") for text in wire_counts()), *owners(),
            *rooms(), *limits(), *long_texts(), *of_one_line(), *of_stages(),
            *two_faults(rng, 200), *drawn(rng, 400)]


