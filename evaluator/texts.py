"""Bristol Fashion texts drawn, written out in many ways, and damaged.

A text is a list of lines and a line a list of words, until it is written out.
What a damaged text must get is not known here: bristol.py tells it.
"""

import bristol

ODD_WORDS = [b"0", b"1", b"2", b"3", b"00002", b"000001", b"8191", b"8192",
             b"8193", b"65536", b"99999", b"100000", b"-1", b"+1", b"1a",
             b"a", b"1\t", b"0x1", b"1.", b"\0", b"\xff", b"XOR", b"INV"]
GATE_WORDS = [b"XOR", b"AND", b"INV", b"EQW", b"EQ", b"OR", b"NAND", b"MAND",
              b"NOT", b"xor", b"And", b"XORX", b"XO", b"EQW\t", b"\tINV",
              b"3", b"1", b"00000", b"\0", b"AND\0"]
ODD_BYTES = b" \r\n\t\x0019AX-+\xff"
ROOMS = [0, 1, 19968, 19999, 20001, 20480]


def call(text, owners, room=bristol.ROOM):
    """A case of damage.py's."""
    return {"call": "from_bristol", "number": room, "text": text,
            "owners": bytes(owners)}


def word(n):
    return b"%d" % n


def numbered(*numbers):
    return [word(n) for n in numbers]


def gate(name, *wires):
    """A gate line; the last wire is the one that it writes."""
    return numbered(len(wires) - 1, 1, *wires) + [name]


def lines_of(wires, inputs, outputs, gates):
    """A text: its wire count, widths, and gate lines."""
    return [numbered(len(gates), wires), numbered(len(inputs), *inputs),
            numbered(len(outputs), *outputs), *gates]


def plainly(lines, end=b"\n"):
    return b"".join(b" ".join(line) + end for line in lines)


def shuffled(rng, things):
    left, found = list(things), []
    while left:
        found.append(left.pop(rng.randrange(len(left))))
    return found


# Drawing a good text.

def draw_widths(rng, total):
    """Widths with this sum, some of them 0."""
    widths = []
    while total or rng.randrange(4) == 0:
        width = min(total, rng.choice([0, 1, 1, 1, 2, 3, 4]))
        widths.append(width)
        total -= width
    return widths


def draw_results(rng, inputs, gates, spare, outputs):
    """Which wires gates write, in any order.  Those that stay unwritten are
    neither inputs nor outputs."""
    wires = inputs + gates + spare
    inner = shuffled(rng, range(inputs, max(inputs, wires - outputs)))
    unwritten = set(inner[:spare])
    free = [wire for wire in range(inputs, wires) if wire not in unwritten]
    return shuffled(rng, free) if rng.randrange(3) else free


def draw_gates(rng, inputs, results):
    written, lines = list(range(inputs)), []
    for result in results:
        name = rng.choice([b"XOR", b"AND", b"INV", b"EQW"])
        operands = [rng.choice(written[-5:] if rng.randrange(2) else written)
                    for _ in range(bristol.WORDS[name])]
        lines.append(gate(name, *operands, result))
        written.append(result)
    return lines


def draw_lines(rng, most_gates=10):
    """The lines of a good text."""
    inputs = rng.choice([0, 1, 1, 2, 3, 4, 6, 9])
    gates = rng.randrange(most_gates) if inputs else 0
    outputs = rng.randrange(min(5, inputs + gates) + 1)
    spare = rng.choice([0, 0, 0, 1, 3]) if outputs <= gates else 0
    results = draw_results(rng, inputs, gates, spare, outputs)
    return lines_of(inputs + gates + spare, draw_widths(rng, inputs),
                    draw_widths(rng, outputs),
                    draw_gates(rng, inputs, results))


# Writing it out.

def draw_word(rng, word):
    """A number may have zeros before it, up to five digits."""
    if word.isdigit() and rng.randrange(3) == 0:
        return word.rjust(rng.randint(1, 5), b"0")
    return word


def draw_gap(rng, least):
    return b"".join(rng.choice([b" ", b" ", b"\r"])
                    for _ in range(least + rng.randrange(2)))


def draw_line(rng, line):
    parts = [draw_gap(rng, 0)]
    for n, word in enumerate(line):
        parts += [draw_gap(rng, 1)] * (n > 0) + [draw_word(rng, word)]
    return b"".join(parts) + draw_gap(rng, 0)


def written(rng, lines):
    """The text of lines: plain, with CR before each LF, or in any way."""
    how = rng.randrange(4)
    if how < 2:
        text = plainly(lines, (b"\n", b"\r\n")[how])
    else:
        rows = [draw_line(rng, line) for line in lines]
        for _ in range(rng.choice([0, 1, 3])):
            rows.insert(rng.randrange(len(rows) + 1),
                        rng.choice([b"", b" ", b"\r", b"  \r "]))
        text = b"".join(row + b"\n" for row in rows)
    return text[:-1] if rng.randrange(4) == 0 else text


# Damage.

def other_word(rng, lines):
    """Another word in the place of one: an odd one, or one that is near."""
    line = rng.choice(lines)
    if not line:
        return
    at = rng.randrange(len(line))
    if not line[at].isdigit() and rng.randrange(4):
        line[at] = rng.choice(GATE_WORDS)
    elif line[at].isdigit() and rng.randrange(2):
        near = int(line[at]) + rng.choice([-1, 1])
        line[at] = word(max(near, 0))
    else:
        line[at] = rng.choice(ODD_WORDS)


def other_words(rng, lines):
    """A word more or less on a line."""
    line = rng.choice(lines)
    if line and rng.randrange(2):
        line.pop(rng.randrange(len(line)))
    else:
        line.insert(rng.randrange(len(line) + 1), rng.choice(
            ODD_WORDS + GATE_WORDS + line))


def other_lines(rng, lines):
    """A line dropped, told twice, or exchanged with another."""
    one, two = rng.randrange(len(lines)), rng.randrange(len(lines))
    how = rng.randrange(3)
    if how == 0 and len(lines) > 1:
        lines.pop(one)
    elif how == 1:
        lines.insert(two, list(lines[one]))
    else:
        lines[one], lines[two] = lines[two], lines[one]


def other_counts(rng, lines):
    """A gate line with other counts, and so many wires."""
    if len(lines) < 4:
        return
    reads, writes = rng.randrange(4), rng.randrange(3)
    most = int(lines[0][1]) if lines[0][1:] and lines[0][1].isdigit() else 1
    wires = [rng.randrange(most + 1) for _ in range(reads + writes)]
    lines[3 + rng.randrange(len(lines) - 3)] = (
        numbered(reads, writes, *wires) + [rng.choice(GATE_WORDS)])


def other_byte(rng, text):
    at = rng.randrange(len(text) + 1)
    byte = bytes([rng.choice(ODD_BYTES)])
    how = rng.randrange(4)
    if how == 0:
        return text[:at]
    return text[:at] + (byte if how != 1 else b"") + text[at + (how != 2):]


def other_owners(rng, owners):
    if rng.randrange(2) or not owners:
        length = rng.choice([0, len(owners) - 1, len(owners) + 1,
                             2 * len(owners) + 1])
        return (owners + b"\1" * (len(owners) + 1))[:max(length, 0)]
    at = rng.randrange(len(owners))
    return owners[:at] + bytes([rng.choice([0, 4, 49, 255])]) + owners[at + 1:]


def draw_owners(rng, count):
    return bytes(rng.randint(1, 3) for _ in range(count))


def draw_case(rng, most=3):
    """A call on a drawn text, damaged in none to `most` places."""
    lines = draw_lines(rng)
    owners, room = draw_owners(rng, len(lines[1]) - 1), bristol.ROOM
    ways = shuffled(rng, [other_word, other_word, other_words, other_lines,
                          other_counts, "byte", "owners", "owners", "room"])
    ways = ways[:rng.choice([0, 0, *range(1, most + 1)])]
    for way in ways:
        if callable(way):
            way(rng, lines)
    text = written(rng, lines)
    if "byte" in ways:
        text = other_byte(rng, text)
    if "owners" in ways:
        owners = other_owners(rng, owners)
    if "room" in ways and rng.randrange(3) == 0:
        room = rng.choice(ROOMS)
    return call(text, owners, room)


# Texts at the limits.

def limit(inputs, gates, outputs, renamed=0):
    """A text with these counts of ours, and so many EQWs before its gates:
    each line reads what the line before it writes."""
    names = [b"AND", b"XOR", b"INV"]
    lines = [gate(b"EQW", inputs + n - 1 if n else 0, inputs + n)
             for n in range(renamed)]
    first = inputs + renamed
    for g in range(gates):
        name = names[g % 3]
        reads = [first + g - 1, g % 2][:bristol.WORDS[name]]
        lines.append(gate(name, *reads, first + g))
    return plainly(lines_of(first + gates, [inputs], [outputs], lines))


def largest(rng):
    """All counts at their limits; every wire that there is, by EQW; as many
    values as five digits tell; and many blank lines before, between and
    behind, so that the line's number is large."""
    everything = limit(1024, 3072, 256)
    renamed = limit(1, 100, 256, renamed=8091)
    values = plainly([[b"0", b"0"], [b"99999"] + 99999 * [b"0"], [b"0"]])
    small = plainly(draw_lines(rng)).split(b"\n", 3)
    blank = 90000 * rng.choice([b"\n", b"\r\n", b"  \n"])
    return [call(everything, [3]), call(renamed, [2]),
            call(values, 99999 * b"\2"), call(values, 99998 * b"\1" + b"\0"),
            call(b"\n".join([blank + small[0], blank + small[1], *small[2:]])
                 + blank, draw_owners(rng, len(small[1].split()) - 1)),
            call(blank + b"0 0\n0\n0\n" + blank + b"0 0 NOP\n", b"")]
