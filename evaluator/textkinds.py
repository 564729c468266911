"""Kinds of answers of from_bristol: which must occur among the trials, and
which of them an answer is.
"""

import bristol

NAME = "from_bristol"
WORDS = ("XOR", "AND", "INV", "EQW")
HEADER = ("the first line", "the second line", "the third line")
WHERE = ("at the first", "at one between", "at the last")
LENGTH = ("one short", "one long", "far off")
COUNTS = ("I", "G", "O")
FORM = ("a word less", "a word more", "no number", "six digits")
GOOD = ("LF", "CR LF", "no last LF", "a blank line before the first",
        "a blank line between", "a blank line behind the last",
        "leading zeros", "five digits", "a width of 0", "no input value",
        "no output", "no gate", "an EQW of an EQW", "an EQW of an input",
        "an input opened", "two outputs on one wire of ours",
        "a wire never written", "wires in another order",
        "both operands one wire", "both sums together above the wires",
        "wire count 8192", "more values than wires", "more than 3072 lines",
        "a line above 65535", "all at their limits",
        *(f"{count} {limit}" for count, limit in zip(COUNTS, bristol.LIMITS)))
OF_A_WORD = ("its first wire not written", "its own result read",
             "an input written", "written twice")
OTHER_WORDS = ("counts 2 1", "counts 1 1", "other counts", "no wires",
               "digits", "lower case", "a known word and a byte more")


def needed():
    yield f"{NAME} good"
    yield from (f"{NAME} good, {how}" for how in GOOD)
    yield from (f"{NAME} refused 10, room {how}" for how in LENGTH)
    yield from (f"{NAME} refused 10, {later} too" for later in (15, 4, 2))
    for line in (*HEADER, "a gate line"):
        yield from (f"{NAME} refused 15, {line}: {way}" for way in FORM)
        yield f"{NAME} refused 15 with the number of lines, {line} missing"
    yield f"{NAME} refused 15, the first line: wires above 8192"
    yield from (f"{NAME} refused 15, {line}: a sum above the wires"
                for line in HEADER[1:])
    yield f"{NAME} refused 15, a gate line: a wire that is the count"
    yield f"{NAME} refused 15, a gate line: a wire above the count"
    yield f"{NAME} refused 15, a gate line: beyond the gates said"
    yield from (f"{NAME} refused 15, a gate line: {word} with other counts"
                for word in WORDS)
    yield from (f"{NAME} refused 16, {how}" for how in OTHER_WORDS)
    for word in WORDS:
        yield from (f"{NAME} refused 17, {word}: {how}" for how in OF_A_WORD)
    yield from (f"{NAME} refused 17, {word}: its second wire not written"
                for word in WORDS[:2])
    yield from needed_in_order()
    yield from needed_behind()


def needed_in_order():
    """Faults on one line and on two."""
    yield from (f"{NAME} refused {one}, {two} on the same line"
                for one, two in ((15, 16), (15, 17), (16, 17)))
    yield from (f"{NAME} refused {one}, {two} on a later line"
                for one in (15, 16, 17) for two in (15, 16, 17))
    yield from (f"{NAME} refused {number} at a line above 65535"
                for number in (15, 17))


def needed_behind():
    """What is looked at once every line is good."""
    yield f"{NAME} refused 15 with the number of lines, blank ones behind"
    yield f"{NAME} refused 15 with the number of lines, 17 too"
    yield f"{NAME} refused 17 with the number of lines"
    yield f"{NAME} refused 17 with the number of lines, blank ones behind"
    yield from (f"{NAME} refused 17 with the number of lines, {later} too"
                for later in (4, 2))
    yield from (f"{NAME} refused 4, owners {how}" for how in LENGTH)
    yield from (f"{NAME} refused 4 {where}" for where in WHERE)
    yield from (f"{NAME} refused 4, owner {owner}" for owner in (0, 4, 255))
    yield from (f"{NAME} refused 4, {how}" for how in (
        "a width of 0", "a later one bad too", "no owner at all", "2 too"))
    yield from (f"{NAME} refused 2 {place}, one above" for place in range(3))
    yield from (f"{NAME} refused 2 {one}, {two} too"
                for one, two in ((0, 1), (0, 2), (1, 2)))


# What an answer is.

def off(length, wanted):
    return {-1: "one short", 1: "one long"}.get(length - wanted, "far off")


def not_number(words):
    """How words are not numbers, or None."""
    for word in words:
        if bristol.number(word) is None:
            return "six digits" if word.isdigit() else "no number"
    return None


def length_of(words, wanted):
    if len(words) == wanted:
        return None
    return "a word less" if len(words) < wanted else "a word more"


def of_header(which, words):
    found = not_number(words)
    wanted = 2 if which == 0 or found else 1 + int(words[0])
    last = "a sum above the wires" if which else "wires above 8192"
    return found or length_of(words, wanted) or last


def of_gate(read, which, words):
    if which >= read.said:
        return "beyond the gates said"
    found = not_number(words[:2])
    if found or len(words) < 2:
        return found or "a word less"
    counts = bristol.numbers(words[:2])
    found = length_of(words, 3 + sum(counts)) or not_number(words[2:-1])
    if found:
        return found
    most = max(bristol.numbers(words[2:-1]), default=0)
    if most == read.wires:
        return "a wire that is the count"
    if most > read.wires:
        return "a wire above the count"
    return words[-1].decode() + " with other counts"


def of_15(read, line):
    """Which line is not good, and how."""
    which, words = next((n, words) for n, (number, words) in enumerate(
        read.full) if number == line)
    if which < 3:
        return f"{HEADER[which]}: {of_header(which, words)}"
    return "a gate line: " + of_gate(read, which - 3, words)


def of_16(gate):
    """How a word is another."""
    counts, word = (gate.reads, gate.writes), gate.word
    yield {(2, 1): "counts 2 1", (1, 1): "counts 1 1",
           (0, 0): "no wires"}.get(counts, "other counts")
    if word.isdigit():
        yield "digits"
    if word not in bristol.WORDS and word.upper() in bristol.WORDS:
        yield "lower case"
    if word[:-1] in bristol.WORDS or word[1:] in bristol.WORDS:
        yield "a known word and a byte more"


def of_17(read, gate):
    """Which wire of a gate is written too late or twice."""
    made, head = read.makers(), gate.word.decode() + ": "
    result = gate.results[0]
    for wire, which in zip(gate.operands, ("first", "second")):
        if made.get(wire, gate.line) >= gate.line:
            yield f"{head}its {which} wire not written"
        if wire == result and made[wire] == gate.line:
            yield head + "its own result read"
    if made[result] < gate.line:
        yield head + ("written twice" if made[result] else "an input written")


def of_line(read, number, line):
    """A refusal of one line, and what else is bad there or on later lines."""
    head, faults = f"{NAME} refused {number}", read.faults()
    gate = next((gate for gate in read.gates
                 if gate is not None and gate.line == line), None)
    ways = {15: lambda: [of_15(read, line)], 16: lambda: of_16(gate),
            17: lambda: of_17(read, gate)}[number]()
    yield from (f"{head}, {way}" for way in ways)
    for other_line, other in faults:
        if other_line > line:
            yield f"{head}, {other} on a later line"
        if other_line == line and other != number:
            yield f"{head}, {other} on the same line"
    if line > 65535:
        yield f"{head} at a line above 65535"


def of_missing(read):
    """15 with the number of lines."""
    head = f"{NAME} refused 15 with the number of lines"
    taken = len(read.full)
    yield f"{head}, {(*HEADER, 'a gate line')[min(taken, 3)]} missing"
    if taken and read.full[-1][0] < read.lines:
        yield head + ", blank ones behind"
    if read.lines > 65535:
        yield f"{NAME} refused 15 at a line above 65535"
    made = read.makers()
    if taken >= 3 and any(wire not in made for wire in read.opened()):
        yield head + ", 17 too"


def of_unwritten(read, later):
    """17 with the number of lines."""
    head = f"{NAME} refused 17 with the number of lines"
    yield head
    yield from (f"{head}, {number} too" for number, _ in later)
    if read.full[-1][0] < read.lines:
        yield head + ", blank ones behind"


def of_owners(read, owners, place, later):
    head, count = f"{NAME} refused 4", len(read.inputs)
    if any(number == 2 for number, _ in later):
        yield head + ", 2 too"
    if len(owners) != count:
        yield f"{head}, owners {off(len(owners), count)}"
        if not owners:
            yield head + ", no owner at all"
        return
    yield f"{head}, owner {owners[place]}"
    yield f"{head} " + WHERE[0 if place == 0 else 2 if place == count - 1
                             else 1]
    if read.inputs[place] == 0:
        yield head + ", a width of 0"
    if any(number == 4 for number, _ in later):
        yield head + ", a later one bad too"


def of_refusal(case, number, place):
    read = bristol.Text(case["text"])
    later = list(bristol.faults_of(case["text"], case["owners"],
                                   case["number"]))[1:]
    if number == 10:
        yield f"{NAME} refused 10, room {off(case['number'], bristol.ROOM)}"
        yield from (f"{NAME} refused 10, {other} too" for other, _ in later)
    elif read.faults():
        yield from of_line(read, number, place)
    elif number == 15:
        yield from of_missing(read)
    elif number == 17:
        yield from of_unwritten(read, later)
    elif number == 4:
        yield from of_owners(read, case["owners"], place, later)
    else:
        if read.counts_of_ours()[place] == bristol.LIMITS[place] + 1:
            yield f"{NAME} refused 2 {place}, one above"
        yield from (f"{NAME} refused 2 {place}, {other} too"
                    for _, other in later)


def of_writing(text, read):
    """The ways that a good text is written in."""
    first, last = read.full[0][0], read.full[-1][0]
    words = [word for _, line in read.full for word in line]
    return {
        "LF": b"\r" not in text, "CR LF": text.count(b"\r\n") == read.lines,
        "no last LF": not text.endswith(b"\n"),
        "a blank line before the first": first > 1,
        "a blank line between": last - first >= len(read.full),
        "a blank line behind the last": last < read.lines,
        "a line above 65535": last > 65535,
        "leading zeros": any(word[:1] == b"0" < word for word in words),
        "five digits": any(len(word) == 5 for word in words),
    }


def of_shape(read, circuit):
    """What a good text, and our circuit of it, are like."""
    renamed = {gate.results[0]: gate.operands[0] for gate in read.gates
               if gate.word == b"EQW"}
    results = [gate.results[0] for gate in read.gates]
    inputs, outputs = sum(read.inputs), sum(read.outputs)
    return {
        "a width of 0": 0 in read.inputs + read.outputs,
        "no input value": not read.inputs, "no output": outputs == 0,
        "no gate": not results,
        "an EQW of an EQW": any(wire in renamed for wire in renamed.values()),
        "an EQW of an input": any(wire < inputs for wire in renamed.values()),
        "an input opened": any(wire < inputs for wire in read.opened()),
        "two outputs on one wire of ours":
            len(set(circuit.outputs)) < len(circuit.outputs),
        "a wire never written": inputs + len(results) < read.wires,
        "wires in another order": results != sorted(results),
        "both operands one wire": any(
            len(gate.operands) == 2 and len(set(gate.operands)) == 1
            for gate in read.gates),
        "both sums together above the wires": inputs + outputs > read.wires,
        "wire count 8192": read.wires == 8192,
        "more values than wires": len(read.inputs) > read.wires,
        "more than 3072 lines": len(results) > 3072,
    }


def of_good(case):
    text, read = case["text"], bristol.Text(case["text"])
    tests = of_writing(text, read)
    tests.update(of_shape(read, bristol.circuit_of(text, case["owners"])))
    counts = read.counts_of_ours()
    tests["all at their limits"] = counts == bristol.LIMITS
    for name, count, limit in zip(COUNTS, counts, bristol.LIMITS):
        tests[f"{name} {limit}"] = count == limit
    return {f"{NAME} good, {how}" for how, holds in tests.items() if holds}


def kinds_of(case, refusal):
    """The kinds that an answer is of."""
    if refusal:
        return set(of_refusal(case, *refusal))
    return of_good(case) | {f"{NAME} good"}
