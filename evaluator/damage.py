"""Calls drawn by a generator with a fixed seed, most of them damaged, and what
document 01 says of each: its refusal, or else what must hold of the text.

The checks are written here a second time, over Python's own lists, so that the
order of refusals and their places are compared and not only looked at.
"""

import struct

import bristol
import calls
import clean
import texts
from calls import AND, NOT, OR, XOR, Circuit

LENT = {
    "plain": ["values"],
    "run": ["outputs", "transcript", "store"],
    "view": ["view", "store"],
    "retape": ["tapes", "room"],
}
GIVEN = {
    "plain": ["inputs"],
    "run": ["inputs", "tapes", "line"],
    "view": ["inputs", "tapes"],
    "retape": ["inputs", "tapes", "second"],
    "gate_read": ["counts"],
    "owner_read": ["counts"],
    "output_read": ["counts"],
    "from_bristol": ["owners"],
}
FIRST = {"listing": "job", "from_bristol": "text"}  # all others take a file
# The questions to a reader: a file, and counts that anybody put beside it.
# They are answered as the file's own, whatever the counts are.
READERS = ["gate_read", "owner_read", "output_read"]
NAMES = ["open", "gate", "owner", "output", "check", "plain", "run", "view",
         "retape", "traffic", "listing", *READERS, "from_bristol"]
ODD_NUMBERS = [0, 1, 2, 3, 4, 5, 15, 16, 17, 31, 32, 33, 255, 256, 257, 1024,
               1025, 3072, 3073, 65535, 65536, 65537, 2**31, 2**32 - 1]


# The checks.  Each answers a refusal as (number, place), or None.

def check_header(file):
    if len(file) < 32:
        return 1, 0
    field = struct.unpack("<8I", file[:32])
    inputs, gates, outputs = field[1:4]
    for place, most in enumerate((1024, 3072, 256)):
        if field[1 + place] > most:
            return 2, place
    owners_end = 32 + inputs
    gates_end = owners_end + 6 * gates
    length = gates_end + 2 * outputs
    if (field[0], len(file)) != (length, length):
        return 3, 0
    for at, wanted in ((16, 32), (20, owners_end), (24, gates_end), (28, 0)):
        if field[at // 4] != wanted:
            return 3, at
    return None


def read(file):
    """The circuit of a file that passed checks 1 to 3."""
    inputs, gates, outputs = struct.unpack("<3I", file[4:16])
    at = 32 + inputs
    records = [struct.unpack_from("<3H", file, at + 6 * g)
               for g in range(gates)]
    wires = struct.unpack_from(f"<{outputs}H", file, at + 6 * gates)
    return Circuit(list(file[32:at]), records, list(wires))


def bad_gate(gate, lower):
    kind, first, second = gate
    if kind == NOT:
        return first >= lower or second != 0
    return kind not in (XOR, AND, OR) or first >= lower or second >= lower


def check_circuit(file):
    refusal = check_header(file)
    if refusal:
        return refusal
    circuit = read(file)
    inputs = len(circuit.owners)
    faults = (
        [(4, n) for n, s in enumerate(circuit.owners) if s not in (1, 2, 3)]
        + [(5, g) for g, gate in enumerate(circuit.gates)
           if bad_gate(gate, inputs + g)]
        + [(6, n) for n, w in enumerate(circuit.outputs)
           if w >= circuit.wires])
    return faults[0] if faults else None


def check_bits(number, bits, wanted):
    if len(bits) != wanted:
        return number, wanted
    return next(((number, n) for n, b in enumerate(bits) if b > 1), None)


def lent_lengths(name, circuit, site):
    """How long the buffers lent to a call are wanted."""
    return {
        "plain": [circuit.wires],
        "run": [3 * len(circuit.outputs), circuit.line_length(),
                6 * circuit.wires],
        "view": [circuit.view_length(site), 6 * circuit.wires],
        "retape": [circuit.tapes_length(), 4 * circuit.wires],
    }.get(name, [])


def check_buffers(case, circuit):
    name = case["call"]
    for place, (part, length) in enumerate(zip(
            LENT[name], lent_lengths(name, circuit, case["number"]))):
        if len(case[part + " lent"]) != length:
            return 10, place
    return None


def plain(circuit, inputs):
    value = list(inputs)
    for kind, first, second in circuit.gates:
        x, y = value[first], value[second]
        value.append({XOR: x ^ y, AND: x & y, NOT: 1 - x, OR: x | y}[kind])
    return value


def check_same(circuit, inputs, second, site):
    for n, owner in enumerate(circuit.owners):
        if owner == site and inputs[n] != second[n]:
            return 13, n
    one, two = plain(circuit, inputs), plain(circuit, second)
    for n, wire in enumerate(circuit.outputs):
        if one[wire] != two[wire]:
            return 13, len(circuit.owners) + n
    return None


def question_of(case):
    return case["call"].removesuffix("_read")


def check_query(case):
    refusal = check_header(case["file"])
    if refusal:
        return refusal
    circuit = read(case["file"])
    number, part = {"owner": (4, circuit.owners), "gate": (5, circuit.gates),
                    "output": (6, circuit.outputs)}[question_of(case)]
    return (number, len(part)) if case["number"] >= len(part) else None


def check_job(case):
    job = case["job"]
    if not 16 <= len(job) <= 41520 or calls.u32(len(job)) != job[:4]:
        return 14, 0
    circuit, inputs, tapes = struct.unpack("<3I", job[4:16])
    if circuit != 16:
        return 14, 4
    if not 16 <= inputs <= len(job):
        return 14, 8
    if not inputs <= tapes <= len(job):
        return 14, 12
    file, given = job[16:inputs], job[inputs:tapes]
    return check_circuit(file) or check_given(file, given, job[tapes:])


def check_given(file, inputs, tapes):
    circuit = read(file)
    return (check_bits(7, inputs, len(circuit.owners))
            or check_bits(8, tapes, circuit.tapes_length()))


def check_plain(case, circuit):
    return (check_bits(7, case["inputs"], len(circuit.owners))
            or check_buffers(case, circuit))


def check_run(case, circuit):
    return (check_given(case["file"], case["inputs"], case["tapes"])
            or check_bits(9, case["line"], circuit.line_length())
            or check_buffers(case, circuit))


def check_view(case, circuit):
    site = case["number"]
    return (check_given(case["file"], case["inputs"], case["tapes"])
            or (None if site in (1, 2, 3) else (11, 0))
            or check_buffers(case, circuit))


def check_retape(case, circuit):
    site, inputs, second = case["number"], case["inputs"], case["second"]
    return (check_given(case["file"], inputs, case["tapes"])
            or (None if site in (1, 2, 3) else (11, 0))
            or check_buffers(case, circuit)
            or check_bits(12, second, len(circuit.owners))
            or check_same(circuit, inputs, second, site))


def refusal_of(case):
    name = case["call"]
    if name == "listing":
        return check_job(case)
    if name == "from_bristol":
        return bristol.refusal_of(case["text"], case["owners"],
                                  case["number"])
    if name == "open":
        return check_header(case["file"])
    if name in ("gate", "owner", "output", *READERS):
        return check_query(case)
    refusal = check_circuit(case["file"])
    if refusal or name in ("check", "traffic"):
        return refusal
    check = {"plain": check_plain, "run": check_run, "view": check_view,
             "retape": check_retape}[name]
    return check(case, read(case["file"]))


# Drawing calls, and damaging them.

def draw_counts(rng):
    inputs = rng.choice([0, 1, 1, 2, 3, 4, 6, 9])
    if inputs == 0:
        return 0, 0, 0
    return inputs, rng.randrange(12), rng.randrange(5)


def draw_circuit(rng, inputs, gates, outputs, kinds=(XOR, AND, NOT, OR)):
    records = []
    for g in range(gates):
        kind = rng.choice(kinds)
        second = 0 if kind == NOT else rng.randrange(inputs + g)
        records.append((kind, rng.randrange(inputs + g), second))
    return Circuit([rng.randint(1, 3) for _ in range(inputs)], records,
                   [rng.randrange(inputs + gates) for _ in range(outputs)])


def draw_bits(rng, length):
    return bytes(rng.getrandbits(1) for _ in range(length))


def draw_line(rng, length):
    """Clean, with one or two bits set, or with any."""
    many = rng.choice([0, 0, 1, 1, 2, length])
    line = bytearray(length)
    for _ in range(many if length else 0):
        line[rng.randrange(length)] ^= 1
    return bytes(line)


def draw_call(rng, name, circuit):
    site = rng.randint(1, 3)
    inputs = draw_bits(rng, len(circuit.owners))
    case = {
        "call": name, "number": site, "circuit": circuit,
        "file": circuit.file(), "inputs": inputs,
        "tapes": draw_bits(rng, circuit.tapes_length()),
        "line": draw_line(rng, circuit.line_length()),
        "second": bytes(b if s == site or rng.random() < 0.5 else 1 - b
                        for s, b in zip(circuit.owners, inputs)),
    }
    case["job"] = calls.job(case["file"], inputs, case["tapes"])
    case["counts"] = case["file"][4:16]
    for part, length in zip(LENT.get(name, []),
                            lent_lengths(name, circuit, site)):
        case[part + " lent"] = rng.randbytes(length)
    if name in ("gate", "owner", "output", *READERS):
        case["number"] = rng.choice([rng.randrange(6)] * 3 + ODD_NUMBERS)
    return case


def other_length(rng, part):
    length = rng.choice([0, 1, len(part) - 1, len(part) + 1, 2 * len(part)])
    return (part + rng.randbytes(len(part) + 1))[:max(length, 0)]


def other_field(rng, part, fields):
    """Puts an odd number into one of the header's fields."""
    at = 4 * rng.randrange(fields)
    if len(part) < at + 4:
        return part
    old = struct.unpack_from("<I", part, at)[0]
    near = [old - 1, old + 1, old ^ 1 << 24, len(part), len(part) + 1]
    new = rng.choice(ODD_NUMBERS + near) % 2**32
    return part[:at] + calls.u32(new) + part[at + 4:]


def other_byte(rng, part):
    if not part:
        return part
    at = rng.randrange(len(part))
    new = rng.choice([0, 1, 2, 3, 4, 5, 128, 255, rng.randrange(256)])
    return part[:at] + bytes([new]) + part[at + 1:]


def damage(rng, case):
    """Damages one thing of a call."""
    name = case["call"]
    parts = GIVEN.get(name, []) + [n + " lent" for n in LENT.get(name, [])]
    part = rng.choice(["file"] * 3 + parts + (["number"] if parts else []))
    if name == "listing":
        part = "job"
    if part == "number":
        case["number"] = rng.choice(ODD_NUMBERS)
    elif part == "counts":
        case[part] = other_field(rng, case[part], 3)
    elif part in ("file", "job") and rng.random() < 0.5:
        fields = 8 if part == "file" else 4
        case[part] = other_field(rng, case[part], fields)
    elif rng.random() < 0.4:
        case[part] = other_length(rng, case[part])
    else:
        case[part] = other_byte(rng, case[part])


def draw_case(rng):
    circuit, name = draw_circuit(rng, *draw_counts(rng)), rng.choice(NAMES)
    if name == "from_bristol":
        return texts.draw_case(rng)
    case = draw_call(rng, name, circuit)
    for _ in range(rng.choice([0, 0, 1, 1, 1, 2, 2, 3])):
        damage(rng, case)
    if rng.random() < 0.03:
        case["file"] = case["job"] = rng.randbytes(rng.randrange(60))
    return case


def draw_largest(rng):
    """Every call, undamaged, on a circuit with all counts at their limits,
    and a job of one byte too many.  Only inputs are opened, and the second
    inputs keep the lowest 256.  Behind them are the longest texts."""
    circuit = draw_circuit(rng, 1024, 3072, 0, (AND, OR))
    circuit.outputs = list(range(256))
    cases = [draw_call(rng, name, circuit) for name in NAMES
             if name != "from_bristol"]
    for case in cases:
        case["second"] = case["inputs"][:256] + case["second"][256:]
    listing = cases[NAMES.index("listing")]
    longer = calls.u32(len(listing["job"]) + 1) + listing["job"][4:] + b"\0"
    return cases + [dict(listing, job=longer), *texts.largest(rng)]


def stream_of(case):
    name = case["call"]
    if name == "listing":
        return calls.call_listing(case["job"])
    if name == "from_bristol":
        return calls.call_from_bristol(case["text"], case["owners"],
                                       case["number"])
    if name in ("open", "check", "traffic"):
        return getattr(calls, "call_" + name)(case["file"])
    if name in ("gate", "owner", "output"):
        return getattr(calls, "call_" + name)(case["file"], case["number"])
    given = [case["file"]] + [case[part] for part in GIVEN[name]]
    if name in READERS:
        return getattr(calls, "call_" + name)(*given, case["number"])
    lent = [case[part + " lent"] for part in LENT[name]]
    site = [case["number"]] if name in ("view", "retape") else []
    return getattr(calls, "call_" + name)(*given, *site, *lent)


def case_of(call):
    """The case of a call as it stands in a stream."""
    slices, at = [], 5
    while at < len(call):
        length = struct.unpack_from("<I", call, at)[0]
        slices.append(call[at + 4:at + 4 + length])
        at += 4 + length
    name = NAMES[call[0] - 1]
    parts = [FIRST.get(name, "file"), *GIVEN.get(name, []),
             *(part + " lent" for part in LENT.get(name, []))]
    case = dict(zip(parts, slices))
    return dict(case, call=name, number=struct.unpack_from("<I", call, 1)[0])


# What the text must say.

def bytes_of(text):
    """The bytes of a printed buffer."""
    found, at = [], 0
    while at < len(text):
        step = 3 if text[at] == "x" else 1
        found.append(int(text[at:at + step].lstrip("x"), 16))
        at += step
    return bytes(found)


def buffers_of(case, lines):
    pairs = [line.partition(" ") for line in lines]
    return {name: bytes_of(rest) for name, _, rest in pairs
            if name in LENT.get(case["call"], [])}


def openings(circuit, store, transcript):
    """What the sites get and open at each output, told from the store and the
    transcript: (sum of the objecting sites, the three opened bits)."""
    wires, start = circuit.wires, circuit.line_length()
    start -= 6 * len(circuit.outputs)
    for n, wire in enumerate(circuit.outputs):
        one_two, one_three, two_three, two_one, three_one, three_two = (
            transcript[start + 6 * n:start + 6 * n + 6])
        copies = [(two_one, three_one), (one_two, three_two),
                  (one_three, two_three)]
        pairs = [store[2 * wires * s + 2 * wire:][:2] for s in range(3)]
        yield (sum(1 << s for s, (a, b) in enumerate(copies) if a != b),
               [p[0] ^ p[1] ^ c[0] for p, c in zip(pairs, copies)])


def wrong_run(case, answer, after):
    circuit, opened = case["circuit"], []
    for n, (sites, bits) in enumerate(
            openings(circuit, after["store"], after["transcript"])):
        if sites:
            rest = len(after["transcript"]) - 6 * (len(circuit.outputs) - n - 1)
            if answer != f"run abort {n} {sites}":
                return "the abort"
            if after["outputs"] != case["outputs lent"]:
                return "outputs after an abort"
            if after["transcript"][rest:] != case["transcript lent"][rest:]:
                return "the rest of the transcript"
            return None
        opened += bits
    if answer != "run good" or after["outputs"] != bytes(opened):
        return "the outputs"
    value = plain(circuit, case["inputs"])
    clean = bytes(value[w] for w in circuit.outputs for _ in range(3))
    if not any(case["line"]) and after["outputs"] != clean:
        return "the outputs of a clean run"
    return None


def wrong_view(case, after):
    run = clean.Run(case["circuit"], case["inputs"], case["tapes"])
    if after["view"] != run.view(case["number"]):
        return "the view"
    return None if after["store"] == run.store() else "the store"


def wrong_retape(case, after):
    circuit, site = case["circuit"], case["number"]
    given = case["inputs"], case["tapes"]
    if after["tapes"] != clean.new_tapes(circuit, *given, case["second"],
                                         site):
        return "the new tapes"
    room = bytes(plain(circuit, case["inputs"])
                 + plain(circuit, case["second"]))
    room += clean.Run(circuit, *given).pairs(site)
    return None if after["room"] == room else "the work room"


def traffic(circuit):
    table = [[0] * 3 for _ in range(3)]
    for a in range(3):
        for b in range(3):
            if a != b:
                table[a][b] = (2 * circuit.owners.count(a + 1)
                               + 2 * circuit.products)
        table[a][(a + 2) % 3] += len(circuit.outputs)
    return table


def wrong_text(case, lines):
    """What is wrong with the other lines of a good traffic or listing."""
    if case["call"] == "traffic":
        table = traffic(case["circuit"])
        wanted = ["row %d %d %d" % tuple(row) for row in table]
    else:
        circuit = case["circuit"]
        value = plain(circuit, case["inputs"])
        wanted = ["| inputs %d gates %d outputs %d" % (
            len(circuit.owners), len(circuit.gates), len(circuit.outputs)),
            "| bits %d" % sum(map(sum, traffic(circuit)))]
        wanted += ["| out %d %d" % (n, value[w])
                   for n, w in enumerate(circuit.outputs)] + ["| end"]
    return None if lines == wanted else "the text"


def wrong_numbers(case, answer):
    """What is wrong with the numbers of open, check or a query."""
    name, circuit, n = case["call"], case["circuit"], case["number"]
    if name in ("open", "check"):
        numbers = [len(circuit.owners), len(circuit.gates),
                   len(circuit.outputs)]
    elif question_of(case) == "gate":
        numbers = circuit.gates[n]
    else:
        numbers = [(circuit.owners if question_of(case) == "owner"
                    else circuit.outputs)[n]]
    wanted = " ".join(map(str, [name, "good", *numbers]))
    return None if answer == wanted else "the numbers"


def wrong_refusal(case, refusal, answer, lines):
    """What is wrong where a refusal is due."""
    name, after = case["call"], buffers_of(case, lines)
    if answer != "%s refused %d %d" % (name, *refusal):
        return "refusal %d %d is due" % refusal
    before = {part: case[part + " lent"] for part in LENT.get(name, [])}
    if refusal[0] == 13:
        circuit = case["circuit"]
        before["room"] = bytes(
            plain(circuit, case["inputs"]) + plain(circuit, case["second"])
        ) + before["room"][2 * circuit.wires:]
    if after != before:
        return "a buffer is changed"
    if name == "traffic" and lines != ["row 0 0 0"] * 3:
        return "the table is not all zeros"
    if name == "listing" and lines != ["| refused %d %d" % refusal]:
        return "the text"
    if name == "from_bristol" and lines != ["room same"]:
        return "the room is changed"
    return None


def wrong_from_bristol(case, answer, lines):
    """What is wrong with the file of a good text: it is read back by document
    01, and has the text's plain outputs."""
    name, _, rest = lines[0].partition(" ")
    file = bytes_of(rest)
    if name != "file" or answer != f"from_bristol good {len(file)}":
        return "the length"
    if lines[1:] != ["behind same"]:
        return "the bytes behind the file"
    if check_circuit(file):
        return "the file is refused"
    return bristol.wrong_file(case["text"], case["owners"], read(file), plain)


def wrong(case, answer, lines):
    """What is wrong with the text of a call, or None."""
    name, refusal = case["call"], refusal_of(case)
    if refusal:
        if refusal[0] == 13:
            case["circuit"] = read(case["file"])
        return wrong_refusal(case, refusal, answer, lines)
    if name == "from_bristol":
        return wrong_from_bristol(case, answer, lines)
    if name == "listing":
        second, third = struct.unpack("<2I", case["job"][8:16])
        case["file"] = case["job"][16:second]
        case["inputs"] = case["job"][second:third]
    case["circuit"] = read(case["file"])
    after = buffers_of(case, lines)
    if name in ("open", "check", "gate", "owner", "output", *READERS):
        return wrong_numbers(case, answer)
    if name == "run":
        return wrong_run(case, answer, after)
    if answer != name + " good":
        return "no refusal is due"
    if name == "view":
        return wrong_view(case, after)
    if name == "plain":
        value = plain(case["circuit"], case["inputs"])
        return None if after["values"] == bytes(value) else "the values"
    if name == "retape":
        return wrong_retape(case, after)
    return wrong_text(case, lines)
