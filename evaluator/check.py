"""Tries the evaluator itself.

    python3 evaluator/check.py

compiles it into a temporary folder and prints one line for each part, and
`evaluator ok` last.  The exit status is 0 only then.
"""

import os
import random
import shutil
import subprocess
import sys
import tempfile

sys.dont_write_bytecode = True  # nothing is written beside the sources

import calls   # noqa: E402
import damage  # noqa: E402

HERE = os.path.dirname(os.path.abspath(__file__))
SOURCES = ["evaluator.c", "circuit.c", "bristol.c"]
CASES = 8000
SEED = 20260
SANITIZE = ["-g", "-O1", "-fsanitize=address,undefined",
            "-fno-sanitize-recover=all"]


def odd(count):
    return "xa5" * count


def close(text):
    return "".join(text.split())


# What document 01 says of K1 to K12 and of the edges.

BITS = "1000 0110 1111 0111 1001"
STORE = "01 10 10  10 00 00  00 01 01"


def run_text(answer, outputs, transcript, store=STORE):
    return [f"run {answer}", f"outputs {close(outputs)}",
            f"transcript {close(transcript)}", f"store {close(store)}"]


def retape_text(answer, tapes, room):
    return [f"retape {answer}", f"tapes {close(tapes)}", f"room {close(room)}"]


def text_good(length, file):
    return [f"from_bristol good {length}", f"file {close(file)}",
            "behind same"]


def text_refused(number, place):
    return [f"from_bristol refused {number} {place}", "room same"]


# The file of K1's circuit: header, owners, gate and output.
MARKED = """x2a000 x02000 1000 1000 x20000 x22000 x28000 0000
            1x02 x020 00 10 x020"""

DOCUMENT = {
    "K1 run": run_text("good", "1 1 1", BITS + "100001"),
    "K1 plain": ["plain good", "values 111"],
    "K1 open": ["open good 2 1 1"],
    "K1 check": ["check good 2 1 1"],
    "K1 gate 0": ["gate good 2 0 1"],
    "K1 owner 1": ["owner good 2"],
    "K1 output 0": ["output good 2"],
    "K1 gate 65536": ["gate refused 5 1"],
    "K1 owner 2": ["owner refused 4 2"],
    "K1 output 1": ["output refused 6 1"],
    "K1 listing": ["listing good", "| inputs 2 gates 1 outputs 1", "| bits 23",
                   "| out 0 1", "| end"],
    "K2": run_text("good", "1 1 1", BITS + "100001"),
    "K3": ["view good", "view " + close("10 00 01 11 01 00 1"),
           "store " + close(STORE)],
    # Bit 20 is 1>2: site 2 gets two unlike copies.
    "K4": run_text("abort 0 2", odd(3), BITS + "000001"),
    # Bits 23 and 24 are 2>1 and 3>1: both copies of site 1 are turned.
    "K5": run_text("good", "0 1 1", BITS + "100111"),
    # Bit 8 is the AND's first, part 2 for site 2.  Site 2 holds its part 2
    # turned, and sends it so to site 3 in bit 22.
    "K6": run_text("abort 0 4", odd(3), "1000 0110 0111 0111 1001 101001",
                   "01 10 10  10 00 10  00 01 01"),
    # Bit 0 is part 2 of wire 0 for site 2, whose parts of wire 1 are both 0,
    # so that nothing else turns.
    "K7": run_text("good", "1 1 1", "0000 0110 1111 0111 1001 100001",
                   "01 10 10  00 00 00  00 01 01"),
    "K8": retape_text("good", "0001 0101 10", "100 010 00 01 01"),
    "K9": retape_text("refused 13 2", odd(10), "111 100" + odd(6)),
    "K10": retape_text("refused 13 0", odd(10), "100 000" + odd(6)),
    "K11 AND 0 2": ["check refused 5 0"],
    "K11 AND 0 0": ["check good 2 1 1"],
    "K12": ["traffic good", "row 0 4 5", "row 5 0 4", "row 2 3 0"],
    "I 1024": ["check good 1024 0 1"],
    "I 1025": ["check refused 2 0"],
    "G 3072": ["check good 1 3072 1"],
    "G 3073": ["check refused 2 1"],
    "O 256": ["check good 3 2 256"],
    "O 257": ["check refused 2 2"],
    "all at their limits": ["check good 1024 3072 256"],
    "tapes one short": run_text("refused 8 10", odd(3), odd(26), odd(18)),
    "tapes one long": run_text("refused 8 10", odd(3), odd(26), odd(18)),
    "empty open": ["open good 0 0 0"],
    "empty gate": ["gate refused 5 0"],
    "empty owner": ["owner refused 4 0"],
    "empty output": ["output refused 6 0"],
    "empty check": ["check good 0 0 0"],
    "empty plain": ["plain good", "values"],
    "empty run": ["run good", "outputs", "transcript", "store"],
    "empty view": ["view good", "view", "store"],
    "empty view 0": ["view refused 11 0", "view", "store"],
    "empty retape": ["retape good", "tapes", "room"],
    "empty retape 4": ["retape refused 11 0", "tapes", "room"],
    "empty traffic": ["traffic good", "row 0 0 0", "row 0 0 0", "row 0 0 0"],
    "empty listing": ["listing good", "| inputs 0 gates 0 outputs 0",
                      "| bits 0", "| end"],
    "empty from_bristol": text_good(
        32, "x20000 0000 0000 0000 x20000 x20000 x20000 0000"),
}

# What request T-01 says of small texts.  Its words leave nothing open in a
# file: gates in the order of the lines, operands as they stand, NOT with
# second 0, an EQW's wire the one that it reads.

DOCUMENT.update({
    "text AND": text_good(42, MARKED),
    "text XOR": text_good(
        42, """x2a000 x02000 1000 1000 x20000 x22000 x28000 0000
               x03 1  10 10 00  x020"""),
    "text INV": text_good(
        41, """x29000 1000 1000 1000 x20000 x21000 x27000 0000
               x02  x030 00 00  10"""),
    "text EQW": text_good(
        35, "x23000 1000 0000 1000 x20000 x21000 x21000 0000  1  00"),
    # Wires 3 and 2 are wire 1, and the output is the AND's.
    "text EQW of an EQW": text_good(
        42, """x2a000 x02000 1000 1000 x20000 x22000 x28000 0000
               x03 x03  x020 10 00  x020"""),
    "text an input opened": text_good(
        44, """x2c000 x02000 1000 x02000 x20000 x22000 x28000 0000
               x02 x03  10 00 10  10 x020"""),
    # Wires 6, 3, 8, 7 are ours 3, 4, 5, 6; wire 4 is 8, wire 5 is none.
    "text wires in any order": text_good(
        63, """x3f000 x03000 x04000 x02000 x20000 x23000 x3b000 0000
               x02 x02 1
               10 00 10  x030 x030 00  x020 x040 x020  x030 x050 00
               x060 x050"""),
    "text widths of 0": text_good(
        35, "x23000 1000 0000 1000 x20000 x21000 x21000 0000  x02  00"),
    "text leading zeros": text_good(42, MARKED),
    "text CR LF": text_good(42, MARKED),
    "text blank lines": text_good(42, MARKED),
    "text no last LF": text_good(42, MARKED),
    "text I 1024": text_good(
        1056, "x20x0400 0x0400 0000 0000 x20000 x20x0400 x20x0400 0000"
        + 1024 * "1"),
    "text O 256": text_good(
        800, "x20x0300 0100 0000 0100 x20000 x20100 x20100 0000"
        + 256 * "x03" + "00 10"
        + "".join(f"x{wire:02x} 0" for wire in range(2, 256))),
    "text 2 1 000000 1 2 AND": text_refused(15, 4),
    "text 2 1 0 1 3 AND": text_refused(15, 4),
    "text 1 1 0 2 AND": text_refused(15, 4),
    "text 2 1 0 1 99999 FOO": text_refused(15, 4),
    "text 3 1 0 1 1 2 MAND": text_refused(16, 4),
    "text 2 1 0 1 2 and": text_refused(16, 4),
    "text 2 1 0 1 0 3": text_refused(16, 4),
    "text 2 1 2 0 2 AND": text_refused(17, 4),
    "text 2 1 0 2 2 XOR": text_refused(17, 4),
    "text 1 1 0 1 INV": text_refused(17, 4),
    "text 2 1 0 1 2 AND, 1 1 0 2 EQW": text_refused(17, 5),
    "text 1 1 2 3 INV, 2 1 0 1 9 AND": text_refused(17, 4),
    "text 2 1 0 1 9 AND, 1 1 2 3 INV": text_refused(15, 4),
    "text 1 1 0 3 INV, 1 1 2 3 OR": text_refused(15, 5),
    "text 1 1 0 2 INV": text_refused(15, 4),
    "text room 19999": text_refused(10, 0),
    "text room 20001 and all else bad": text_refused(10, 0),
    "text empty": text_refused(15, 0),
    "text blank": text_refused(15, 1),
    "text wires 8193": text_refused(15, 1),
    "text a width less": text_refused(15, 2),
    "text a sum above the wires": text_refused(15, 3),
    "text a tab behind the gate word": text_refused(16, 4),
    "text a line missing, blank ones behind": text_refused(15, 5),
    "text an output never written": text_refused(17, 3),
    "text an owner less": text_refused(4, 2),
    "text a bad owner": text_refused(4, 1),
    "text a bad owner of a width of 0": text_refused(4, 1),
    "text I 1025, a bad owner": text_refused(4, 0),
    "text I 1025, O 257": text_refused(2, 0),
    "text O 257": text_refused(2, 2),
})


def fail(text):
    print("evaluator: " + text)
    sys.exit(1)


def compiled(folder, name, sources, options):
    compiler = next(filter(shutil.which, ("cc", "gcc", "clang")), None)
    if compiler is None:
        fail("there is no C compiler")
    program = os.path.join(folder, name)
    command = [compiler, "-std=c11", *options, "-o", program,
               *(os.path.join(HERE, source) for source in sources)]
    done = subprocess.run(command, cwd=folder, stderr=subprocess.PIPE)
    if done.returncode:
        fail(f"{name} does not compile\n" + done.stderr.decode())
    return program


def printed(program, stream, status=0):
    # Memory out of bounds is looked for, and no memory left behind at the end.
    options = dict(os.environ, ASAN_OPTIONS="detect_leaks=0")
    done = subprocess.run([program], input=stream, env=options,
                          stdout=subprocess.PIPE, stderr=subprocess.PIPE)
    if done.stderr:
        fail("a complaint\n" + done.stderr.decode(errors="replace"))
    if done.returncode != status:
        fail(f"exit status {done.returncode} where {status} is due")
    return done.stdout.decode()


def check_marked(program):
    stream = b"".join(call for _, call in calls.marked())
    text = printed(program, stream)
    with open(os.path.join(HERE, "marked.text"), "rb") as file:
        whole = file.read().decode()
    lines, stored = text.split("\n"), whole.split("\n")
    for n, (line, wanted) in enumerate(zip(lines, stored), 1):
        if line != wanted:
            fail(f"marked.text line {n} is '{wanted}', printed is '{line}'")
    if text != whole:
        fail(f"marked.text has {len(whole)} bytes, printed are {len(text)}")
    print(f"marked stream as stored, {len(lines) - 1} lines")


def check_document(program):
    examples = calls.marked()
    if [name for name, _ in examples] != list(DOCUMENT):
        fail("the marked stream and the document's table differ in names")
    for name, call in examples:
        lines = printed(program, call).splitlines()
        if lines != DOCUMENT[name]:
            fail(f"{name}: printed {lines}, the document has {DOCUMENT[name]}")
    print(f"K1 to K12, the edges and small texts as the documents have them, "
          f"{len(examples)} calls")


def check_cut(program):
    first = calls.marked()[0][1]
    for length in range(1, len(first), 5):
        if printed(program, first[:length], 1) != "stream cut short\n":
            fail(f"a stream cut to {length} bytes")


def check_all_circuits(folder):
    program = compiled(folder, "exhaust", ["exhaust.c", *SOURCES], ["-O2"])
    done = subprocess.run([program], stdout=subprocess.PIPE,
                          stderr=subprocess.STDOUT)
    text = done.stdout.decode().strip()
    if done.returncode:
        fail(text or f"exhaust: exit status {done.returncode}")
    print(text)


def texts_of(cases, text):
    """The text of each call: its answer and its other lines."""
    lines, at, texts = text.splitlines(), 0, []
    for case in cases:
        start, at = at, at + 1 + len(damage.LENT.get(case["call"], []))
        if case["call"] == "traffic":
            at += 3
        if case["call"] == "from_bristol":
            at += 1 if " refused " in " ".join(lines[start:at]) else 2
        while at < len(lines) and lines[at].startswith("| "):
            at += 1
        texts.append((" ".join(lines[start:start + 1]), lines[start + 1:at]))
    if at != len(lines):
        fail(f"{len(lines)} lines printed, {at} wanted")
    return texts


def views_agree(program, retaped):
    """With the new tapes the second inputs give the site its first view."""
    stream = b""
    for case, tapes in retaped:
        circuit, site = case["circuit"], case["number"]
        stream += calls.view_of(circuit, case["inputs"], case["tapes"], site)
        stream += calls.view_of(circuit, case["second"], tapes, site)
    lines = printed(program, stream).splitlines()
    if lines[0::3] != ["view good"] * (2 * len(retaped)):
        fail("a view is refused")
    for n in range(len(retaped)):
        if lines[6 * n + 1] != lines[6 * n + 4]:
            fail(f"re-taping {n}: the two views differ")


def check_damaged(folder, program):
    guarded = compiled(folder, "guarded", [*SOURCES, "stream.c"], SANITIZE)
    rng = random.Random(SEED)
    cases = [damage.draw_case(rng) for _ in range(CASES)]
    cases += damage.draw_largest(rng)
    stream = b"".join(map(damage.stream_of, cases))
    text = printed(guarded, stream)
    if text != printed(program, stream):
        fail("the sanitized build prints another text")
    retaped, refusals = [], set()
    for n, (case, (answer, lines)) in enumerate(zip(
            cases, texts_of(cases, text))):
        wrong = damage.wrong(case, answer, lines)
        if wrong:
            fail(f"drawn call {n}, '{answer}': {wrong}")
        if " refused " in answer:
            refusals.add(int(answer.split()[2]))
        if answer == "retape good":
            retaped.append((case, damage.buffers_of(case, lines)["tapes"]))
    if refusals != set(range(1, 18)):
        fail(f"the drawn calls meet refusals {sorted(refusals)} only")
    views_agree(guarded, retaped)
    check_cut(guarded)
    printed(guarded, b"".join(call for _, call in calls.marked()))
    print(f"{len(cases)} drawn calls, refusals 1 to 17 among them, "
          f"{len(retaped)} re-tapings, no complaint")


def main():
    with tempfile.TemporaryDirectory() as folder:
        program = compiled(folder, "evaluator", [*SOURCES, "stream.c"],
                           ["-O2"])
        check_marked(program)
        check_document(program)
        check_damaged(folder, program)
        check_all_circuits(folder)
    print("evaluator ok")


if __name__ == "__main__":
    main()
