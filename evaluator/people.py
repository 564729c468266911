"""Holds the package python/bakebutton to the evaluator, and runs the package's own tests.

    python3 -B evaluator/people.py

Every call of the stored stream (crates/trials/stdin) that the package can make is made through it; what comes out must be the stored text
(crates/trials/stdout). K1 to K12 must be document 01's, and small texts request T-01's. The labels of bits are held to a run told by clean.py,
to the evaluator's transcript, store, view and traffic, and to what a changed bit changes. Every file of the stream that the reader can open goes
to text and back. The stored adder must add (sums.py). The helper program, which asks the library where Python cannot load it, must answer as
the library does.
"""

import ast
import io
import os
import random
import struct
import sys
import tempfile
import unittest

sys.dont_write_bytecode = True  # nothing is written beside the sources

import calls   # noqa: E402
import check   # noqa: E402
import circuits  # noqa: E402
import damage  # noqa: E402

ROOT = os.path.normpath(os.path.join(check.HERE, os.pardir))
PACKAGE = os.path.join(ROOT, "python")
sys.path[:0] = [PACKAGE, os.path.join(PACKAGE, "tests")]

from bakebutton import circuit, direct, engine, helper, jobs, parse, places, text  # noqa: E402
from bakebutton.calls import CALLS  # noqa: E402
from bakebutton.errors import Mistake, Refused, Unavailable  # noqa: E402

import labelled  # noqa: E402
import sums  # noqa: E402

SEED = 20269
LONGEST_FILE, LONGEST_FUNCTION = 300, 40


def fail(told):
    print("people: " + told)
    sys.exit(1)


def stored(name):
    with open(os.path.join(ROOT, "crates", "trials", name), "rb") as file:
        return file.read()


# The stored calls through the package.

def split(stream):
    """The calls of a stream, each as its bytes."""
    at = 0
    while at < len(stream):
        name, start = damage.NAMES[stream[at] - 1], at
        at += 5
        for _ in range(1 if name == "listing" else 1 + len(damage.GIVEN.get(name, [])) + len(damage.LENT.get(name, []))):
            at += 4 + struct.unpack_from("<I", stream, at)[0]
        yield stream[start:at]


def shown(name, bits):
    return f"{name} {''.join(str(b) if b < 2 else f'x{b:02x}' for b in bits)}".rstrip()


def made_run(case):
    run = engine.run(case["file"], case["inputs"], case["tapes"], case["line"])
    if run.stopped is not None:
        rest = case["transcript lent"][len(run.transcript):]
        sites = sum(1 << site - 1 for site in run.sites)
        return [f"run abort {run.stopped} {sites}", shown("outputs", case["outputs lent"]), shown("transcript", run.transcript + rest),
                shown("store", run.store)]
    return ["run good", shown("outputs", run.outputs), shown("transcript", run.transcript), shown("store", run.store)]


def made(case):
    """What the package answers to a case, in the evaluator's words; the answer alone where it is refused."""
    name, file, number = case["call"], case.get("file"), case["number"]
    if name in ("open", "check"):
        return [" ".join(map(str, [name, "good", *(engine.open_file if name == "open" else engine.check)(file)]))]
    if name == "gate":
        return [" ".join(map(str, [name, "good", *engine.gate(file, number)]))]
    if name in ("owner", "output"):
        return [f"{name} good {getattr(engine, name)(file, number)}"]
    if name == "traffic":
        return ["traffic good", *("row %d %d %d" % tuple(row) for row in engine.traffic(file))]
    if name == "listing":
        answer = engine.listing(case["job"])
        first = f"listing refused {answer.number} {answer.place}" if answer.number else "listing good"
        return [first, *("| " + line for line in answer.text.splitlines())]
    if name == "from_bristol":
        made_file = engine.from_bristol(case["text"], case["owners"])
        return [f"from_bristol good {len(made_file)}", shown("file", made_file)]
    if name == "plain":
        return ["plain good", shown("values", engine.plain(file, case["inputs"]))]
    if name == "run":
        return made_run(case)
    if name == "view":
        return ["view good", *map(shown, ("view", "store"), engine.view(file, case["inputs"], case["tapes"], number))]
    return ["retape good", *map(shown, ("tapes", "room"), engine.retape(file, case["inputs"], case["tapes"], case["second"], number))]


def differs(case, answer, lines):
    """Whether the package answers otherwise. Refusal 10 is none of its own: it lends what `sizes` says, and a room that nobody else sees."""
    try:
        return made(case) != [answer, *(line for line in lines if line != "behind same")]
    except Refused as refused:
        return answer != f"{case['call']} refused {refused.number} {refused.place}"


def check_stored():
    cases = [damage.case_of(call) for call in split(stored("stdin"))]
    told = list(zip(cases, check.texts_of(cases, stored("stdout").decode())))
    count = 0
    for n, (case, (answer, lines)) in enumerate(told, 1):
        if case["call"] in damage.READERS or " refused 10 " in answer:
            continue
        if differs(case, answer, lines):
            fail(f"stored call {n}, '{answer}': the package answers otherwise")
        count += 1
    print(f"{count} stored calls through the package, each as the evaluator has it")
    return {case["file"] for case in cases if "file" in case}


def check_marked():
    """Document 01's own values, call by call."""
    count = 0
    for name, call in calls.marked():
        wanted = check.DOCUMENT[name]
        if " refused 10 " in wanted[0]:
            continue
        if differs(damage.case_of(call), wanted[0], wanted[1:]):
            fail(f"{name} is not the document's")
        count += 1
    print(f"K1 to K12, the edges and small texts as the documents have them, {count} calls")


# Texts and jobs.

def check_texts(files):
    rng = random.Random(SEED)
    files = sorted(files | {circuits.any_parts(rng) for _ in range(300)})
    opened = bad = 0
    for file in files:
        if damage.check_header(file):
            continue
        written = text.write(circuit.read(file))
        once = parse.parse(written)
        if once.file() != file or text.write(once) != written:
            fail(f"a file of {len(file)} bytes is another after its text")
        opened, bad = opened + 1, bad + (damage.check_circuit(file) is not None)
    if not 50 < bad < opened - 50:
        fail(f"{opened} files were opened, {bad} of them bad: too few of one kind")
    print(f"{opened} files to text and back, {bad} of them refused by the check")


def check_jobs():
    rng, count = random.Random(SEED), 0
    for _ in range(300):
        case = damage.draw_call(rng, "listing", damage.draw_circuit(rng, *damage.draw_counts(rng)))
        for _ in range(rng.randrange(3)):
            damage.damage(rng, case)
        refusal = damage.check_job(case)
        try:
            parts = jobs.apart(case["job"])
        except Refused as refused:
            if (refused.number, refused.place) != refusal:
                fail("a job is refused otherwise")
            continue
        if (refusal or (0,))[0] == 14 or jobs.make(*parts)[16:] != case["job"][16:]:
            fail("a job taken apart and made is another")
        count += 1
    print(f"{count} jobs taken apart and made again")


# The helper program, and the package's own rules.

def check_helper():
    """Every kind of call through the helper program, as the loaded library answers it."""
    asked = helper.Helper()
    loaded = direct.Direct(os.environ.get("BAKEBUTTON_LIBRARY") or places.SHARED) if places.is_x86() else asked
    file, both = calls.MARKED.file(), bytes([1, 1])
    some = [("open", [file], 0, []), ("check", [file], 0, []), ("check", [b""], 0, []), ("sizes", [file], 0, []), ("traffic", [file], 0, []),
            ("gate", [file], 0, []), ("gate", [file], 2**64 - 1, []), ("owner", [file], 1, []), ("output", [file], 0, []),
            ("plain", [file, both], 0, [3]), ("plain", [file, both], 0, [0]), ("run", [file, both, calls.TAPES, bytes(26)], 0, [3, 26, 18]),
            ("run", [file, both, calls.TAPES, bytes(20) + b"\1" + bytes(5)], 0, [3, 26, 18]), ("view", [file, both, calls.TAPES], 3, [13, 18]),
            ("retape", [file, b"\1\0", calls.TAPES, b"\0\1"], 3, [10, 12]), ("listing", [calls.job(file, both, calls.TAPES)], 0, [2624]),
            ("from_bristol", [calls.text_of(*calls.AND_TEXT), both], 0, [20000]), ("from_bristol", [b"1", both], 0, [20000]),
            ("from_bristol", [b"", b""], 0, [3])]
    if {name for name, *_ in some} != set(CALLS):
        fail("a kind of call is not asked of the helper program")
    for one in some:
        if asked.ask(*one) != loaded.ask(*one):
            fail(f"the helper program answers '{one[0]}' otherwise than the library")
    asked.close()
    print(f"the helper program answers {len(some)} calls" + (" as the library does" if places.is_x86() else ""))


def check_sources():
    """Python 3.9 reads them, they are short, and each module says what it is for."""
    count = 0
    for folder in ("bakebutton", "tests"):
        for name in sorted(os.listdir(os.path.join(PACKAGE, folder))):
            if not name.endswith(".py"):
                continue
            with open(os.path.join(PACKAGE, folder, name), encoding="utf-8") as file:
                source = file.read()
            tree = ast.parse(source, name, feature_version=(3, 9))
            if source and not ast.get_docstring(tree):
                fail(f"{name} does not say what it is for")
            if source.count("\n") > LONGEST_FILE:
                fail(f"{name} has {source.count(chr(10))} lines")
            for node in ast.walk(tree):
                if isinstance(node, ast.FunctionDef) and node.end_lineno - node.lineno >= LONGEST_FUNCTION:
                    fail(f"{name}: {node.name} has {node.end_lineno - node.lineno + 1} lines")
            count += 1
    print(f"{count} sources of the package, for Python 3.9 or newer")


def check_tests():
    suite = unittest.defaultTestLoader.discover(os.path.join(PACKAGE, "tests"), top_level_dir=os.path.join(PACKAGE, "tests"))
    result = unittest.TextTestRunner(stream=io.StringIO(), verbosity=0).run(suite)
    for test, told in result.failures + result.errors:
        print(f"people: {test.id()}\n{told}")
    if not result.wasSuccessful() or result.testsRun < 30:
        fail(f"the package's own tests, {result.testsRun} of them")
    print(f"{result.testsRun} tests of the package's own")


def main():
    try:
        check_sources()
        check_helper()
        check_marked()
        files = check_stored()
        with tempfile.TemporaryDirectory() as folder:
            program = check.compiled(folder, "evaluator", [*check.SOURCES, "stream.c"], ["-O2"])
            wrong = labelled.wrong(program, random.Random(SEED))
        if wrong:
            fail(wrong)
        wrong = sums.wrong(random.Random(SEED))
        if wrong:
            fail(wrong)
        check_texts(files)
        check_jobs()
        check_tests()
    except (Mistake, Unavailable) as told:
        fail(str(told))
    print("people ok")


if __name__ == "__main__":
    main()
