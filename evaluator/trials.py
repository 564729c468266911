"""The stream that the engine's program is tried on, and what holds it.

    python3 -B evaluator/trials.py stream > crates/trials/stdin
    python3 -B evaluator/trials.py marked
    python3 -B evaluator/trials.py check

The stream begins with document 01's own examples and edges; `marked` tells
where each of them stands.  `check` holds crates/trials/stdin to the stream
made anew and crates/trials/stdout to what the evaluator prints for it, the
examples to the document's words, and sees that every kind of answer occurs.
"""

import os
import sys
import tempfile

sys.dont_write_bytecode = True  # nothing is written beside the sources

import calls   # noqa: E402
import check   # noqa: E402
import damage  # noqa: E402
import fashion  # noqa: E402
import files   # noqa: E402
import kinds   # noqa: E402
import readers  # noqa: E402
import runs    # noqa: E402
import together  # noqa: E402
import views   # noqa: E402

CRATE = os.path.join(check.HERE, os.pardir, "crates", "trials")
# The calls that the program makes.  One that is not here is left out of the
# stream and of the kinds of answers.
MADE = [*files.NAMES, "run", "listing", "plain", "view", "retape",
        *damage.READERS, "from_bristol"]
# So many calls of these together there must be.
LEAST = {("run", "listing"): 3000, ("plain",): 600, ("view",): 1000,
         ("retape",): 1500, tuple(damage.READERS): 600,
         ("from_bristol",): 1500}
EXAMPLES = ["K1 run", "K1 plain", "K1 listing", "K2", "K3", "K4", "K5", "K6",
            "K7", "K8", "K9", "K10", "K11 AND 0 2", "K11 AND 0 0", "K12",
            "tapes one short", "tapes one long", "empty run", "empty plain",
            "empty view", "empty retape", "empty listing",
            "empty from_bristol", "text AND", "text EQW of an EQW"]


def marked():
    """Document 01's examples and edges by name, each with its case."""
    named = [(name, damage.case_of(call)) for name, call in calls.marked()]
    return [(name, case) for name, case in named if case["call"] in MADE]


def cases():
    """All calls of the stream: the marked ones come first, those to a reader
    last."""
    return [case for case in [*(case for _, case in marked()),
                              *files.cases(), *runs.cases(),
                              *views.cases(), *fashion.cases(),
                              *readers.cases()]
            if case["call"] in MADE]


def stream_of(every):
    return b"".join(map(damage.stream_of, every))


# What holds the stream and the text.

def fail(text):
    print("trials: " + text)
    sys.exit(1)


def stored(name):
    try:
        with open(os.path.join(CRATE, name), "rb") as file:
            return file.read()
    except OSError as error:
        fail(f"crates/trials/{name}: {error.strerror}")


def stored_for_c():
    """The stored stream and text without the calls to a reader, which is a
    struct that C does not have."""
    asked = [case for case in cases() if case["call"] in damage.READERS]
    stream, text = stored("stdin"), stored("stdout")
    lines = text.splitlines(keepends=True)
    return (stream[:-len(stream_of(asked))],
            b"".join(lines[:-len(asked)]))


def held(name, wanted, whose):
    if stored(name) != wanted:
        fail(f"crates/trials/{name} is not what {whose}")


def check_marked(text):
    """The stored text of the marked calls is what document 01 says."""
    missing = set(EXAMPLES) - {name for name, _ in calls.marked()}
    if missing:
        fail(f"no call for {', '.join(sorted(missing))}")
    examples, lines, at = marked(), text.splitlines(), 0
    for name, _ in examples:
        wanted = check.DOCUMENT[name]
        if lines[at:at + len(wanted)] != wanted:
            fail(f"{name}, line {at + 1}: stored is "
                 f"{lines[at:at + len(wanted)]}, the document has {wanted}")
        at += len(wanted)
    numbered = dict.fromkeys(name.split()[0] for name, _ in examples
                             if name.startswith("K"))
    print(f"{', '.join(numbered)}, the edges and small texts as written out, "
          f"{len(examples)} calls, lines 1 to {at}")


def check_answers(every, text):
    """Every answer is the one that damage.py works out for itself."""
    missing = {kind for name in MADE for kind in kinds.needed_of(name)}
    if {"view", "retape"} <= set(MADE):
        missing |= together.needed_of_both()
    count, told = len(missing), list(zip(every, check.texts_of(every, text)))
    for n, (case, (answer, lines)) in enumerate(told, 1):
        wrong = damage.wrong(case, answer, lines)
        if wrong:
            fail(f"call {n}, '{answer}': {wrong}")
        missing -= kinds.kinds_of(case, answer, lines)
    missing -= check_sequences(told)
    for kind in sorted(missing):
        print(f"trials: no answer '{kind}'")
    if missing:
        fail(f"{len(missing)} kinds of answers are missing")
    print(f"{count} kinds of answers, each there")


def check_sequences(told):
    """Calls of a sequence have its number.  Answers the kinds they are of."""
    found, some = set(), {}
    for case, text in told:
        if "sequence" in case:
            some.setdefault(case["sequence"], []).append((case, text))
    for number, calls_of_it in some.items():
        wrong, kinds_of_it = together.of_sequence(calls_of_it)
        if wrong:
            fail(f"sequence {number}: {wrong}")
        found |= kinds_of_it
    if some:
        print(f"{len(some)} sequences, there and back and by way of a third")
    return found


def counted(every):
    """How many calls there are of each, told in words."""
    words = []
    for names, least in LEAST.items():
        count = sum(case["call"] in names for case in every)
        told = f"{count} of {' and '.join(names)}"
        if not set(names) <= set(MADE):
            continue
        if count < least:
            fail(f"{told}, {least} are wanted")
        words.append(told)
    return ", ".join(words)


def check_all():
    every = cases()
    words = counted(every)
    stream = stream_of(every)
    with tempfile.TemporaryDirectory() as folder:
        program = check.compiled(folder, "evaluator",
                                 [*check.SOURCES, "stream.c"], ["-O2"])
        text = check.printed(program, stream)
    held("stdin", stream, "trials.py makes")
    held("stdout", text.encode(), "the evaluator prints")
    check_marked(text)
    check_answers(every, text)
    print(f"trials ok, {len(every)} calls, {words}")


def tell_marked():
    """Where each marked call stands: its number, its first byte in stdin and
    its lines in stdout."""
    byte, line = 0, 1
    for n, (name, case) in enumerate(marked(), 1):
        last = line + len(check.DOCUMENT[name]) - 1
        print(f"call {n}, byte {byte}, lines {line} to {last}: {name}")
        byte, line = byte + len(damage.stream_of(case)), last + 1


if __name__ == "__main__":
    if sys.argv[1:] == ["stream"]:
        sys.stdout.buffer.write(stream_of(cases()))
    elif sys.argv[1:] == ["marked"]:
        tell_marked()
    elif sys.argv[1:] == ["check"]:
        check_all()
    else:
        sys.exit("python3 -B evaluator/trials.py stream > FILE\n"
                 "python3 -B evaluator/trials.py marked\n"
                 "python3 -B evaluator/trials.py check")
