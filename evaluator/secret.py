"""Holds the library that a panel links to what docs/SECURITY.md says of time and secret bits.  On x86-64 alone.

    python3 -B evaluator/secret.py

makes calls under valgrind with inputs, tapes and second inputs marked as secret (secret.c), and looks at every place of the code where a jump, or
an address in memory, hangs on them.  Those are the facts below and no others; each fact is public, since the answer tells it.

What a place decides is told by the bytes that it hangs on, and not by where it stands, which moves with the code.  A fact is named in a call where
only bytes that it hangs on are secret, or which ends right behind it.  Then all is secret, and the places must be the named ones.  Then the bytes
of one fact are made public: its place must go, and the others stay.  For this there is a circuit of two halves that have nothing to do with one
another, of which one is opened.

The plain C engine of the benchmark goes through the naming too, and so do wrong engines that are made of it, each of which must be caught.
"""

import os
import platform
import re
import shutil
import subprocess
import sys
import tempfile

sys.dont_write_bytecode = True  # nothing is written beside the sources

import calls     # noqa: E402
import check     # noqa: E402
import circuits  # noqa: E402
import damage    # noqa: E402
import door      # noqa: E402
import views     # noqa: E402
from calls import AND, NOT, OR, Circuit  # noqa: E402

SEED = 20268
SITES = (1, 2, 3)
SECRET = 0x80  # in a byte of a stream, as secret.c has it
PARTS = {"plain": ["inputs"], "run": ["inputs", "tapes"], "view": ["inputs", "tapes"], "retape": ["inputs", "tapes", "second"],
         "listing": ["inputs", "tapes"]}
FACTS = {
    "plain": ["7"],
    "run": ["7", "8", "copies"],
    "view": ["7", "8"],
    "retape": ["7", "8", "12", "13 own", "13 opened"],
    "listing": ["7", "8", "shown"],
}
MEANING = {
    "7": "a byte of the inputs is above 1",
    "8": "a byte of the tapes is above 1",
    "12": "a byte of the second inputs is above 1",
    "13 own": "an own input differs",
    "13 opened": "an opened bit differs",
    "copies": "two copies at an opening are unlike",
    "shown": "two copies at an opening are unlike; the digit of an opened bit",
}
PLACES = {"shown": 2}  # of every other fact one


def fail(*lines):
    print("\n".join("secret: " + line for line in lines))
    sys.exit(1)


def without(facts, *others):
    return [fact for fact in facts if fact not in others]


# Calls with secret bytes.

def tape_wires(circuit):
    """For each byte of the tapes the wire that it is drawn for."""
    inputs = len(circuit.owners)
    products = [inputs + g for g, gate in enumerate(circuit.gates) if gate[0] in (AND, OR)]
    return [wire for site in SITES for wire in [n for n in range(inputs) if circuit.owners[n] == site] + products for _ in range(2)]


class Trial:
    """A call, its secret bytes, the facts that these decide, the answer.  Secret are, of each part of `secret`, the bytes of its wires, or, where
    that is None, all.  `names` is the fact whose place is told by this call."""

    def __init__(self, case, what, secret, facts, answer=(0, 0), names=None):
        self.call, self.text, self.facts, self.answer, self.names = case["call"], f"{case['call']}, {what}", facts, answer, names
        marked = dict(case)
        for part, wires in secret.items():
            of = tape_wires(case["circuit"]) if part == "tapes" else range(len(case["inputs"]))
            marked[part] = bytes(byte | SECRET if wires is None or wire in wires else byte for byte, wire in zip(case[part], of))
        marked["job"] = calls.job(case["file"], marked["inputs"], marked["tapes"])
        self.stream = damage.stream_of(marked)


def turned(circuit, inputs, site):
    """Second inputs for a good re-taping: other sites' bits are turned one after the other, where no opened bit turns with them."""
    second = bytearray(inputs)
    for n, owner in enumerate(circuit.owners):
        second[n] ^= owner != site
        if damage.check_same(circuit, inputs, second, site):
            second[n] ^= 1
    return bytes(second)


def good(rng, name, circuit, site=1, line=None):
    """A good call on a circuit, with a clean line where no other is given."""
    case = dict(damage.draw_call(rng, name, circuit), line=line or bytes(circuit.line_length()), number=site)
    case["second"] = turned(circuit, case["inputs"], site)
    return case if name == "listing" else views.sized(rng, case)


class Halves:
    """A drawn circuit of two halves, opened and hidden: no gate reads from both, and all outputs are in the first.  Wire 0 is in the first
    too: plain values of a NOT look at wire 0, its second number, whose value changes nothing, and valgrind cannot know that."""

    def __init__(self, rng):
        self.opened, self.hidden = list(range(12)), list(range(12, 24))
        gates = []
        for wire in range(24, 84):
            half, kind = rng.choice((self.hidden, self.opened)), rng.choice(circuits.KINDS)
            gates.append((kind, rng.choice(half), 0 if kind == NOT else rng.choice(half)))
            half.append(wire)
        self.circuit = Circuit([n % 3 + 1 for n in range(24)], gates, self.opened[-8:] + self.opened[:4])

    def own(self, site):
        return {n for n, owner in enumerate(self.circuit.owners) if owner == site}


def naming(rng, halves):
    """For each fact of each call a call that tells its place."""
    hidden, opened, site = set(halves.hidden), set(halves.opened), 2
    own = halves.own(site)
    for name in ("plain", "run", "view", "retape"):
        case = good(rng, name, halves.circuit)
        lent = damage.LENT[name][0] + " lent"
        case[lent] = case[lent][1:]
        for part, fact in zip(PARTS[name][:2], FACTS[name]):
            yield Trial(case, f"refused by 10, only {part} secret", {part: None}, [fact], (10, 0), fact)
    case = good(rng, "listing", halves.circuit)
    for part, fact in zip(PARTS["listing"], FACTS["listing"]):
        yield Trial(case, f"only {part} of hidden wires secret", {part: hidden}, [fact], names=fact)
    for name, fact in (("listing", "shown"), ("run", "copies")):
        case = good(rng, name, halves.circuit)
        yield Trial(case, "only tapes of opened wires secret", {"tapes": opened}, ["8", fact], names=fact)
    case = good(rng, "retape", halves.circuit, site)
    yield Trial(case, "only others' hidden second inputs secret", {"second": hidden - own}, ["12"], names="12")
    yield Trial(case, "only own hidden inputs secret", {"inputs": hidden & own}, ["7", "13 own"], names="13 own")
    yield Trial(case, "only others' opened inputs secret", {"inputs": opened - own}, ["7", "13 opened"], names="13 opened")


def lines(circuit):
    """A clean line, both copies of site 1 changed, one copy at the first output, one at the last; with the answers."""
    length, count = circuit.line_length(), len(circuit.outputs)
    first = length - 6 * count
    kinds = [("on a clean line", (), (0, 0))]
    if count:
        kinds += [("both copies changed", (first + 3, first + 4), (0, 0)), ("stopped at the first output", (first,), (100, 0)),
                  ("stopped at the last output", (length - 1,), (100, count - 1))]
    for what, changed, answer in kinds:
        yield what, bytes(n in changed for n in range(length)), answer


def refused(rng, circuit, inputs, site):
    """Second inputs for 13 at the last own input and, where some are soon found, for 13 at an opened bit; with the answers."""
    own = [n for n, owner in enumerate(circuit.owners) if owner == site]
    yield "refused at an own input", bytes(bit ^ (n == own[-1]) for n, bit in enumerate(inputs)), (13, own[-1])
    for _ in range(views.TRIES):
        second = views.others_turned(rng, circuit, inputs, site)
        answer = damage.check_same(circuit, inputs, second, site)
        if answer:
            yield "refused at an opened bit", second, answer
            return


def all_secret(rng, where, circuit):
    """The calls on a circuit with all secret, answered in every way behind the tests of bytes."""
    never = [] if circuit.outputs else ["copies", "shown", "13 opened"]

    def trial(case, what, answer=(0, 0), *also):
        name = case["call"]
        return Trial(case, f"all secret, {where}, {what}", dict.fromkeys(PARTS[name]), without(FACTS[name], *never, *also), answer)

    for name in ("plain", "listing"):
        yield trial(good(rng, name, circuit), "good")
    for what, line, answer in lines(circuit):
        yield trial(good(rng, "run", circuit, line=line), what, answer)
    for site in SITES:
        yield trial(good(rng, "view", circuit, site), f"site {site}")
        case = good(rng, "retape", circuit, site)
        yield trial(case, f"site {site}, good")
        for what, second, answer in refused(rng, circuit, case["inputs"], site):
            unasked = ["13 opened"] if answer[1] < len(circuit.owners) else []
            yield trial(dict(case, second=second), f"site {site}, {what}", answer, *unasked)


def made_public(rng, halves):
    """All secret but the bytes of one fact: its place goes, and the others stay."""
    site = 3
    others = set(range(24)) - halves.own(site)
    for name in ("run", "view", "retape", "listing"):
        case, parts, facts = good(rng, name, halves.circuit, site), PARTS[name], FACTS[name]
        for part, fact in zip(parts, facts):
            yield Trial(case, f"all secret but {part}", dict.fromkeys(without(parts, part)), without(facts, fact))
        if name != "view":
            yield Trial(case, "all secret but opened wires", dict.fromkeys(parts, halves.hidden), without(facts, "copies", "shown", "13 opened"))
    case = good(rng, "retape", halves.circuit, site)
    yield Trial(case, "all secret but own inputs", {"inputs": others, "tapes": None, "second": others}, without(FACTS["retape"], "13 own"))


# What valgrind says of them.  With guest-chase it would take two jumps that follow each other for one, `a && b`, and where b is public and false
# not report a jump on a, which is made all the same.

VALGRIND = ["valgrind", "-q", "--command-line-only=yes", "--error-limit=no", "--num-callers=1", "--vex-guest-chase=no"]
JUMP, ADDRESS = "a jump", "an address"
KINDS = {"Conditional jump or move depends on uninitialised value(s)": JUMP, "Use of uninitialised value of size 8": ADDRESS}


def places_of(log):
    """For each call its places, as texts: what hangs on a secret, and where."""
    found, said = [], ""
    for line in log.splitlines():
        text = re.sub(r"^(==|\*\*)\d+\1", "", line).strip()
        if line.startswith("**") and text == "call":
            found.append(set())
        elif text.startswith("at 0x") and found:
            found[-1].add(f"{KINDS.get(said, said)} {text.split(' (')[0]}")
        elif text:
            said = text
    return found


def seen(program, trials, folder):
    """The places of each call, if its answer is as it should be."""
    log = os.path.join(folder, "log")
    done = subprocess.run([*VALGRIND, "--log-file=" + log, program], input=b"".join(trial.stream for trial in trials),
                          stdout=subprocess.PIPE, stderr=subprocess.PIPE)
    if done.returncode or done.stderr:
        fail(f"exit status {done.returncode}", done.stderr.decode(errors="replace"))
    with open(log) as file:
        found = places_of(file.read())
    answers = [tuple(map(int, line.split())) for line in done.stdout.decode().splitlines()]
    if not len(answers) == len(found) == len(trials):
        fail(f"{len(trials)} calls, {len(answers)} answers, {len(found)} calls in valgrind's log")
    for trial, answer in zip(trials, answers):
        if answer != trial.answer:
            fail(f"{trial.text}: answers {answer}, and not {trial.answer}")
    return found


def problems(program, trials, folder):
    """What is not as it should be: facts with too many places or none, places that are no fact."""
    found, named = seen(program, trials, folder), {name: {} for name in FACTS}
    for trial, places in zip(trials, found):
        known = named[trial.call]
        if trial.names:
            rest = places.difference(*(known[fact] for fact in trial.facts if fact in known))
            if len(rest) != PLACES.get(trial.names, 1):
                yield f"{trial.text}: {len(rest)} places for {trial.names}: " + ", ".join(sorted(rest))
            known[trial.names] = rest
    for trial, places in zip(trials, found):
        wanted = set().union(*(named[trial.call][fact] for fact in trial.facts))
        for place in sorted(places - wanted):
            yield f"{trial.text}: {place}, which is no fact of it"
        for place in sorted(wanted - places):
            yield f"{trial.text}: not {place}"


# Wrong engines: texts of bench/engine.c, and what stands in their place.  Behind a test, NOTHING is what a compiler leaves the jump for.

ENGINE = os.path.join(door.ROOT, "bench", "engine.c")
IN_ENGINE = ("run", "view", "retape")
NOTHING = '__asm__ volatile("");'
PRODUCT = "    return (x0 & (y0 ^ y1)) ^ (x1 & y0);"
# gcc makes one instruction of `row >> at & 1`, which valgrind takes for a read at an address that hangs on `at`; shifted out at the top it does not.
LOOKED_UP = "        values[c->i + k] = truth[kind] >> (x + 2 * y) & 1;"
VALUE = "        values[c->i + k] = (uint32_t)truth[kind] << (31 - (x + 2 * y)) >> 31;"
OWN = "        if (c.owners[k] == site && inputs[k] != second[k])\n            return refuse(13, k);"
WRONG = [
    ("a product branches on a share", JUMP, PRODUCT, f"    if (x0)\n        {NOTHING}\n{PRODUCT}"),
    ("a product is read from a table", ADDRESS, PRODUCT,
     "    static const uint8_t table[16] = {0, 0, 0, 0, 0, 0, 1, 1, 0, 1, 1, 0, 0, 1, 0, 1};\n    return table[x0 << 3 | x1 << 2 | y0 << 1 | y1];"),
    ("plain values branch on a value", JUMP, VALUE, f"        if (x)\n            {NOTHING}\n{VALUE}"),
    ("inputs are compared before it is asked whose they are", JUMP, OWN,
     f"        if (inputs[k] != second[k]) {{\n            {NOTHING}\n            if (c.owners[k] == site)\n                return refuse(13, k);\n        }}"),
]


def built(folder, name, *words):
    program = os.path.join(folder, name)
    command = [door.tool("cc"), "-std=gnu11", "-O2", "-Wall", "-Wextra", "-I", os.path.join(door.ROOT, "include"),
               "-I", os.path.dirname(ENGINE), "-o", program, os.path.join(check.HERE, "secret.c"), *words, door.LIBRARY]
    if subprocess.run(command).returncode:
        fail(f"{name} does not compile")
    return program


def with_engine(folder, name, old="", new=""):
    """The program whose run, view and re-taping are the plain engine's, with a text changed."""
    with open(ENGINE) as file:
        text = file.read()
    if text.count(LOOKED_UP) != 1:
        fail("bench/engine.c looks plain values up in another way:", LOOKED_UP)
    text = text.replace(LOOKED_UP, VALUE)
    if old and text.count(old) != 1:
        fail(f"a wrong engine changes a text that stands in bench/engine.c {text.count(old)} times:", old)
    source = os.path.join(folder, name + ".c")
    with open(source, "w") as file:
        file.write(text.replace(old, new) if old else text)
    return built(folder, name, *(f"-Dbakebutton_{call}=plain_{call}" for call in IN_ENGINE), source)


def main():
    if platform.machine() != "x86_64":
        print(f"secret NOT RUN: the library is x86-64 code, which valgrind runs on x86-64 alone, and this machine is {platform.machine()}")
        return
    if not shutil.which("valgrind"):
        fail("valgrind is not here (Debian: valgrind)")
    if subprocess.run([door.tool("library")], stdout=subprocess.DEVNULL).returncode:
        fail("the library could not be built")
    rng = circuits.Draw(SEED)
    halves, drawn = Halves(rng), damage.draw_circuit(rng, 40, 64, 12)
    first = list(naming(rng, halves))
    trials = first + list(made_public(rng, halves))
    for where, circuit in (("drawn circuit", drawn), ("small circuit", circuits.EACH), ("no outputs", Circuit(drawn.owners, drawn.gates, []))):
        trials += all_secret(rng, where, circuit)
    with tempfile.TemporaryDirectory() as folder:
        wrong = list(problems(built(folder, "library"), trials, folder))
        if wrong:
            fail(*wrong[:20])
        for name, facts in FACTS.items():
            print(f"secret: {name} decides " + ", ".join(f"{fact} ({MEANING[fact]})" for fact in facts) + ", and nothing else")
        first = [trial for trial in first if trial.call in IN_ENGINE]
        wrong = list(problems(with_engine(folder, "plain"), first, folder))
        if wrong:
            fail("of the plain engine, of which the wrong ones are made:", *wrong)
        for number, (what, kind, old, new) in enumerate(WRONG):
            caught = [text for text in problems(with_engine(folder, f"wrong{number}", old, new), first, folder) if kind in text]
            if not caught:
                fail(f"a wrong engine is not caught: {what}")
            print(f"secret: caught: {what} ({caught[0]})")
    print(f"secret ok, {len(trials)} calls, {len(WRONG)} wrong engines")


if __name__ == "__main__":
    main()
