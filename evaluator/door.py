"""Holds the library that a panel links to the evaluator, through its C header.

    python3 -B evaluator/door.py

makes the calls of the stored stream (crates/trials/stdin) but those to a reader, and drawn ones, through target/lib/libbakebutton.a, with every
slice in memory of its own beside memory that may not be touched (door.c), and C's side under the compiler's sanitizers where they can be had.
What is printed must be the evaluator's text. And the library may want no more from outside than README and the header say.
"""

import os
import platform
import random
import subprocess
import sys
import tempfile

sys.dont_write_bytecode = True  # nothing is written beside the sources

import check   # noqa: E402
import damage  # noqa: E402
import trials  # noqa: E402

ROOT = os.path.join(check.HERE, os.pardir)
LIBRARY = os.path.join(ROOT, "target", "lib", "libbakebutton.a")
SOURCES = ["door.c", "circuit.c", "stream.c"]
OUTSIDE = {"memcpy", "memset"}
CASES = 4000
SEED = 20267


def fail(text):
    print("door: " + text)
    sys.exit(1)


def tool(name):
    return os.path.join(ROOT, "tools", name)


def built(folder, name, options):
    """The program that makes a stream's calls through the library; None where it does not compile."""
    program = os.path.join(folder, name)
    command = [tool("cc"), "-std=gnu11", "-Wall", "-Wextra", "-I", os.path.join(ROOT, "include"), "-I", check.HERE, *options, "-o", program,
               *(os.path.join(check.HERE, source) for source in SOURCES), LIBRARY]
    done = subprocess.run([word for word in command], stderr=subprocess.PIPE)
    return None if done.returncode else program


def number(data, at, size):
    return int.from_bytes(data[at:at + size], "little")


def symbols(elf):
    """The names of an object that are not its own alone: those that it has, and those that it wants."""
    had, wanted = set(), set()
    first, size, count = number(elf, 40, 8), number(elf, 58, 2), number(elf, 60, 2)
    sections = [elf[first + size * k:first + size * (k + 1)] for k in range(count)]
    for section in sections:
        if number(section, 4, 4) != 2:  # a table of symbols
            continue
        names = number(sections[number(section, 40, 4)], 24, 8)
        begin, length = number(section, 24, 8), number(section, 32, 8)
        for at in range(begin, begin + length, 24):
            name = names + number(elf, at, 4)
            text = elf[name:elf.index(b"\0", name)].decode()
            if text and elf[at + 4] >> 4:  # not local
                (had if number(elf, at + 6, 2) else wanted).add(text)
    return had, wanted


def outside(archive):
    """What an archive's objects have, and what they want that none of them has."""
    with open(archive, "rb") as file:
        data = file.read()
    had, wanted, at = set(), set(), 8
    while at + 60 <= len(data):
        size = int(data[at + 48:at + 58])
        member = data[at + 60:at + 60 + size]
        if member[:4] == b"\x7fELF":
            more = symbols(member)
            had |= more[0]
            wanted |= more[1]
        at += 60 + size + size % 2
    return had, wanted - had


def printed(program, stream):
    options = dict(os.environ, ASAN_OPTIONS="detect_leaks=0")
    done = subprocess.run([tool("run86"), program], input=stream, env=options, stdout=subprocess.PIPE, stderr=subprocess.PIPE)
    if done.returncode or done.stderr:
        fail(f"exit status {done.returncode}\n" + done.stderr.decode(errors="replace"))
    return done.stdout


def drawn():
    rng = random.Random(SEED)
    cases = [damage.draw_case(rng) for _ in range(CASES)] + damage.draw_largest(rng)
    return b"".join(damage.stream_of(case) for case in cases if case["call"] not in damage.READERS)


def main():
    if subprocess.run([tool("library")], stdout=subprocess.DEVNULL).returncode:
        fail("the library could not be built")
    had, wants = outside(LIBRARY)
    if "bakebutton_run" not in had:
        fail("the library's names could not be read")
    if wants - OUTSIDE:
        fail("the library wants from outside " + ", ".join(sorted(wants - OUTSIDE)) + " too")
    streams = {"stored": trials.stored_for_c()}
    with tempfile.TemporaryDirectory() as folder:
        evaluator = check.compiled(folder, "evaluator", [*check.SOURCES, "stream.c"], ["-O2"])
        more = drawn()
        streams["drawn"] = (more, check.printed(evaluator, more).encode())
        sanitized = platform.machine() == "x86_64" and built(folder, "tried", check.SANITIZE)
        options = check.SANITIZE if sanitized else ["-O2"]
        for name, extra in (("ending", []), ("beginning", ["-DDOOR_FRONT"])):
            program = built(folder, name, options + extra)
            if program is None:
                fail("door.c does not compile")
            for stream, (given, wanted) in streams.items():
                text = printed(program, given)
                if text != wanted:
                    at = next((n for n, (a, b) in enumerate(zip(text.split(b"\n"), wanted.split(b"\n")), 1) if a != b), "the last")
                    fail(f"the {stream} stream, slices {name} at forbidden memory: line {at} differs")
    print("door ok, the stored stream and drawn calls, "
          + ("under the sanitizers" if sanitized else "WITHOUT sanitizers, which this machine has not for x86-64"))


if __name__ == "__main__":
    main()
