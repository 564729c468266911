"""Holds the listing program to the evaluator, as its user runs it.

    python3 -B evaluator/listing.py

tools/listing proves, builds and runs the program on job files; what it prints
must be the evaluator's text, from a file and, for some, from standard input.
A refused job must end with status 1 and the table's words for its number and
place on standard error, any other with status 0 and nothing there.  The
program's own stdin must be job K1, and its stdout what document 01 says.
"""

import os
import subprocess
import sys
import tempfile

sys.dont_write_bytecode = True  # nothing is written beside the sources

import calls  # noqa: E402
import check  # noqa: E402

ROOT = os.path.join(check.HERE, os.pardir)
CRATE = os.path.join(ROOT, "crates", "listing_program")
PIPED = ["far longer", "a byte above 1"]
K1 = b"inputs 2 gates 1 outputs 1\nbits 23\nout 0 1\nend\n"


def fail(text):
    print("listing: " + text)
    sys.exit(1)


def stored(name):
    with open(os.path.join(CRATE, name), "rb") as file:
        return file.read()


def jobs():
    """Jobs by name: K1, the longest, and what is refused before all else."""
    marked = calls.job(calls.MARKED.file(), bytes([1, 1]), calls.TAPES)
    largest = calls.Circuit([n % 3 + 1 for n in range(1024)],
                            [(calls.AND, g, 1023 + g) for g in range(3072)],
                            range(4095, 4095 - 256, -1))
    longest = calls.job(largest.file(), bytes([1]) * 1024,
                        bytes(largest.tapes_length()))
    if len(longest) != 41520:
        fail(f"the longest job has {len(longest)} bytes")
    return {
        "K1": marked,
        "the longest": longest,
        "one byte longer": longest + b"\0",
        "far longer": longest * 3,
        "empty": b"",
        "15 bytes": marked[:15],
        "cut short": marked[:-1],
        "a byte above 1": marked[:58] + b"\2" + marked[59:],
    }


def wanted(program, job):
    """The evaluator's text of a listing, without the marks before its lines."""
    lines = check.printed(program, calls.call_listing(job)).splitlines()
    return "".join(line[2:] + "\n" for line in lines[1:]).encode()


def tool(name, words, given=b""):
    return subprocess.run([os.path.join(ROOT, "tools", name), *words],
                          input=given, stdout=subprocess.PIPE,
                          stderr=subprocess.PIPE)


def due(text):
    """Status, text and what is said on standard error, by the text."""
    if not text.startswith(b"refused "):
        return 0, text, b""
    _, number, place = text.decode().split()
    words = tool("words", [number, place]).stdout
    return 1, text, f"listing: refused {number} {place}: ".encode() + words


def told(*words, given=b""):
    done = tool("listing", words, given)
    return done.returncode, done.stdout, done.stderr


def main():
    every = jobs()
    if stored("stdin") != every["K1"] or stored("stdout") != K1:
        fail("crates/listing_program: stdin is not job K1, or stdout not 01's text")
    listing = [os.path.join(ROOT, "tools", "listing"), "-"]
    if subprocess.run(listing, input=every["K1"],
                      stdout=subprocess.DEVNULL).returncode:
        fail("the program could not be proved or run")
    with tempfile.TemporaryDirectory() as folder:
        program = check.compiled(folder, "evaluator",
                                 [*check.SOURCES, "stream.c"], ["-O2"])
        for name, job in every.items():
            path = os.path.join(folder, "a job")
            with open(path, "wb") as file:
                file.write(job)
            answer = due(wanted(program, job))
            if told(path) != answer:
                fail(f"another answer for the job '{name}'")
            if name in PIPED and told("-", given=job) != answer:
                fail(f"another answer for the job '{name}' as standard input")
    print(f"listing ok, {len(every)} jobs, {len(PIPED)} of them as standard "
          "input too")


if __name__ == "__main__":
    main()
