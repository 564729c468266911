"""Holds the stored adder, examples/circuits/adder64.bristol, to plain sums, through the package and the library. people.py runs it.

The text is what examples/adder.py writes. It is made a circuit file with its two numbers at sites 1 and 2, and at 3 and 1; then jobs on the
file are listed, with drawn tapes. What the sites open must be the sum modulo 2 ** 64, by Python's own numbers, which know of no circuit.
"""

import os
import sys

import check

ROOT = os.path.normpath(os.path.join(check.HERE, os.pardir))
sys.path.insert(0, os.path.join(ROOT, "examples"))

import adder  # noqa: E402
from bakebutton import engine, jobs  # noqa: E402
from bakebutton.errors import Refused  # noqa: E402

STORED = os.path.join(ROOT, "examples", "circuits", "adder64.bristol")
MOST = 2**64 - 1
EDGES = [(0, 0), (0, MOST), (MOST, 0), (MOST, MOST), (MOST, 1), (1, MOST), (2**63, 2**63), (2**63 - 1, 1), (2**32 - 1, 1), (2**32, MOST),
         (0x5555555555555555, 0xAAAAAAAAAAAAAAAA), (0x5555555555555555, 0xAAAAAAAAAAAAAAAB), (0xAAAAAAAAAAAAAAAA, 0xAAAAAAAAAAAAAAAA)]
DRAWN = 40
OWNERS = (b"\1\2", b"\3\1")


def pairs(rng):
    """The edges, a carry through each number of places from the lowest bit up, and drawn numbers."""
    return [*EDGES, *((2**n - 1, 1) for n in range(1, 64, 7)), *((rng.getrandbits(64), rng.getrandbits(64)) for _ in range(DRAWN))]


def bits_of(number):
    """Lowest bit first, as the adder has them."""
    return bytes(number >> n & 1 for n in range(64))


def opened(listing):
    """The number that a listing's 64 opened bits are."""
    lines = [line.split() for line in listing.splitlines() if line.startswith("out ")]
    if [int(line[1]) for line in lines] != list(range(64)):
        return None
    return sum(int(line[2]) << n for n, line in enumerate(lines))


def wrong_sum(file, one, two, rng):
    """What is wrong with the sum that a job opens, or None."""
    tapes = bytes(rng.getrandbits(1) for _ in range(engine.sizes(file).tapes))
    answer = engine.listing(jobs.make(file, bits_of(one) + bits_of(two), tapes))
    found = None if answer.number else opened(answer.text)
    return None if found == (one + two) & MOST else f"the adder opens {found} for {one} and {two}"


def wrong(rng):
    """What is wrong with the adder, or None."""
    with open(STORED, "rb") as file:
        text = file.read()
    if text != adder.adder(adder.BITS).encode():
        return "examples/circuits/adder64.bristol is not what examples/adder.py writes"
    count = 0
    for owners in OWNERS:
        try:
            file = engine.from_bristol(text, owners)
        except Refused as refused:
            return f"the adder is {refused}"
        if (tuple(engine.check(file)), set(file[32:96]), set(file[96:160])) != ((128, 314, 64), {owners[0]}, {owners[1]}):
            return "the adder's file has other counts or owners"
        for one, two in pairs(rng):
            told = wrong_sum(file, one, two, rng)
            if told:
                return told
            count += 1
    print(f"the stored adder opens {count} sums of 64 bits as plain numbers have them")
    return None
