"""Tapes: the random bits of the three sites. They are drawn anew for every run and kept secret; a tape used twice gives secrets away."""

import secrets

from . import engine
from .circuit import SITES


def draw(file):
    """Tapes for a circuit file, from the system's own random source. The length is the library's."""
    length = engine.sizes(file).tapes
    word = secrets.randbits(length) if length else 0
    return bytes(word >> n & 1 for n in range(length))


def apart(circuit, tapes):
    """The tapes of sites 1, 2 and 3. Site s has two bits for each of its inputs and for each AND and OR gate."""
    found, at, products = [], 0, len(circuit.product_gates())
    for site in SITES:
        length = 2 * (len(circuit.own_inputs(site)) + products)
        found.append(tapes[at:at + length])
        at += length
    return found
