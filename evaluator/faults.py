"""Faults for the trials: damage to a circuit file, to a slice of bits and to a
job, at places that are told.

A fault is a place in a slice and the bytes put there; at no place it is a
length, to which the slice is cut or lengthened.
"""

import struct

import calls

MOST_FIELDS = [20000, 1024, 3072, 256, 32, 1056, 19488, 0]


def put(part, fault):
    at, new = fault
    if at is None:
        return (part + bytes(new))[:new]
    return part[:at] + new + part[at + len(new):]


def some(count):
    """The first, a middle and the last of some things, by number."""
    return sorted({0, count // 2, count - 1}) if count else []


def header_faults(rng, file):
    for field in range(8):
        old = struct.unpack_from("<I", file, 4 * field)[0]
        most = MOST_FIELDS[field]
        for new in (0, 1, old - 1, old + 1, most, most + 1, 65535,
                    2**32 - 1, rng.getrandbits(32), rng.getrandbits(12)):
            yield 4 * field, calls.u32(new % 2**32)


def length_faults(file):
    size = len(file)
    for new in (0, 1, 16, 31, 32, size // 2, size - 6, size - 2, size - 1,
                size + 1, size + 2, size + 6, 2 * size, size + 1000):
        yield None, max(new, 0)


def number_faults(at, numbers):
    for number in numbers:
        yield at, struct.pack("<H", number)


def part_faults(circuit):
    """Owners, gates and outputs, bad ones and good ones."""
    inputs, gates = len(circuit.owners), len(circuit.gates)
    for n in some(inputs):
        for owner in (0, 1, 3, 4, 255):
            yield 32 + n, bytes([owner])
    for g in some(gates):
        at, wire = 32 + inputs + 6 * g, inputs + g
        yield from number_faults(at, (0, 1, 2, 3, 4, 5, 256, 257, 65535))
        for operand in (at + 2, at + 4):
            yield from number_faults(
                operand, (0, 1, wire - 1, wire, wire + 1, 65535))
    for n in some(len(circuit.outputs)):
        at, wires = 32 + inputs + 6 * gates + 2 * n, circuit.wires
        yield from number_faults(at, (0, wires - 1, wires, wires + 1, 65535))


def bad_parts(circuit):
    """The first, a middle and the last owner, gate and output, each bad."""
    inputs, gates = len(circuit.owners), len(circuit.gates)
    for n in some(inputs):
        yield 32 + n, bytes([4])
    for g in some(gates):
        yield from number_faults(32 + inputs + 6 * g, [5])
    for n in some(len(circuit.outputs)):
        yield from number_faults(32 + inputs + 6 * gates + 2 * n,
                                 [circuit.wires])


def file_faults(rng, circuit):
    """Every one of the faults of a file, one at a time."""
    file = circuit.file()
    return [*header_faults(rng, file), *length_faults(file),
            *part_faults(circuit)]


def bit_faults(rng, bits):
    """A slice of bits of another length, or with a byte above 1."""
    size = len(bits)
    for new in (0, size - 1, size + 1, size + 2, 2 * size + 7):
        if 0 <= new != size:
            yield None, new
    for at in some(size):
        for byte in (2, 255, 2 + rng.randrange(254)):
            yield at, bytes([byte])


def job_faults(rng, job):
    """A job of another length, or with other numbers in its header."""
    size = len(job)
    for new in (0, 1, 4, 15, 16, 17, size - 1, size + 1, size + 100):
        yield None, new
    for field in range(4):
        old = struct.unpack_from("<I", job, 4 * field)[0]
        for new in (0, 15, 16, 17, old - 1, old + 1, size, size + 1, 41520,
                    41521, 65535, old + 2**16, 2**32 - 1,
                    rng.randrange(size + 1), rng.getrandbits(32)):
            yield 4 * field, calls.u32(new % 2**32)
