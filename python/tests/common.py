"""What the tests share: the package's path, K1, the command line with what it prints, and drawn circuits."""

import io
import os
import pathlib
import random
import sys
import tempfile
import unittest
from contextlib import redirect_stderr

ROOT = pathlib.Path(__file__).resolve().parent.parent.parent
sys.path.insert(0, str(ROOT / "python"))

from bakebutton import cli  # noqa: E402
from bakebutton.circuit import AND, NOT, OR, XOR, Circuit  # noqa: E402

EXAMPLES = ROOT / "examples" / "circuits"
K1 = str(EXAMPLES / "k1.txt")
TAPES = "1011 0101 10"
K1_CIRCUIT = Circuit([1, 2], [(AND, 0, 1)], [2])


class Piped(io.TextIOWrapper):
    """Standard output or input of a command, in memory."""

    def __init__(self, found=b""):
        super().__init__(io.BytesIO(found), encoding="utf-8", write_through=True)

    def bytes(self):
        return self.buffer.getvalue()


def command(*words, given=b""):
    """Status, standard output as bytes, and standard error of a command."""
    out, said, old = Piped(), io.StringIO(), (sys.stdin, sys.stdout)
    sys.stdin, sys.stdout = Piped(given), out
    try:
        with redirect_stderr(said):
            try:
                status = cli.main([str(word) for word in words])
            except SystemExit as ended:  # --help
                status = ended.code
    finally:
        sys.stdin, sys.stdout = old
    return status, out.bytes(), said.getvalue()


def draw_circuit(rng, inputs, gates, outputs):
    """A good circuit."""
    made = []
    for n in range(gates):
        kind = rng.choice((XOR, AND, NOT, OR))
        made.append((kind, rng.randrange(inputs + n), 0 if kind == NOT else rng.randrange(inputs + n)))
    return Circuit([rng.randint(1, 3) for _ in range(inputs)], made, [rng.randrange(inputs + gates) for _ in range(outputs)])


def draw_bad(rng):
    """Owners, kinds and wires of any number, now and then."""
    circuit = draw_circuit(rng, rng.randint(1, 6), rng.randrange(8), rng.randrange(4))

    def number(usual, most):
        return rng.choice([usual, usual, usual, rng.randrange(most), usual + 1, most - 1]) % most

    circuit.owners = [number(owner, 256) for owner in circuit.owners]
    circuit.gates = [(number(kind, 65536), number(first, 65536), number(second, 65536)) for kind, first, second in circuit.gates]
    circuit.outputs = [number(wire, 65536) for wire in circuit.outputs]
    return circuit


class Case(unittest.TestCase):
    """A test with a folder of its own and numbers drawn alike each time."""

    def setUp(self):
        self.rng = random.Random(self.id())
        self.folder = tempfile.TemporaryDirectory()
        self.addCleanup(self.folder.cleanup)

    def path(self, name, found=None):
        path = os.path.join(self.folder.name, name)
        if found is not None:
            with open(path, "wb") as file:
                file.write(found.encode() if isinstance(found, str) else found)
        return path
