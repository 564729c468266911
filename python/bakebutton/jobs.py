"""Jobs: circuit, inputs and tapes in one slice, which the listing takes (docs/FORMAT.md, "The job")."""

import collections
import struct

from . import engine
from .errors import Refused

Job = collections.namedtuple("Job", "circuit inputs tapes")


def make(circuit, inputs, tapes):
    """The job of a circuit file, inputs and tapes. Nothing is judged: engine.listing does."""
    inputs_at = 16 + len(circuit)
    tapes_at = inputs_at + len(inputs)
    return struct.pack("<4I", tapes_at + len(tapes), 16, inputs_at, tapes_at) + circuit + inputs + tapes


def apart(job):
    """A job's three parts. Whether its header is good is the library's to say (14); what the parts hold is not looked at."""
    answer = engine.listing(job)
    if answer.number == 14:
        raise Refused(answer.number, answer.place)
    _, circuit_at, inputs_at, tapes_at = struct.unpack("<4I", job[:16])
    return Job(job[circuit_at:inputs_at], job[inputs_at:tapes_at], job[tapes_at:])
