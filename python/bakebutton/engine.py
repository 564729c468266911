"""The engine's calls over bytes. Every answer is the library's; a refusal is raised as Refused, an abort is told in the run's result.

Buffers are lent in the lengths that the library's own `sizes` gives, or that are always the same, so refusal 10 never comes from here.
"""

import collections

from .calls import ABORT, CALLS, FILE_ROOM_BYTES, GOOD, SIZES, TEXT_BYTES
from .errors import Refused
from .library import ask

Counts = collections.namedtuple("Counts", CALLS["open"].answer)
Gate = collections.namedtuple("Gate", CALLS["gate"].answer)
Sizes = collections.namedtuple("Sizes", SIZES)
# sites: the objecting ones, empty unless the run stopped at the output `stopped`. outputs is None then, and transcript what was delivered.
Run = collections.namedtuple("Run", "stopped sites outputs transcript store")
View = collections.namedtuple("View", "bits store")
Retaped = collections.namedtuple("Retaped", "tapes room")
Listing = collections.namedtuple("Listing", "number place text")

LARGEST = 2**64 - 1


def _good(name, words, mark=""):
    """The answer's words behind number and place, or the refusal."""
    if words[0] != GOOD:
        raise Refused(words[0], words[1], mark)
    return words[2:]


def _asked(name, file, number=0):
    words, _ = ask(name, [file], number)
    return _good(name, words)


def _question(name, file, number):
    """Asks for one stored number. A number that is not below its count is refused with the count as its place."""
    words, _ = ask(name, [file], number)
    return _good(name, words, mark="?")


def open_file(file):
    return Counts(*_asked("open", file))


def check(file):
    return Counts(*_asked("check", file))


def sizes(file):
    return Sizes(*_asked("sizes", file))


def gate(file, number):
    return Gate(*_question("gate", file, number))


def owner(file, number):
    return _question("owner", file, number)[0]


def output(file, number):
    return _question("output", file, number)[0]


def traffic(file):
    """Three rows, a sender each, of the bits sent to sites 1, 2 and 3."""
    bits = _asked("traffic", file)
    return [bits[0:3], bits[3:6], bits[6:9]]


def plain(file, inputs):
    words, (values,) = ask("plain", [file, inputs], lent=[sizes(file).values])
    _good("plain", words)
    return values


def run(file, inputs, tapes, line=None):
    """A run on a line, which is clean where none is given."""
    size = sizes(file)
    given = [file, inputs, tapes, bytes(size.line) if line is None else line]
    (number, place, sites), (outputs, transcript, store) = ask("run", given, lent=[size.outputs, size.transcript, size.store])
    if number == ABORT:
        behind = 6 * (size.outputs // 3 - 1 - place)  # the openings that were not reached: nothing is delivered there
        objecting = [site for site in (1, 2, 3) if sites >> (site - 1) & 1]
        return Run(place, objecting, None, transcript[:len(transcript) - behind], store)
    if number != GOOD:
        raise Refused(number, place)
    return Run(None, [], outputs, transcript, store)


def view(file, inputs, tapes, site):
    size = sizes(file)
    length = size[SIZES.index(f"view_{site}")] if site in (1, 2, 3) else 0
    words, (bits, store) = ask("view", [file, inputs, tapes], min(site, LARGEST), [length, size.store])
    _good("view", words)
    return View(bits, store)


def retape(file, inputs, tapes, second, site):
    size = sizes(file)
    words, (fresh, room) = ask("retape", [file, inputs, tapes, second], min(site, LARGEST), [size.tapes, size.room])
    _good("retape", words)
    return Retaped(fresh, room)


def listing(job):
    """A job's listing, as the program prints it: of a refused job that is one line, so nothing is raised."""
    (number, place, length), (text,) = ask("listing", [job], lent=[TEXT_BYTES])
    return Listing(number, place, f"refused {number} {place}\n" if number else text[:length].decode("ascii"))


def from_bristol(text, owners):
    """The circuit file of a Bristol Fashion text, with an owner for each of its input values."""
    words, (room,) = ask("from_bristol", [text, bytes(owners)], lent=[FILE_ROOM_BYTES])
    length, = _good("from_bristol", words, mark="!")
    return room[:length]
