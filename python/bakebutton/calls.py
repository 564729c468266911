"""The library's functions as a table: what each is given, what it is lent, and the words of its answer.

Both ways of asking (in this process by ctypes, or a helper program) read the same table, so neither knows anything the other does not.
A function takes its given slices, then `number` where it has one, then its lent buffers; each slice is a pointer and a length.
"""

import collections

Call = collections.namedtuple("Call", "code name given number lent answer")

COUNTS = ("inputs", "gates", "outputs")
SIZES = ("inputs", "tapes", "line", "values", "outputs", "transcript", "store", "view_1", "view_2", "view_3", "room")
TRAFFIC = tuple(f"bits_{sender}{receiver}" for sender in (1, 2, 3) for receiver in (1, 2, 3))

CALLS = {call.name: call for call in (
    Call(1, "open", 1, False, 0, COUNTS),
    Call(2, "gate", 1, True, 0, ("kind", "first", "second")),
    Call(3, "owner", 1, True, 0, ("owner",)),
    Call(4, "output", 1, True, 0, ("wire",)),
    Call(5, "check", 1, False, 0, COUNTS),
    Call(6, "sizes", 1, False, 0, SIZES),
    Call(7, "traffic", 1, False, 0, TRAFFIC),
    Call(8, "plain", 2, False, 1, ("sites",)),
    Call(9, "run", 4, False, 3, ("sites",)),
    Call(10, "view", 3, True, 2, ("sites",)),
    Call(11, "retape", 4, True, 2, ("sites",)),
    Call(12, "listing", 1, False, 1, ("length",)),
    Call(13, "from_bristol", 2, False, 1, ("length",)),
)}

TEXT_BYTES = 2624  # of a listing; the library's own bakebutton_text_bytes is held to it when it is loaded
FILE_ROOM_BYTES = 20000  # that a file which is made from a text is lent
GOOD, ABORT = 0, 100
