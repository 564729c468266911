"""Asks the library in this process: ctypes over the shared library, as include/bakebutton.h declares it."""

import ctypes

from .calls import CALLS, TEXT_BYTES
from .errors import Unavailable

SIZE, U32, U16, U8 = ctypes.c_size_t, ctypes.c_uint32, ctypes.c_uint16, ctypes.c_uint8
# The type of an answer's members behind number and place, where it is not size_t.
NARROW = {"gate": U16, "output": U16, "owner": U8, "traffic": U32}


def answer_type(call):
    """The struct that a call returns by value."""
    kind = NARROW.get(call.name, SIZE)
    fields = [("number", SIZE), ("place", SIZE)] + [(name, kind) for name in call.answer]
    return type(f"{call.name}_answer", (ctypes.Structure,), {"_fields_": fields})


class Direct:
    """A loaded library. ask() gives the words of the answer and the lent buffers as they stand afterwards."""

    def __init__(self, path):
        try:
            library = ctypes.CDLL(path)
        except OSError as error:
            raise Unavailable(f"the library {path} cannot be loaded: {error}") from None
        self.functions = {}
        try:
            for call in CALLS.values():
                function = getattr(library, "bakebutton_" + call.name)
                function.restype = answer_type(call)
                function.argtypes = ([ctypes.c_char_p, SIZE] * call.given + [SIZE] * call.number
                                     + [ctypes.c_void_p, SIZE] * call.lent)
                self.functions[call.name] = function
            library.bakebutton_text_bytes.restype = SIZE
            length = library.bakebutton_text_bytes()
        except AttributeError as error:
            raise Unavailable(f"{path} is another library, or an older one: {error}") from None
        if length != TEXT_BYTES:
            raise Unavailable(f"{path} is of another version: a listing has {length} bytes there and {TEXT_BYTES} here")

    def ask(self, name, given, number, lent):
        """given: bytes; lent: lengths. Each lent buffer is new memory, so that none overlaps another."""
        call, words = CALLS[name], []
        buffers = [(ctypes.c_ubyte * length)() for length in lent]
        for part in given:
            words += [bytes(part), len(part)]
        words += [number] if call.number else []
        for buffer in buffers:
            words += [buffer, len(buffer)]
        answer = self.functions[name](*words)
        return [getattr(answer, field) for field, _ in answer._fields_], [bytes(buffer) for buffer in buffers]
