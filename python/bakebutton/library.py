"""Which way the proved library is asked: in this process, or through the helper program.

    $BAKEBUTTON_LIBRARY    a shared library to load, on x86-64
    $BAKEBUTTON_ASK        a helper program to ask in its place (a build of ask.c), on any machine

Without them it is target/lib/libbakebutton.so of the repository, and on a machine that is not x86-64 the helper program.
"""

import os

from . import places
from .direct import Direct
from .errors import Unavailable
from .helper import Helper

_loaded = []


def find():
    program, path = os.environ.get("BAKEBUTTON_ASK"), os.environ.get("BAKEBUTTON_LIBRARY")
    if program:
        if not os.path.isfile(program):
            raise Unavailable(f"BAKEBUTTON_ASK names {program}, which is no file")
        return Helper(program)
    if not places.is_x86():
        return Helper()
    if path:
        if not os.path.isfile(path):
            raise Unavailable(f"BAKEBUTTON_LIBRARY names {path}, which is no file")
        return Direct(path)
    if not os.path.isfile(places.SHARED):
        raise Unavailable("the proved library is not here: run tools/library, which makes target/lib/libbakebutton.so,"
                          " or name one in BAKEBUTTON_LIBRARY")
    return Direct(places.SHARED)


def ask(name, given, number=0, lent=()):
    """Makes a call: the words of its answer and its lent buffers. The library is looked for when the first call is made."""
    if not _loaded:
        _loaded.append(find())
    return _loaded[0].ask(name, given, number, lent)
