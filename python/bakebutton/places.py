"""Where things stand in the repository. The package is used from there: the library and the table of words belong to the same version."""

import os
import platform

ROOT = os.path.dirname(os.path.dirname(os.path.dirname(os.path.abspath(__file__))))


def in_repository(*parts):
    return os.path.join(ROOT, *parts)


WORDS = in_repository("include", "words.txt")
HEADERS = in_repository("include")
SHARED = in_repository("target", "lib", "libbakebutton.so")
STATIC = (in_repository("target", "lib", "libbakebutton.a"),)
HELPER = in_repository("target", "lib", "bakebutton-ask")
HELPER_SOURCE = os.path.join(os.path.dirname(os.path.abspath(__file__)), "ask.c")


def is_x86():
    """Whether the library, which is for x86-64, can be loaded into this Python."""
    return platform.machine().lower() in ("x86_64", "amd64")
