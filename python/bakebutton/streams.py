"""Files that are read and written, with - for standard input and output, and a message of its own for each thing that goes wrong."""

import os
import sys

from .errors import Mistake


def read(path):
    """All bytes of a file."""
    if path == "-":
        return sys.stdin.buffer.read()
    if os.path.isdir(path):
        raise Mistake(f"{path} is a folder, and a file is wanted", status=2)
    try:
        with open(path, "rb") as file:
            return file.read()
    except FileNotFoundError:
        raise Mistake(f"there is no file {path}", status=2) from None
    except OSError as error:
        raise Mistake(f"{path} cannot be read: {error.strerror}", status=2) from None


def ready(path, sources=()):
    """Sees before any work that a result may go to a path: it is no folder, and none of the files that it is made of."""
    if path in (None, "-"):
        return
    if os.path.isdir(path):
        raise Mistake(f"{path} is a folder, and a file's name is wanted", status=2)
    if not os.path.isdir(os.path.dirname(path) or "."):
        raise Mistake(f"there is no folder {os.path.dirname(path)} to write into", status=2)
    for source in sources:
        if source not in (None, "-") and os.path.exists(source) and os.path.exists(path) and os.path.samefile(source, path):
            raise Mistake(f"{path} would be written over what it is made of", status=2)


def binary_ready(path):
    """A result that is no text goes to a terminal only when - says so."""
    if path is None and sys.stdout.isatty():
        raise Mistake("the result is no text: name a file for it, or - for standard output", status=2)


def write(path, found, secret=False):
    """Writes text or bytes. A secret file is for its owner alone: tapes, inputs, and whatever shows them."""
    found = found.encode("utf-8") if isinstance(found, str) else found
    if path in (None, "-"):
        sys.stdout.flush()
        sys.stdout.buffer.write(found)
        sys.stdout.buffer.flush()
        return
    try:
        handle = os.open(path, os.O_WRONLY | os.O_CREAT | os.O_TRUNC, 0o600 if secret else 0o666)
        with os.fdopen(handle, "wb") as file:
            file.write(found)
    except OSError as error:
        raise Mistake(f"{path} cannot be written: {error.strerror}") from None
