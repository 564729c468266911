"""Asks the library through a helper program, for a Python that cannot load it (on Arm an emulator runs the program).

The program is ask.c over the static library. It is built once by tools/cc, run by tools/run86, and answers calls for as long as this
Python lives; what it is told and tells is in ask.c's head.
"""

import atexit
import os
import struct
import subprocess

from .calls import CALLS
from .errors import Unavailable
from .places import HEADERS, HELPER, HELPER_SOURCE, STATIC, in_repository


def build():
    """The helper program's path; it is made where it is missing or older than what it is made of."""
    static = next(filter(os.path.exists, STATIC), None)
    if static is None:
        raise Unavailable("this machine is not x86-64, and there is no library for the helper program: run tools/library first")
    if os.path.exists(HELPER) and os.path.getmtime(HELPER) > max(map(os.path.getmtime, (static, HELPER_SOURCE))):
        return HELPER
    os.makedirs(os.path.dirname(HELPER), exist_ok=True)
    fresh = f"{HELPER}.{os.getpid()}"
    command = [in_repository("tools", "cc"), "-std=c11", "-O2", "-I", HEADERS, "-o", fresh, HELPER_SOURCE, static]
    done = subprocess.run(command, stdout=subprocess.PIPE, stderr=subprocess.STDOUT)
    if done.returncode:
        raise Unavailable("the helper program does not compile:\n" + done.stdout.decode(errors="replace").strip())
    os.replace(fresh, HELPER)
    return HELPER


class Helper:
    """A running helper program, with the same ask() as the loaded library."""

    def __init__(self, program=None):
        command = [in_repository("tools", "run86"), program or build()]
        self.process = subprocess.Popen(command, stdin=subprocess.PIPE, stdout=subprocess.PIPE)
        atexit.register(self.close)

    def close(self):
        """Lets the program end, which it does when nothing more can be asked."""
        try:
            self.process.stdin.close()
        except OSError:
            pass  # it has ended already
        self.process.stdout.close()
        self.process.wait()

    def read(self, length):
        found = self.process.stdout.read(length)
        if len(found) != length:
            raise Unavailable("the helper program has ended; what it said stands above")
        return found

    def ask(self, name, given, number, lent):
        call = CALLS[name]
        message = [struct.pack("<3Q", call.code, number or 0, len(given))]
        for part in given:
            message += [struct.pack("<Q", len(part)), bytes(part)]
        message.append(struct.pack(f"<{len(lent) + 1}Q", len(lent), *lent))
        try:
            self.process.stdin.write(b"".join(message))
            self.process.stdin.flush()
        except OSError:
            raise Unavailable("the helper program has ended; what it said stands above") from None
        count, = struct.unpack("<Q", self.read(8))
        words = list(struct.unpack(f"<{count}Q", self.read(8 * count)))
        return words, [self.read(length) for length in lent]
