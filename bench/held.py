"""Holds the plain C engine of the benchmark to the evaluator.

    python3 -B bench/held.py

makes the calls of the stored stream with check, run, view and re-taping done by bench/engine.c, and a circuit file from a text by
bench/bristol.c; the other calls go to the library.
"""

import os
import subprocess
import sys
import tempfile

sys.dont_write_bytecode = True  # nothing is written beside the sources
HERE = os.path.dirname(os.path.abspath(__file__))
ROOT = os.path.dirname(HERE)
sys.path.insert(0, os.path.join(ROOT, "evaluator"))

import check   # noqa: E402
import door    # noqa: E402
import trials  # noqa: E402

SOURCES = ("engine.c", "bristol.c")
RENAMED = [f"-Dbakebutton_{call}=plain_{call}" for call in ("check", "run", "view", "retape", "from_bristol")]


def main():
    if subprocess.run([door.tool("library")], stdout=subprocess.DEVNULL).returncode:
        door.fail("the library could not be built")
    with tempfile.TemporaryDirectory() as folder:
        objects = [os.path.join(folder, source + ".o") for source in SOURCES]
        program = os.path.join(folder, "held")
        include = ["-I", os.path.join(ROOT, "include"), "-I", HERE, "-I", check.HERE]
        warned = ["-std=gnu11", "-O3", "-Wall", "-Wextra", "-Wno-unused-result"]
        for source, made in zip(SOURCES, objects):
            subprocess.run([door.tool("cc"), *warned, *include, "-c", "-o", made, os.path.join(HERE, source)], check=True)
        subprocess.run([door.tool("cc"), *warned, *include, *RENAMED, "-o", program,
                        *(os.path.join(check.HERE, source) for source in door.SOURCES), *objects, door.LIBRARY], check=True)
        stream, text = trials.stored_for_c()
        if door.printed(program, stream) != text:
            door.fail("the plain engine answers something else")
    print("plain engine ok, the stored stream")


if __name__ == "__main__":
    main()
