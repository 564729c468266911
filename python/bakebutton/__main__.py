"""python3 -m bakebutton"""

import sys

from .cli import main

if __name__ == "__main__":
    for stream in (sys.stdout, sys.stderr):
        stream.reconfigure(errors="backslashreplace")  # a name that a terminal cannot show is no reason to fail
    sys.exit(main(sys.argv[1:]))
