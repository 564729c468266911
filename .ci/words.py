"""Holds the words for numbers and places together.

- What is made from include/words.txt is up to date (tools/words).
- The table has a row for every answer that the definitions have, by number and place, and none besides; its limits are theirs.
- bakebutton_words of the C header compiles without a warning, in C and where there is a compiler for it in C++, and says for every row and
  for numbers and places that no call answers what the table says, in a room of any size. So does the shell's words, of tools/common.sh.
"""

import pathlib
import re
import shutil
import subprocess
import sys
import tempfile
from importlib.machinery import SourceFileLoader
from importlib.util import module_from_spec, spec_from_loader

sys.dont_write_bytecode = True  # nothing is written beside the sources

import header  # noqa: E402

ROOT = pathlib.Path(__file__).resolve().parent.parent
WARNED = ["-Wall", "-Wextra", "-pedantic", "-Wshadow", "-Wconversion", "-Werror"]
PROGRAM = r"""
#include "bakebutton.h"
#include <stdio.h>
#include <stdlib.h>
#include <string.h>

int main(void)
{
    unsigned long number, place;
    int asked;

    while (scanf("%lu %lu %d", &number, &place, &asked) == 3) {
        char text[BAKEBUTTON_WORDS_BYTES], part[BAKEBUTTON_WORDS_BYTES];
        size_t length, room;

        length = bakebutton_words(text, sizeof text, number, place, asked);
        if (bakebutton_words(NULL, 0, number, place, asked) != length || length >= sizeof text || strlen(text) != length)
            return 1;
        for (room = 1; room < sizeof part; room++) {
            memset(part, '~', sizeof part);
            if (bakebutton_words(part, room, number, place, asked) != length)
                return 1;
            if (strlen(part) != (length < room ? length : room - 1) || strncmp(part, text, room - 1) != 0 || part[room] != '~')
                return 1;
        }
        printf("%s\n", text);
    }
    return 0;
}
"""


def loaded(path):
    loader = SourceFileLoader("table", str(ROOT / path))
    module = module_from_spec(spec_from_loader("table", loader))
    loader.exec_module(module)
    return module


def fail(text):
    print("words: " + text)
    sys.exit(1)


def source(path):
    return (ROOT / path).read_text()


def wanted():
    """Each answer's number and places by the definitions; None is any place."""
    every = {number: [None] for number in header.line_numbers()}
    every[15].insert(0, 0)  # the number of lines of a text that has none, and of no other
    for number, name in re.findall(r"\brefusal ([1-9]\d*) \((\w+)", source(header.CHECKS)):
        every[int(number)] = sorted(header.row_places(name)) or [None]
    answers = source("crates/theory_calls/specs/Answer.antt")
    every[int(re.search(r"^number_of \(abort o m\) = (\d+)$", answers, re.M).group(1))] = [None]
    every[int(re.search(r"^number_of \(good vs\) = (\d+)$", answers, re.M).group(1))] = [0]
    return every


def check_rows(table):
    rows, every = table.rows(), wanted()
    have = {}
    for number, mark, place, _ in rows:
        if not mark:
            have.setdefault(number, []).append(place)
    for number in sorted(set(have) | set(every)):
        if sorted(have.get(number, []), key=str) != sorted(every.get(number, []), key=str):
            fail(f"of number {number} the table has the places {have.get(number)}, the definitions {every.get(number)}")
    if sorted(row[:3] for row in rows if row[1]) != [(4, "!", None), (4, "?", None), (5, "?", None), (6, "?", None)]:
        fail("the questions by number have words of their own for 4, 5 and 6, a text for 4, and the table has other rows for them")
    large = [f"{int(n):,}" for n in re.findall(r"if [igo] > (\d+)", source("crates/check_limits/src/lib.rt"))]
    if [re.search(r"more than ([\d,]+)", table.words(2, place))[1] for place in range(3)] != large:
        fail(f"the limits are {large}")
    job = int(re.search(r"if n > (\d+)", source("crates/check_tests/src/lib.rt")).group(1))
    if f"over {job:,} bytes" not in table.words(14, 0):
        fail(f"a job has at most {job} bytes")


def asked_for(table):
    """Numbers and places to try: each row's, others beside them, and the largest."""
    places = sorted({place for _, _, place, _ in table.rows() if place is not None} | {1, 3, 7, 310, 3071, 41520, 2**32 - 1, 2**63, 2**64 - 1})
    return [(number, place, asked) for number in [*range(20), 99, 100, 101, 2**64 - 1] for place in places for asked in range(len(table.MARKS))]


def check_compiled(table, folder, compiler, language, standard):
    program = folder / "words"
    given = folder / ("words" + language)
    given.write_text(PROGRAM)
    command = [compiler, "-std=" + standard, *WARNED, "-I", str(ROOT / "include"), "-o", str(program), str(given)]
    done = subprocess.run(command, capture_output=True, text=True)
    if done.returncode:
        fail(f"the header's words do not compile by {compiler} as {standard}\n{done.stderr}")
    every = asked_for(table)
    done = subprocess.run([str(program)], input="".join("%d %d %d\n" % one for one in every), capture_output=True, text=True)
    said = done.stdout.splitlines()
    if done.returncode or len(said) != len(every):
        fail(f"the header's words, {standard}, in a room of some size, after {len(said)} of {len(every)}")
    for one, text in zip(every, said):
        if text != (table.words(one[0], one[1], table.MARKS[one[2]]) or ""):
            fail(f"the header's words, {standard}, for {one} are '{text}'")


def check_shell(table):
    """The shell is never asked for the questions by number, nor for a text."""
    every = [(number, place) for number, place, asked in asked_for(table) if not asked and place < 2**31]
    script = '. "$1"\nwhile read -r number place; do printf "%s\\n" "$(words $number $place)"; done'
    done = subprocess.run(["sh", "-c", script, str(ROOT / "tools" / "sh"), str(ROOT / "tools" / "common.sh")],
                          input="".join("%d %d\n" % one for one in every), capture_output=True, text=True)
    said = done.stdout.splitlines()
    if len(said) != len(every):
        fail(f"the shell says {len(said)} of {len(every)} words")
    for one, text in zip(every, said):
        if text != (table.words(*one) or ""):
            fail(f"the shell's words for {one} are '{text}'")


def main():
    if subprocess.run([str(ROOT / "tools" / "words")]).returncode:
        sys.exit(1)
    table = loaded("tools/words")
    check_rows(table)
    tried = []
    with tempfile.TemporaryDirectory() as folder:
        for compiler, language, standard in (("cc", ".c", "c99"), ("cc", ".c", "c11"), ("c++", ".cc", "c++11"), ("c++", ".cc", "c++17")):
            if shutil.which(compiler):
                check_compiled(table, pathlib.Path(folder), compiler, language, standard)
                tried.append(standard)
    check_shell(table)
    print(f"words say the same in {', '.join(tried)} and the shell" + ("" if shutil.which("c++") else "; C++ NOT TRIED, there is no c++ here"))


if __name__ == "__main__":
    main()
