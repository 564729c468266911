"""docs/CIRCUITS.md: its circuits are the stored ones, and every command in it prints what stands below it."""

import os
import re
import shutil
import subprocess
import tempfile
import unittest

import shelf
from common import EXAMPLES, ROOT

from bakebutton import words

PAGE = ROOT / "docs" / "CIRCUITS.md"
BLOCK = re.compile(r"^```(text \S+|console)\n(.*?)^```$", re.M | re.S)


def printed(lines):
    """The commands of a page, one after the other in one folder, each with what it prints."""
    with tempfile.TemporaryDirectory() as folder:
        for name in os.listdir(EXAMPLES):
            shutil.copy(EXAMPLES / name, folder)
        settings = dict(os.environ, PATH=f"{ROOT / 'tools'}{os.pathsep}{os.environ.get('PATH', '')}", LC_ALL="C.UTF-8")
        for line in lines:
            done = subprocess.run(["sh", "-c", line], cwd=folder, env=settings, stdout=subprocess.PIPE, stderr=subprocess.STDOUT)
            yield line, done.stdout.decode()


def renewed():
    """The page with its examples made anew."""
    page = PAGE.read_text(encoding="utf-8")
    blocks = [(kind, [line[2:] for line in body.splitlines() if line.startswith("$ ")]) for kind, body in BLOCK.findall(page)]
    made = printed([line for _, lines in blocks for line in lines])

    def anew(found):
        kind = found.group(1)
        if kind.startswith("text "):
            return f"```{kind}\n" + (EXAMPLES / kind.split()[1]).read_text(encoding="utf-8") + "```"
        count = sum(line.startswith("$ ") for line in found.group(2).splitlines())
        return "```console\n" + "".join(f"$ {line}\n{out}" for line, out in (next(made) for _ in range(count))) + "```"

    return BLOCK.sub(anew, page)


def fill():
    """Writes the page with its examples made anew: python3 -B -c 'import test_docs; test_docs.fill()' in python/tests."""
    PAGE.write_text(renewed(), encoding="utf-8")


class Docs(unittest.TestCase):
    def test_examples(self):
        self.assertEqual(renewed(), PAGE.read_text(encoding="utf-8"))

    def test_shelf(self):
        self.assertEqual((EXAMPLES / "shelf.circuit").read_bytes(), shelf.shelf().file())

    def test_words_for_every_number(self):
        places = {0: (0,), 1: (0,), 2: (0, 1, 2), 3: (0, 16, 20, 24, 28), 11: (0,), 14: (0, 4, 8, 12)}
        for number in [*range(18), 100]:
            for place in places.get(number, (0, 310)):
                self.assertTrue(words.of(number, place), (number, place))
        for number in (4, 5, 6):
            self.assertIn("there is no such", words.of(number, 3, "?"))
        self.assertIn("input value", words.of(4, 3, "!"))
        self.assertEqual(words.of(17, 3, "!"), words.of(17, 3))
