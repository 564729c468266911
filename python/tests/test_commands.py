"""The command line: what it prints, its statuses, and what it refuses before anything is done."""

import os
import stat
import subprocess
import sys

from common import EXAMPLES, K1, K1_CIRCUIT, ROOT, TAPES, Case, command

from bakebutton import cli
from bakebutton.circuit import Circuit

COMMANDS = "file bristol text check sizes traffic picture words tapes job apart listing plain run view retape page".split()
RUN = (K1, "--inputs", "11", "--tapes", TAPES)


class Answers(Case):
    def test_k1_k4_k5(self):
        status, out, said = command("run", *RUN)
        self.assertEqual((status, said), (0, ""))
        self.assertIn(b"good: 1 output opened", out)
        status, out, said = command("run", *RUN, "--change", "20")
        self.assertEqual(status, 1)
        self.assertIn("abort: some site got two unlike copies at output 0", said)
        self.assertIn("site 2 objects", said)
        self.assertNotIn(b"opened  plain", out)
        status, out, _ = command("run", *RUN, "--change", "23-24", "--short")
        self.assertEqual(status, 0)
        self.assertIn(b"not the plain value", out)
        self.assertNotIn(b"transcript", out)

    def test_inputs_by_name_and_from_files(self):
        want = command("run", *RUN)[1]
        self.assertEqual(command("run", K1, "--inputs", "b=1 a=1", "--tapes", TAPES)[1], want)
        self.assertEqual(command("run", K1, "--inputs", "@" + self.path("i", b"\1\1"), "--tapes", "@" + self.path("t", TAPES + "\n"))[1], want)
        self.assertEqual(command("run", K1, "--inputs", "@-", "--tapes", TAPES, given=b"1 1\n")[1], want)

    def test_words_in_any_order(self):
        one, two = self.path("one.job"), self.path("two.job")
        self.assertEqual(command("job", K1, one, "--inputs", "11", "--tapes", TAPES)[0], 0)
        self.assertEqual(command("job", "--inputs", "11", K1, "--tapes", TAPES, two)[0], 0)
        with open(one, "rb") as first, open(two, "rb") as second:
            self.assertEqual(first.read(), second.read())
        for words in ((K1, "--inputs", "11", one), ("--job", two, one), (one, "--job", two)):
            self.assertEqual(command("page", *words)[0], 0)

    def test_the_empty_circuit(self):
        empty = self.path("empty", Circuit([], [], []).file())
        for words in (("check",), ("sizes",), ("traffic",), ("picture",), ("text",), ("tapes",), ("job", "-"), ("plain",), ("run",), ("page",),
                      ("view", "--site", "1"), ("retape", "--site", "3")):
            self.assertEqual(command(words[0], empty, *words[1:])[0], 0, words)

    def test_refusals_have_words(self):
        for words, line in ((("run", K1, "--inputs", "111", "--tapes", TAPES), "refused 7 2: the inputs are not 2 bytes"),
                            (("run", K1, "--inputs", "11", "--tapes", "1"), "refused 8 10: the tapes"),
                            (("view", *RUN, "--site", "4"), "refused 11 0: the site"),
                            (("retape", *RUN, "--second", "10", "--site", "3"), "output 0 both opens another bit"),
                            (("retape", *RUN, "--second", "01", "--site", "1"), "input 0 a is the site's own"),
                            (("run", K1, "--inputs", "@" + self.path("i", b"\1\2")), "refused 7 1: "),
                            (("listing", self.path("j", b"12")), "refused 14 0: the job has under 16"),
                            (("apart", self.path("j", b"12")), "refused 14 0: the job has under 16"),
                            (("sizes", self.path("e", b"")), "refused 1 0: the file has under 32 bytes"),
                            (("run", "--job", self.path("j", b"12")), "refused 14 0")):
            status, _, said = command(*words)
            self.assertEqual(status, 1, words)
            self.assertIn(line, said)

    def test_check(self):
        self.assertEqual(command("check", K1)[:2], (0, b"k1.txt: good: 2 inputs, 1 gate, 1 output\n"))
        status, out, _ = command("check", self.path("bad.txt", "input a of site 1\n\nx = a AND @1\noutput x\n"))
        self.assertEqual(status, 1)
        self.assertIn(b"refused 5 0: gate 0 is wrong", out)
        self.assertIn(b"line 3 of the text", out)
        self.assertIn(b"its second, wire 1, is not lower than its own", out)
        self.assertEqual(command("check", EXAMPLES / "shelf.circuit")[0], 1)

    def test_file_and_text(self):
        stored = self.path("k1.circuit")
        self.assertEqual(command("file", K1, stored)[0], 0)
        with open(stored, "rb") as file:
            self.assertEqual(file.read(), K1_CIRCUIT.file())
        status, written, _ = command("text", stored)
        self.assertEqual(status, 0)
        self.assertEqual(command("file", "-", "-", given=written)[1], K1_CIRCUIT.file())
        self.assertEqual(command("text", "-", given=K1_CIRCUIT.file())[1], written)

    def test_a_bad_text_is_written_only_when_asked(self):
        bad, out = self.path("bad.txt", "input a of site 4\n"), self.path("out")
        self.assertEqual(command("file", bad, out)[0], 1)
        self.assertFalse(os.path.exists(out))
        self.assertEqual(command("file", bad, out, "--anyway")[0], 1)
        self.assertTrue(os.path.exists(out))
        status, _, said = command("text", out)
        self.assertEqual(status, 0)
        self.assertIn("refused 4 0", said)

    def test_job_and_listing(self):
        path = self.path("k1.job")
        self.assertEqual(command("job", K1, path, "--inputs", "11", "--tapes", TAPES)[0], 0)
        self.assertEqual(stat.S_IMODE(os.stat(path).st_mode), 0o600)
        with open(ROOT / "crates" / "listing_program" / "stdin", "rb") as one, open(path, "rb") as two:
            self.assertEqual(one.read(), two.read())
        self.assertEqual(command("listing", path)[:2], (0, b"inputs 2 gates 1 outputs 1\nbits 23\nout 0 1\nend\n"))
        self.assertEqual(command("apart", path, "--circuit", "-")[:2], (0, K1_CIRCUIT.file()))
        parts = [self.path(name) for name in ("c", "i", "t")]
        self.assertEqual(command("apart", path, "--circuit", parts[0], "--inputs", parts[1], "--tapes", parts[2])[0], 0)
        self.assertEqual(command("run", parts[0], "--inputs", "@" + parts[1], "--tapes", "@" + parts[2], "--short")[1].split()[-4:],
                         [b"good:", b"1", b"output", b"opened"])


class Words(Case):
    def test_wrong_use(self):
        for words in ((), ("nothing",), ("check",), ("check", ""), ("check", K1, K1), ("check", "--help-me", K1), ("run", "--inp", "11", K1),
                      ("run", K1), ("run", K1, "--inputs", "1x"), ("run", K1, "--inputs", "c=1"), ("run", K1, "--inputs", "a=1"),
                      ("run", K1, "--inputs", "a=1,a=1,b=0"), ("run", K1, "--inputs", "@"), ("run",), ("run", K1, "--job", "-"),
                      ("run", *RUN, "--change", "26"), ("run", *RUN, "--change", "x"), ("run", *RUN, "--change", "5-2"), ("view", *RUN),
                      ("view", *RUN, "--site", "one"), ("run", "-", "--inputs", "@-"), ("check", self.folder.name), ("check", self.path("none")),
                      ("file", K1, K1), ("file", K1, self.folder.name), ("file", K1, self.path("no/where")), ("words", "5"), ("words", "5", "x"),
                      ("picture", K1, "--near", "1"), ("picture", K1, "--gate", "0"), ("picture", K1, "--near", "1", "--gate", "1"),
                      ("apart", "-", "--tapes", "-", "--inputs", "-")):
            status, out, said = command(*words)
            self.assertEqual((status, out), (2, b""), words)
            self.assertTrue(said.startswith("bakebutton: "), words)

    def test_help(self):
        for words in ((), *((name,) for name in COMMANDS)):
            status, out, _ = command(*words, "--help")
            self.assertEqual(status, 0)
            self.assertIn(b"example:", out)
        self.assertEqual(sorted(COMMANDS), sorted(cli.parsers()[1]))

    def test_words(self):
        self.assertEqual(command("words", "5", "310")[1][:18], b"gate 310 is wrong:")
        self.assertEqual(command("words", "99", "0")[0], 1)

    def test_other_failures(self):
        self.assertEqual(command("text", K1)[0], 1)
        self.assertIn("t:1: a byte that is no UTF-8", command("file", self.path("t", b"\xff\n"))[2])
        self.assertIn("t:2: a control sign", command("file", self.path("t", b"\n\0\n"))[2])
        self.assertIn("t:1: a control sign", command("check", self.path("t", "input a\u202e of site 1\n"))[2])
        self.assertIn("t:1: ", command("check", self.path("t", "nonsense\n"))[2])

    def test_a_result_that_cannot_be_written(self):
        if not os.path.exists("/dev/full"):
            self.skipTest("there is no /dev/full")
        for words in (("check", K1), ("tapes", K1), ("tapes", K1, "/dev/full")):
            with open("/dev/full", "wb") as full:
                told = subprocess.run([ROOT / "tools" / "bakebutton", *words], stdout=full, stderr=subprocess.PIPE)
            self.assertEqual(told.returncode, 1)
            self.assertRegex(told.stderr, rb"^bakebutton: .* cannot be written: .*\n$")

    def test_without_a_library(self):
        told = subprocess.run([sys.executable, "-B", "-m", "bakebutton", "check", K1], stderr=subprocess.PIPE, stdout=subprocess.PIPE,
                              env=dict(os.environ, BAKEBUTTON_LIBRARY="/nowhere/lib.so", BAKEBUTTON_ASK="", PYTHONPATH=str(ROOT / "python")))
        self.assertIn(told.returncode, (0, 1))  # on Arm the library is asked through the helper program, whatever this names
        if told.returncode:
            self.assertIn(b"BAKEBUTTON_LIBRARY names /nowhere/lib.so, which is no file", told.stderr)
