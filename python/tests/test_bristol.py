"""Bristol Fashion texts by the command line: the file that is written, and what is said where none is."""

import os

from common import EXAMPLES, K1_CIRCUIT, Case, command

from bakebutton import engine
from bakebutton.errors import Refused

ADDER = EXAMPLES / "adder64.bristol"
AND = "1 3\n2 1 1\n1 1\n2 1 0 1 2 AND\n"
OWNERS = ("--owners", "1,2")


class Bristol(Case):
    def said(self, text, *words):
        """What is said of a text that is refused. Nothing is written then, neither anew nor over what was there."""
        path, out, old = self.path("text", text), self.path("out"), self.path("old", b"old")
        for place in (out, old):
            status, printed, said = command("bristol", path, place, *words)
            self.assertEqual((status, printed), (1, b""))
        self.assertFalse(os.path.exists(out))
        with open(old, "rb") as file:
            self.assertEqual(file.read(), b"old")
        return said.replace("bakebutton: ", "").splitlines()

    def test_good(self):
        out = self.path("out")
        for text in (AND, AND.replace("\n", "\r\n"), "\n" + AND[:-1], AND.replace("0 1 2", "00000 01  2")):
            self.assertEqual(command("bristol", self.path("text", text), out, *OWNERS), (0, b"", ""))
            with open(out, "rb") as file:
                self.assertEqual(file.read(), K1_CIRCUIT.file())
        self.assertEqual(command("bristol", "-", *OWNERS, given=AND.encode()), (0, K1_CIRCUIT.file(), ""))
        self.assertEqual(len(command("bristol", "-", "-", given=b"0 0\n0\n0\n")[1]), 32)
        self.assertEqual(engine.check(command("bristol", ADDER, "-", "--owners", "3,1")[1]), (128, 314, 64))

    def test_a_refusal_is_told_with_its_line(self):
        form = "not of the form that belongs there, above a limit of the text, or a gate line too many; or the text ends there, and a line is missing"
        wire = "a wire is read before it is written, or written twice; or the text ends there, and an output wire is never written"
        for text, first, line in ((AND.replace("3", "8193"), f"15 1: line 1: {form}", "line 1 of 4 is: 1 8193"),
                                  (AND[:-14], f"15 3: line 3: {form}", "line 3 of 3 is: 1 1"),
                                  (AND.replace("AND", "NAND\t\r"), "16 4: line 4: the gate word is not XOR, AND, INV or EQW", "line 4 of 4 is: 2 1 0 1 2 NAND\\x09"),
                                  ("\n" + AND.replace("0 1 2", "0 2 2"), f"17 5: line 5: {wire}", "line 5 of 5 is: 2 1 0 2 2 AND"),
                                  ("0 3\n2 1 1\n1 1", f"17 3: line 3: {wire}", "line 3 of 3 is: 1 1"),
                                  ("1 1" + 60 * " 1", f"15 1: line 1: {form}", "line 1 of 1 is: " + "1 " * 50 + " ..")):
            self.assertEqual(self.said(text, *OWNERS), ["refused " + first, line])
        self.assertEqual(self.said("", *OWNERS), ["refused 15 0: the text is empty"])

    def test_owners(self):
        words = "there are not {0} owners, one for each input value, or that of value {0} is not 1, 2 or 3"
        for given, place in ((("--owners", "1"), 2), ((), 2), (("--owners", "1,2,3"), 2), (("--owners", "0,2"), 0), (("--owners", "3,255"), 1)):
            self.assertEqual(self.said(AND, *given), [f"refused 4 {place}: {words.format(place)}"])
        self.assertEqual(self.said("0 1025\n1 1025\n0\n", "--owners", "1"), ["refused 2 0: there are more than 1,024 inputs"])

    def test_wrong_use(self):
        text = self.path("text", AND)
        for words in ((), (text, "--owners"), (text, "--owners", ""), (text, "--owners", "1,"), (text, "--owners", "1;2"), (text, "--owners", "-1"),
                      (text, "--owners", "1,256"), (text, text, *OWNERS), (text, self.folder.name, *OWNERS), (self.path("none"), *OWNERS)):
            status, out, said = command("bristol", *words)
            self.assertEqual((status, out), (2, b""), words)
            self.assertTrue(said.startswith("bakebutton: "), words)

    def test_from_a_program(self):
        self.assertEqual(engine.from_bristol(AND.encode(), [1, 2]), K1_CIRCUIT.file())
        with self.assertRaises(Refused) as caught:
            engine.from_bristol(AND.encode(), b"\1\4")
        self.assertEqual((caught.exception.number, caught.exception.place), (4, 1))
