"""The text form: there and back, and what it says of a wrong text."""

from common import K1_CIRCUIT, Case, draw_bad, draw_circuit

from bakebutton import circuit, engine, text
from bakebutton.errors import Mistake, Refused
from bakebutton.parse import parse


def back(file):
    """A file through its text."""
    return parse(text.write(circuit.read(file))).file()


class ThereAndBack(Case):
    def test_good(self):
        for _ in range(60):
            file = draw_circuit(self.rng, self.rng.randint(1, 9), self.rng.randrange(14), self.rng.randrange(5)).file()
            self.assertEqual(back(file), file)

    def test_bad(self):
        refused = set()
        for _ in range(200):
            file = draw_bad(self.rng).file()
            self.assertEqual(back(file), file)
            try:
                engine.check(file)
            except Refused as found:
                refused.add(found.number)
        self.assertEqual(refused, {4, 5, 6})

    def test_edges(self):
        for counts in ((0, 0, 0), (1, 0, 0), (1, 0, 3), (1024, 3072, 256)):
            file = (draw_circuit(self.rng, *counts) if any(counts) else circuit.Circuit([], [], [])).file()
            self.assertEqual(back(file), file)

    def test_text_to_text(self):
        for _ in range(40):
            once = text.write(draw_bad(self.rng))
            self.assertEqual(text.write(parse(once)), once)

    def test_names_are_kept_in_a_text(self):
        made = parse("input Ärmel of site 1\ninput b[0] of site 2\nx.y = Ärmel xor b[0]\noutput x.y as Ergebnis\n")
        self.assertEqual(made.names, ["Ärmel", "b[0]", "x.y"])
        self.assertEqual(made.labels, ["Ergebnis"])
        self.assertEqual(parse(text.write(made)).labels, ["Ergebnis"])

    def test_inputs_may_stand_anywhere(self):
        made = parse("input a of site 1\nn = NOT a\ninput b of site 2\nboth = n AND b\noutput both")
        self.assertEqual(made.gates, [(3, 0, 0), (2, 2, 1)])
        self.assertEqual(made.names, ["a", "b", "n", "both"])

    def test_signs_between_words(self):
        made = parse("\ufeffinput a of site 1\r\ninput\tb of site 2 # b\r\nboth=a and b#x\r\n\r\noutput  both\r\n".replace("\ufeff", ""))
        self.assertEqual(made.file(), K1_CIRCUIT.file())


class Faults(Case):
    def said(self, written):
        with self.assertRaises(Mistake) as caught:
            parse(written, "t")
        self.assertEqual(caught.exception.status, 1)
        return caught.exception.lines

    def test_each_fault_has_its_line(self):
        first = "input a of site 1\ninput b of site 2\n"
        for line, words in (("x = a AND c", "'c' is made nowhere"), ("x = a AND aa", "is it 'a'?"), ("x = a AND x", "made in line 3"),
                            ("x = a PLUS b", "a gate is written"), ("x = NOT a b", "a gate is written"), ("x = a", "a gate is written"),
                            ("a = a AND b", "made in line 1 already"), ("1x = a AND b", "is no name"), ("not = a AND b", "a word of the form"),
                            ("x = KIND 65536 a b", "at most 65535"), ("x = KIND a a b", "a number, belongs"), ("x = a AND @65536", "at most 65535"),
                            ("x = a AND @", "a number, belongs"), ("x = a AND 1", "where a wire belongs"), ("input c of 1", "an input is written"),
                            ("input c of site 256", "at most 255"), ("input c of site x", "a number, belongs"), ("input", "an input is written"),
                            ("output", "an output is written"), ("output c", "made nowhere"), ("output a as", "an output is written"),
                            ("output a as 1", "is no name"), ("gate x", "a line is one of"), ("output @٣", "a number, belongs")):
            found = self.said(first + line + "\noutput a\n")
            self.assertTrue(found[0].startswith("t:3: "), (line, found))
            self.assertIn(words, found[0], line)

    def test_later_names_and_labels(self):
        self.assertIn("made in line 3: a line reads only", self.said("input a of site 1\nx = a AND y\ny = NOT a\n")[0])
        self.assertIn("another output has the name", self.said("input a of site 1\noutput a as x\noutput a as x\n")[0])

    def test_all_faults_at_once(self):
        found = self.said("input a of site 1\n" + "x = b AND c AND d\n" * 30)
        self.assertEqual(len(found), 21)
        self.assertEqual(found[-1], "t: and 10 more")

    def test_a_bad_circuit_is_no_fault(self):
        made = parse("input a of site 9\nx = KIND 7 @1 @900\ny = KIND 3 a @5\nz = a AND @3\noutput @77\n")
        self.assertEqual((made.owners, made.gates, made.outputs), ([9], [(7, 1, 900), (3, 0, 5), (2, 0, 3)], [77]))
        self.assertEqual(back(made.file()), made.file())
