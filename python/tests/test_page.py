"""The page and the picture: whole, self-contained, escaped, and with what matters marked."""

import html.parser
import re

from common import EXAMPLES, K1_CIRCUIT, Case, command, draw_bad, draw_circuit

from bakebutton import engine, page, picture, text
from bakebutton.sources import Given

EMPTY = {"meta", "br"}


class Whole(html.parser.HTMLParser):
    """Sees that every element that is opened is closed, in order, and gathers ids, links and classes."""

    def __init__(self, found):
        super().__init__()
        self.open, self.ids, self.links, self.classes, self.outside = [], [], [], [], []
        self.feed(found)
        self.close()

    def handle_starttag(self, tag, attrs):
        attrs = dict(attrs)
        self.ids += [attrs["id"]] if "id" in attrs else []
        self.links += [attrs["href"]] if "href" in attrs else []
        self.classes += (attrs.get("class") or "").split()
        self.outside += [name for name in attrs if name in ("src", "action", "data", "srcset") or name.startswith("on")]
        if tag not in EMPTY:
            self.open.append(tag)

    def handle_endtag(self, tag):
        assert self.open and self.open[-1] == tag, f"</{tag}> closes {self.open[-1:]}"
        self.open.pop()


def page_of(circuit, inputs, tapes, changed=(), name="t"):
    file = circuit.file()
    line = bytes(n in changed for n in range(engine.sizes(file).line))
    run = engine.run(file, inputs, tapes, line)
    return page.write(Given(name, file, circuit, inputs, tapes, False), line, run, engine.plain(file, inputs)), run


class Page(Case):
    def whole(self, found):
        told = Whole(found)
        self.assertEqual(told.open, [])
        self.assertEqual(told.outside, [])
        self.assertEqual(len(told.ids), len(set(told.ids)))
        for link in told.links:
            self.assertIn(link, ["#" + one for one in told.ids])
        self.assertIsNone(re.search(r"https?:|//[a-z]|url\(|@import", found))
        return told

    def test_marked_examples(self):
        tapes = bytes(map(int, "1011010110"))
        for changed, stopped, marks in (((), None, []), ((20,), 0, ["changed"]), ((8,), 0, ["changed", "unlike"]), ((23, 24), None, ["changed"])):
            found, run = page_of(K1_CIRCUIT, b"\1\1", tapes, changed)
            told = self.whole(found)
            self.assertEqual(run.stopped, stopped)
            self.assertEqual("this site objects" in found, stopped is not None)
            self.assertEqual("nothing is handed over" in found, stopped is not None)
            self.assertEqual(told.classes.count("changed"), len(changed))
            for mark in marks:
                self.assertIn(mark, told.classes)

    def test_nothing_opened_is_shown_at_an_abort(self):
        circuit = draw_circuit(self.rng, 4, 10, 3)
        size = engine.sizes(circuit.file())
        found, run = page_of(circuit, b"\1" * 4, bytes(size.tapes), [size.line - 7])  # the second opening
        self.assertEqual(run.stopped, 1)
        self.assertNotIn("copies alike: ", found)
        self.assertEqual(found.count("not reached"), 1)

    def test_drawn(self):
        for _ in range(20):
            circuit = draw_circuit(self.rng, self.rng.randint(1, 5), self.rng.randrange(9), self.rng.randrange(4))
            size = engine.sizes(circuit.file())
            changed = self.rng.sample(range(size.line), min(2, size.line)) if self.rng.randrange(2) else ()
            found, _ = page_of(circuit, bytes(self.rng.getrandbits(1) for _ in circuit.owners),
                               bytes(self.rng.getrandbits(1) for _ in range(size.tapes)), changed)
            self.whole(found)

    def test_names_are_escaped(self):
        nasty = '<script>alert("1")</script>&\'"'
        circuit = type(K1_CIRCUIT)([1, 2], [(2, 0, 1)], [2], [nasty, "b", nasty + "2"], [nasty])
        found, _ = page_of(circuit, b"\1\1", bytes(10), (8,), nasty)
        self.whole(found)
        self.assertEqual(found.count("<script>"), 1)  # the page's own
        self.assertNotIn("alert(\"", found)


class Picture(Case):
    def test_every_circuit_has_one(self):
        for _ in range(60):
            circuit = draw_bad(self.rng)
            refused = text.refusal(circuit)
            found = picture.write(circuit, refused)
            self.assertEqual(found.count("penwidth=3"), 1 if refused else 0)
            self.assertEqual(found.count("{"), found.count("}"))
            nodes, ends = set(re.findall(r"^  (\w+) \[label", found, re.M)), re.findall(r"^  (\w+) -> (\w+)", found, re.M)
            self.assertLessEqual({end for edge in ends for end in edge}, nodes)

    def test_quotes(self):
        circuit = type(K1_CIRCUIT)([1], [], [0], ['a"\\'], None)
        self.assertIn(r'label="a\"\\\ninput 0, site 1"', picture.write(circuit))

    def test_near_the_refused_gate(self):
        status, out, _ = command("picture", EXAMPLES / "shelf.circuit", "--near", "1")
        self.assertEqual(status, 0)
        self.assertEqual(out.count(b"penwidth=3"), 1)
        self.assertIn(b"@4530", out)
        self.assertLess(out.count(b"\n"), 40)
