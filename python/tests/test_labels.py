"""What each bit is, by K1 and by lengths and counts of the library's."""

from common import K1_CIRCUIT, Case, draw_circuit

from bakebutton import engine, jobs, labels, tapes

# K1's 26 bits in the order of sending (docs/FORMAT.md): way and part.
K1_WAYS = ("1>2 2, 1>2 3, 1>3 3, 1>3 1, 2>3 3, 2>3 1, 2>1 1, 2>1 2, "
           "1>2 2, 1>2 3, 1>3 3, 1>3 1, 2>3 3, 2>3 1, 2>1 1, 2>1 2, 3>1 1, 3>1 2, 3>2 2, 3>2 3, "
           "1>2 1, 1>3 2, 2>3 2, 2>1 3, 3>1 3, 3>2 1").split(", ")


class Labels(Case):
    def test_k1(self):
        found = labels.sent(K1_CIRCUIT)
        self.assertEqual([f"{one.sender}>{one.receiver} {one.part}" for one in found], K1_WAYS)
        self.assertEqual([one.step for one in found], ["input"] * 8 + ["gate"] * 12 + ["output"] * 6)
        self.assertEqual([(one.site, one.part) for one in labels.drawn(K1_CIRCUIT)],
                         [(1, 2), (1, 3), (1, 2), (1, 3), (2, 3), (2, 1), (2, 3), (2, 1), (3, 1), (3, 2)])
        self.assertEqual([one.group for one in labels.seen(K1_CIRCUIT, 3)], ["own tape"] * 2 + ["received"] * 10 + ["opened"])

    def test_lengths_and_traffic(self):
        for _ in range(40):
            made = draw_circuit(self.rng, self.rng.randint(1, 7), self.rng.randrange(12), self.rng.randrange(4))
            size, found = engine.sizes(made.file()), labels.sent(made)
            self.assertEqual(len(found), size.line)
            self.assertEqual(len(labels.drawn(made)), size.tapes)
            self.assertEqual([len(labels.seen(made, site)) for site in (1, 2, 3)], [size.view_1, size.view_2, size.view_3])
            table = [[sum((one.sender, one.receiver) == (s, r) and one.what != "compare" for one in found) for r in (1, 2, 3)] for s in (1, 2, 3)]
            self.assertEqual(table, engine.traffic(made.file()))

    def test_tapes_are_drawn(self):
        made = draw_circuit(self.rng, 9, 40, 2)
        drawn = [tapes.draw(made.file()) for _ in range(3)]
        self.assertEqual(len(set(drawn)), 3)
        self.assertEqual({len(one) for one in drawn}, {engine.sizes(made.file()).tapes})
        self.assertEqual(set(b"".join(drawn)), {0, 1})
        self.assertEqual(b"".join(tapes.apart(made, drawn[0])), drawn[0])

    def test_jobs(self):
        parts = K1_CIRCUIT.file(), b"\1\1", bytes(10)
        self.assertEqual(tuple(jobs.apart(jobs.make(*parts))), parts)
