"""The steps of a run for the page: a table with the three sites side by side, a block of rows for each input, gate and output.

All values are the engine's: what is held comes from the store, what is delivered from the transcript, what is opened from the outputs.
What was sent is what was delivered without the line's change. The rows of a step are in the order in which things are done.
"""

import html

from . import labels
from .circuit import SITES, after
from .show import pairs


def e(text):
    return html.escape(str(text), quote=True)


def chip(part, bit, classes="", more=""):
    return f'<span class="bit{" " + classes if classes else ""}"><small>part {part}</small> <b>{bit}</b>{more}</span>'


class Steps:
    """Rows of every step. given, line and run are what was run and what came of it; values are the plain ones."""

    def __init__(self, given, line, run, values):
        self.circuit, self.inputs, self.tapes = given.circuit, given.inputs, given.tapes
        self.line, self.run, self.values = line, run, values
        self.sent = labels.by_step(labels.sent(self.circuit))
        self.drawn = labels.by_step(labels.drawn(self.circuit))
        self.touched = {(label.step, label.number) for label in labels.sent(self.circuit) if line[label.bit]}

    def row(self, head, cells):
        shown = "".join(f"<td>{cell or '<span class=none>-</span>'}</td>" for cell in cells)
        return f"<tr><th scope=row>{head}</th>{shown}</tr>"

    def draws(self, key):
        """What each site draws from its tape."""
        return ["".join(chip(label.part, self.tapes[label.bit]) for label in self.drawn.get(key, ()) if label.site == site) for site in SITES]

    def sends(self, key):
        """What each site sends, receiver by receiver, as it left."""
        cells = []
        for site in SITES:
            runs = []
            for receiver in (after(site), after(site, 2)):
                chips = "".join(chip(label.part, self.run.transcript[label.bit] ^ self.line[label.bit])
                                for label in self.sent[key] if (label.sender, label.receiver) == (site, receiver))
                runs += [f'<span class=run><small>to {receiver}</small> {chips}</span>'] if chips else []
            cells.append("".join(runs))
        return cells

    def got(self, label):
        """A delivered bit, with its number on the line; a changed one says what it was."""
        bit = self.run.transcript[label.bit]
        number = f' <small>#{label.bit}</small>'
        if not self.line[label.bit]:
            return chip(label.part, bit, more=number)
        return chip(label.part, bit, "changed", f' <em>changed, was {bit ^ 1}</em>{number}')

    def gets(self, key):
        """What each site gets, sender by sender, which is the order of sending."""
        cells = []
        for site in SITES:
            runs = []
            for sender in SITES:
                chips = "".join(self.got(label) for label in self.sent[key] if (label.sender, label.receiver) == (sender, site))
                runs += [f'<span class=run><small>from {sender}</small> {chips}</span>'] if chips else []
            cells.append("".join(runs))
        return cells

    def holds(self, wire):
        """Each site's pair. A part that its other holder has otherwise is marked: parts s and s+1 are at site s, part s also at s-1."""
        held, cells = pairs(self.circuit, self.run.store, wire), []
        for site, pair in zip(SITES, held):
            chips = ""
            for part, bit, other, theirs in ((site, pair[0], after(site, 2), held[after(site, 2) - 1][1]),
                                             (after(site), pair[1], after(site), held[after(site) - 1][0])):
                unlike = f' <em>unlike site {other}</em>' if bit != theirs else ""
                chips += chip(part, bit, "unlike" if unlike else "", unlike)
            cells.append(chips)
        return cells

    def split(self, wire):
        """Whether some part of a wire is not the same at its two holders."""
        held = pairs(self.circuit, self.run.store, wire)
        return any(held[site - 1][1] != held[after(site) - 1][0] for site in SITES)

    def block(self, key, title, plain, rows, classes=()):
        """A step's rows under its title."""
        kind, number = key
        marks = [*classes, *(["touched"] if key in self.touched else [])]
        name = e(self.circuit.step_name(kind, number))
        return (f'<tbody class="{" ".join(["step", *marks])}" id="{kind}-{number}" tabindex=-1 aria-label="{name}">'
                f'<tr class=title><th colspan=4 scope=rowgroup><span class=plain>{plain}</span><b>{kind} {number}</b>{title}</th></tr>'
                + "".join(rows) + "</tbody>")

    def input(self, n):
        key, owner = ("input", n), self.circuit.owners[n]
        draws = [f'<span class=run><small>the bit</small> <span class=bit><b>{self.inputs[n]}</b></span></span>{cell}' if site == owner else ""
                 for site, cell in zip(SITES, self.draws(key))]
        rows = [self.row("has, draws", draws), self.row("sends", self.sends(key)), self.row("gets", self.gets(key)),
                self.row("holds", self.holds(n))]
        return self.block(key, f"{e(self.circuit.name(n))} of site {owner}", f"plain value {self.values[n]}", rows,
                          ["split"] if self.split(n) else [])

    def gate(self, n):
        key, wire = ("gate", n), len(self.circuit.owners) + n
        rows = []
        if key in self.sent:
            rows = [self.row("draws", self.draws(key)), self.row("sends a piece", self.sends(key)), self.row("gets pieces", self.gets(key))]
        rows.append(self.row("holds", self.holds(wire)))
        return self.block(key, f"{e(self.circuit.name(wire))} = {e(self.circuit.gate_text(n))}", f"plain value {self.values[wire]}", rows,
                          ["split"] if self.split(wire) else [])

    def opens(self, n):
        """What each site makes of its two copies. Where the run stopped nothing is handed over, so nothing opened is shown."""
        cells = []
        for site in SITES:
            if self.run.stopped == n and site in self.run.sites:
                cells.append("<span class=bad>unlike copies: this site objects</span>")
            elif self.run.outputs is None:
                cells.append("copies alike; nothing is handed over")
            else:
                bit, plain = self.run.outputs[3 * n + site - 1], self.values[self.circuit.outputs[n]]
                unlike = "" if bit == plain else f" <span class=bad>the plain value is {plain}</span>"
                cells.append(f'copies alike: <span class=bit><b>{bit}</b></span>{unlike}')
        return cells

    def output(self, n):
        key, wire = ("output", n), self.circuit.outputs[n]
        title = e(self.circuit.output_name(n)) + (f", wire {e(self.circuit.name(wire))}" if self.circuit.labels[n] else "")
        plain = f"plain value {self.values[wire]}"
        if self.run.stopped is not None and n > self.run.stopped:
            return self.block(key, title, plain, [self.row("not reached", ["", "", ""])])
        rows = [self.row("holds", self.holds(wire)), self.row("sends", self.sends(key)), self.row("gets copies", self.gets(key)),
                self.row("opens", self.opens(n))]
        return self.block(key, title, plain, rows, ["stop"] if self.run.stopped == n else [])

    def all(self):
        """The whole table's bodies, a heading before inputs, gates and openings."""
        for kind, heading, count, make in (("inputs", "Inputs", len(self.circuit.owners), self.input),
                                           ("gates", "Gates", len(self.circuit.gates), self.gate),
                                           ("openings", "Openings", len(self.circuit.outputs), self.output)):
            if count:
                yield f'<tbody class=part id="{kind}"><tr><th colspan=4 scope=rowgroup>{heading}</th></tr></tbody>'
            for n in range(count):
                yield make(n)
