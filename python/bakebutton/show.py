"""A run, a view and new tapes as text, each bit with what it is."""

from . import bits, labels, tapes
from .circuit import SITES, after

WHAT = {"share": "share of the input", "piece": "piece of the product", "copy": "opening copy", "compare": "comparing copy"}


def table(head, rows, right=()):
    """Rows of words as columns; those named in `right` stand at the right. No line ends in spaces."""
    rows = [[str(word) for word in row] for row in rows]
    widths = [max(len(row[n]) for row in [list(head), *rows]) for n in range(len(head))]
    lines = []
    for row in [list(head), *rows]:
        words = [word.rjust(width) if head[n] in right else word.ljust(width) for n, (word, width) in enumerate(zip(row, widths))]
        lines.append("  ".join(words).rstrip())
    return lines


def way(label):
    return f"{label.sender}>{label.receiver}"


def _transcript(circuit, line, run):
    rows = []
    for label, got in zip(labels.sent(circuit), run.transcript):
        changed = line[label.bit]
        rows.append([label.bit, circuit.step_name(label.step, label.number), way(label), label.part, WHAT[label.what],
                     got ^ changed, got, "changed on the way" if changed else ""])
    return table(["bit", "step", "way", "part", "what", "sent", "got", ""], rows, ("bit", "sent", "got"))


def pairs(circuit, store, wire):
    """The two parts that each site holds of a wire: part s, then part s+1."""
    return [tuple(store[2 * circuit.wires * (site - 1) + 2 * wire:][:2]) for site in SITES]


def _store(circuit, store):
    rows = []
    for wire in range(circuit.wires):
        held = [f"{site}:{pair[0]} {after(site)}:{pair[1]}" for site, pair in zip(SITES, pairs(circuit, store, wire))]
        rows.append([wire, circuit.name(wire), *held])
    return table(["wire", "name", "site 1", "site 2", "site 3"], rows, ("wire",))


def _outputs(circuit, run, values):
    rows = []
    for n, wire in enumerate(circuit.outputs):
        opened = run.outputs[3 * n:3 * n + 3]
        unlike = "" if all(bit == values[wire] for bit in opened) else "not the plain value"
        rows.append([circuit.step_name("output", n), values[wire], *opened, unlike])
    return table(["opened", "plain", "site 1", "site 2", "site 3", ""], rows, ("plain", "site 1", "site 2", "site 3"))


def sites_told(sites):
    """Sites in words, with the verb that goes with them: `sites 1 and 3 object`."""
    named = " and ".join([", ".join(map(str, sites[:-1])), str(sites[-1])]) if len(sites) > 1 else str(sites[0])
    return f"sites {named} object" if len(sites) > 1 else f"site {named} objects"


def many(count, thing):
    """A count and its thing: 1 output, 2 outputs."""
    return f"{count} {thing}{'' if count == 1 else 's'}"


def counts_told(counts):
    return f"{many(counts[0], 'input')}, {many(counts[1], 'gate')}, {many(counts[2], 'output')}"


def outcome(circuit, run):
    if run.stopped is not None:
        return f"stopped at {circuit.step_name('output', run.stopped)}: {sites_told(run.sites)}. No outputs are handed over."
    return f"good: {many(len(circuit.outputs), 'output')} opened"


def given_lines(given, changed=None):
    found = ["inputs   " + bits.shown(given.inputs),
             "tapes    " + " ".join(bits.shown(tape) or "-" for tape in tapes.apart(given.circuit, given.tapes))
             + ("   (drawn for this)" if given.drawn else "")]
    if changed is not None:
        found.append("changed  " + (" ".join(map(str, changed)) or "nothing: a clean line"))
    return found


def run(given, line, found, values, short=False):
    """A run as text; short leaves out transcript and store."""
    circuit = given.circuit
    lines = given_lines(given, [n for n, bit in enumerate(line) if bit])
    if not short:
        lines += ["", f"transcript: {len(found.transcript)} bits delivered of {len(line)}", *_transcript(circuit, line, found)]
        lines += ["", "store: each site's pair of parts, part:bit", *_store(circuit, found.store)]
    if found.outputs is not None and circuit.outputs:
        lines += ["", *_outputs(circuit, found, values)]
    return "\n".join([*lines, "", outcome(circuit, found)]) + "\n"


def seen_row(circuit, label):
    """Step, way, part and words of a view's bit."""
    group, of = label.group, label.of
    if group == "own input":
        return circuit.step_name("input", of), "", "", "the value"
    if group == "opened":
        return circuit.step_name("output", of), "", "", "the bit it opened"
    if group == "own tape":
        return circuit.step_name(of.step, of.number), "", of.part, "drawn for this part"
    return circuit.step_name(of.step, of.number), way(of), of.part, WHAT[of.what]


def view(given, site, found):
    """A site's view as text."""
    rows = [[label.bit, bit, label.group, *seen_row(given.circuit, label)]
            for label, bit in zip(labels.seen(given.circuit, site), found.bits)]
    lines = [*given_lines(given), "", f"view of site {site}: {len(found.bits)} bits, on a clean line",
             *table(["bit", "is", "group", "step", "way", "part", "what"], rows, ("bit",))]
    return "\n".join(lines) + "\n"


def retaped(given, second, site, fresh):
    """New tapes as text, and which bits moved."""
    moved = [label for label in labels.drawn(given.circuit) if given.tapes[label.bit] != fresh[label.bit]]
    rows = [[label.bit, label.site, given.circuit.step_name(label.step, label.number), label.part, given.tapes[label.bit], fresh[label.bit]]
            for label in moved]
    lines = [*given_lines(given), "second   " + bits.shown(second),
             "new      " + " ".join(bits.shown(tape) or "-" for tape in tapes.apart(given.circuit, fresh)), ""]
    lines += [f"with the second inputs and the new tapes site {site} sees what it sees with the first"]
    lines += table(["bit", "site", "step", "part", "was", "is"], rows, ("bit",)) if rows else ["no bit of the tapes moves"]
    return "\n".join(lines) + "\n"
