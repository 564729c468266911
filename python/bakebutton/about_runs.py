"""Commands on inputs and tapes: drawing tapes, jobs, plain values, a run, a view, re-taping, the listing, a page."""

import sys

from . import bits, engine, jobs, page, reasons, show, sources, streams, tapes, words
from .errors import Mistake, Refused

ABORT = 100


def drawn(words_):
    """Fresh tapes, a site a line, or the engine's own bytes."""
    streams.ready(words_.out, [words_.circuit])
    if words_.raw:
        streams.binary_ready(words_.out)
    found = sources.source(words_.circuit)
    with reasons.explained(found.circuit):
        made = tapes.draw(found.file)
    text = "\n".join(bits.shown(one) for one in tapes.apart(found.circuit, made)) + "\n"
    streams.write(words_.out, made if words_.raw else text, secret=True)


def job(words_):
    """A job from circuit, inputs and tapes. It is written only where the listing would take it."""
    streams.ready(words_.out, [words_.circuit])
    streams.binary_ready(words_.out)
    words_.job = None
    given = sources.given(words_)
    made = jobs.make(given.file, given.inputs, given.tapes)
    answer = engine.listing(made)
    if answer.number:
        with reasons.explained(given.circuit, inputs=given.inputs, tapes=given.tapes):
            raise Refused(answer.number, answer.place)
    streams.write(words_.out, made, secret=True)


def apart(words_):
    """A job's parts: written to files that are named, and told on standard output unless a part goes there."""
    named = [words_.circuit, words_.inputs, words_.tapes]
    for path in named:
        streams.ready(path, [words_.job])
    if named.count("-") > 1:
        raise Mistake("only one part of a job can go to standard output", status=2)
    found = jobs.apart(streams.read(words_.job))
    for path, part in zip(named, found):
        if path:
            streams.write(path, part, secret=part is not found.circuit)
    if "-" in named:
        return
    print(f"circuit  {len(found.circuit)} bytes\ninputs   {len(found.inputs)} bits: {bits.shown(found.inputs)}\n"
          f"tapes    {len(found.tapes)} bits: {bits.shown(found.tapes)}")


def listing(words_):
    answer = engine.listing(streams.read(words_.job))
    sys.stdout.write(answer.text)
    if answer.number:
        print(f"bakebutton: {words.told(Refused(answer.number, answer.place))}", file=sys.stderr)
        return 1
    return 0


def plain(words_):
    found = sources.source(words_.circuit)
    inputs = sources.inputs_of(words_.inputs, found.circuit)
    with reasons.explained(found.circuit, inputs=inputs):
        values = engine.plain(found.file, inputs)
    made = found.circuit
    count = len(made.owners)
    rows = [[n, made.name(n), f"input of site {made.owners[n]}" if n < count else made.gate_text(n - count), values[n]] for n in range(made.wires)]
    print("\n".join(show.table(["wire", "name", "made of", "value"], rows, ("wire", "value"))))
    for n, wire in enumerate(made.outputs):
        print(f"{made.step_name('output', n)}: {values[wire]}")


def ran(words_):
    """What is given, the line, the run and the plain values."""
    changed = bits.indices(words_.change) if words_.change else []
    given = sources.given(words_)
    with reasons.explained(given.circuit, inputs=given.inputs, tapes=given.tapes):
        line = bits.line_of(changed, engine.sizes(given.file).line)
        found = engine.run(given.file, given.inputs, given.tapes, line)
        return given, line, found, engine.plain(given.file, given.inputs)


def ended(given, run):
    """A run's status; an abort has words of its own."""
    if run.stopped is None:
        return 0
    sys.stdout.flush()
    print(f"bakebutton: abort: {words.of(ABORT, run.stopped)}; {show.sites_told(run.sites)}", file=sys.stderr)
    return 1


def run(words_):
    given, line, found, values = ran(words_)
    sys.stdout.write(show.run(given, line, found, values, words_.short))
    return ended(given, found)


def look(words_):
    """The page of a run. An abort has a page, which is what it is for; the status tells of it all the same."""
    streams.ready(words_.out, [words_.circuit, words_.job])
    given, line, found, values = ran(words_)
    streams.write(words_.out, page.write(given, line, found, values), secret=True)
    return ended(given, found)


def view(words_):
    given = sources.given(words_)
    with reasons.explained(given.circuit, inputs=given.inputs, tapes=given.tapes):
        found = engine.view(given.file, given.inputs, given.tapes, words_.site)
    sys.stdout.write(show.view(given, words_.site, found))


def retape(words_):
    given = sources.given(words_)
    second = sources.inputs_of(words_.second, given.circuit, "second inputs")
    with reasons.explained(given.circuit, inputs=given.inputs, tapes=given.tapes, second_inputs=second):
        found = engine.retape(given.file, given.inputs, given.tapes, second, words_.site)
    sys.stdout.write(show.retaped(given, second, words_.site, found.tapes))
