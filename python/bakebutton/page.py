"""A run to look at: one page of HTML that needs nothing else, no network and no other file. Names and titles are escaped.

The page shows what no single site may see, all inputs and tapes among it: it is for looking at a circuit, and says so.
"""

import base64
import hashlib
import os

from . import bits, tapes
from .page_steps import Steps, e
from .show import counts_told, outcome

HERE = os.path.dirname(os.path.abspath(__file__))
FOLDED = 300  # bits and more are not shown until asked for
LINKS = 60  # changed bits are listed, so that the front of the page stays short


def part(name):
    with open(os.path.join(HERE, name), encoding="utf-8") as file:
        return file.read()


def digest(text):
    return "'sha256-" + base64.b64encode(hashlib.sha256(text.encode("utf-8")).digest()).decode("ascii") + "'"


def head(title, style, script):
    """The page's head. The policy lets in this style and this script and nothing from anywhere."""
    policy = f"default-src 'none'; style-src {digest(style)}; script-src {digest(script)}"
    return (f'<!DOCTYPE html>\n<html lang=en>\n<head>\n<meta charset=utf-8>\n<meta http-equiv="Content-Security-Policy" content="{policy}">\n'
            f'<meta name=viewport content="width=device-width, initial-scale=1">\n<title>{e(title)}</title>\n<style>{style}</style>\n</head>\n')


def folded(shown, count):
    """Bits, behind a line that opens where there are many: each stands at its step too."""
    found = f"<span class=bits>{shown}</span>"
    return found if count <= FOLDED else f"<details><summary>{count} bits</summary>{found}</details>"


def changed_links(steps, line):
    """The changed bits, each with its step."""
    found = [label for labels in steps.sent.values() for label in labels if line[label.bit]]
    if not found:
        return "none: the line is clean"
    links = [f'<a href="#{label.step}-{label.number}">bit {label.bit}</a> '
             f'({e(steps.circuit.step_name(label.step, label.number))}, {label.sender} to {label.receiver}, part {label.part})'
             for label in found[:LINKS]]
    return "; ".join(links) + (f"; and {len(found) - LINKS} more" if len(found) > LINKS else "")


def opened_table(circuit, run, values):
    """The outputs of a good run beside the plain values, a link to each opening."""
    rows = []
    for n, wire in enumerate(circuit.outputs):
        cells = "".join(f'<td{" class=bad" if bit != values[wire] else ""}>{bit}</td>' for bit in run.outputs[3 * n:3 * n + 3])
        rows.append(f'<tr><th scope=row><a href="#output-{n}">output {n}</a> {e(circuit.output_name(n))}</th><td>{values[wire]}</td>{cells}</tr>')
    return ('<table class=outputs><thead><tr><th>output</th><th>plain value</th><th>site 1</th><th>site 2</th><th>site 3</th></tr></thead>'
            f'<tbody>{"".join(rows)}</tbody></table>')


def is_unlike(circuit, run, values):
    """Whether some site opened another bit than the plain one, which only a changed line can bring about."""
    return run.outputs is not None and any(bit != values[circuit.outputs[n // 3]] for n, bit in enumerate(run.outputs))


def judged(circuit, line, run, values):
    """What a reader must know of a run whose line was not clean."""
    if run.stopped is not None or not any(line):
        return ""
    unlike = is_unlike(circuit, run, values)
    told = "Some site opened another bit than the plain value." if unlike else "What was opened are the plain values all the same."
    return (f"<p>Bits were changed on the way and no site got unlike copies at an opening, so the run did not stop. {told} "
            "A value that is changed before its opening, or alike in both copies, is not caught.</p>")


def front(given, line, run, values, steps):
    circuit = given.circuit
    stopped = run.stopped is not None
    colour = " stopped" if stopped else " wrong" if is_unlike(circuit, run, values) else ""
    told = e(outcome(circuit, run))
    if stopped:
        told += f' <a href="#output-{run.stopped}">See where.</a>'
    shown = [f"<b>{e(circuit.name(n))}</b>={bit}" for n, bit in enumerate(given.inputs)]
    tape = "<br>".join(f"site {n}: {bits.shown(one, 4) or 'none'}" for n, one in enumerate(tapes.apart(circuit, given.tapes), 1))
    facts = [("circuit", counts_told((len(circuit.owners), len(circuit.gates), len(circuit.outputs)))),
             ("inputs", folded(' '.join(shown) or "none", len(given.inputs))), ("tapes", folded(tape, len(given.tapes))),
             ("bits on the line", f"{len(run.transcript)} delivered of {len(line)}"), ("changed on the way", changed_links(steps, line))]
    listed = "".join(f"<dt>{name}</dt><dd>{text}</dd>" for name, text in facts)
    outputs = "" if stopped or not circuit.outputs else opened_table(circuit, run, values)
    return (f"<header><h1>A run of {e(given.name)}</h1><p class=\"outcome{colour}\" role=status>{told}</p>"
            f"{judged(circuit, line, run, values)}{outputs}<dl>{listed}</dl>"
            "<p>All three sites are shown side by side, with every secret. A part is one of the three bits whose exclusive or is a wire's value; "
            "site 1 holds parts 1 and 2, site 2 parts 2 and 3, site 3 parts 3 and 1. "
            "#20 is bit 20 of the line, in the order of sending.</p></header>")


def moves(steps, run):
    """The bar that moves from step to step. It is hidden until the script runs, because without it it does nothing."""
    split = any(steps.split(wire) for wire in range(steps.circuit.wires))
    buttons = [("p", "Previous step", True), ("n", "Next step", True), ("c", "Next changed bit", bool(steps.touched)),
               ("u", "Next wire held unlike", split), ("s", "Where it stopped", run.stopped is not None)]
    shown = "".join(f'<button type=button data-key={key}{"" if there else " disabled"}>{name} ({key})</button>' for key, name, there in buttons)
    return f'<nav id=moves hidden aria-label="steps">{shown}<output id=where aria-live=polite></output></nav>'


def write(given, line, run, values):
    """The page of a run. values are the plain ones of all wires."""
    style, script = part("page.css"), part("page.js")
    steps = Steps(given, line, run, values)
    sites = "".join(f"<th scope=col>Site {site}<small>parts {site} and {site % 3 + 1}</small></th>" for site in (1, 2, 3))
    return "\n".join([head(f"A run of {given.name}", style, script) + '<body><a class=skip href="#steps">To the steps</a>',
                      front(given, line, run, values, steps), moves(steps, run),
                      '<main class=wide><table class=steps id=steps><thead><tr><th class=what scope=col>Step</th>' + sites + "</tr></thead>",
                      *steps.all(), "</table></main>",
                      "<footer><p>Bakebutton. The bits are the proved engine's answers; what each is, and which are marked, is worked out beside it.</p></footer>",
                      f"<script>{script}</script></body></html>"]) + "\n"
