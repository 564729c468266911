"""The command line: words to commands, and what goes wrong to a message and a status.

Status 0 is good, 1 refused or failed (an abort too), 2 wrong use. Words are judged before anything is done.
"""

import argparse
import os
import sys

from . import about_circuits as circuits
from . import about_runs as runs
from . import words
from .errors import Mistake, Refused, Unavailable

BITS = "bits: 11, '1 1', a=1,b=0 (inputs by name), @FILE or @- (signs or the bytes themselves)"
TAPES = "bits: '1011 0101 10', @FILE or @-; left out, they are drawn from the system's random source"
CIRCUIT = "a circuit file or its text; - is standard input"
OUT = "where the result goes; left out or -, standard output"


def whole(word):
    """A number in words of 0 to 9."""
    if not (word.isascii() and word.isdigit() and len(word) < 20):
        raise argparse.ArgumentTypeError(f"'{word}' is no number")
    return int(word)


def owners(word):
    """Numbers with commas between. Whether each is a site is the engine's to say."""
    found = [whole(part) for part in word.split(",")]
    if max(found) > 255:
        raise argparse.ArgumentTypeError(f"an owner is a byte, and '{max(found)}' is none")
    return bytes(found)


class Parser(argparse.ArgumentParser):
    """Refuses a wrong word in one line that says where help is, and takes no word cut short."""

    def __init__(self, **settings):
        super().__init__(allow_abbrev=False, formatter_class=argparse.RawDescriptionHelpFormatter, **settings)

    def error(self, message):
        raise Mistake(f"{message}; {self.prog} --help says how it is used", status=2)


def ran(parser, change=True):
    """The words of a run: a circuit with inputs and tapes, or a job."""
    parser.add_argument("circuit", nargs="?", metavar="CIRCUIT", help=CIRCUIT)
    parser.add_argument("--inputs", metavar="BITS", help=BITS)
    parser.add_argument("--tapes", metavar="BITS", help=TAPES)
    parser.add_argument("--job", metavar="JOB", help="a job in place of the three; - is standard input")
    if change:
        parser.add_argument("--change", metavar="LIST", help="bits of the line changed on the way: 20 or 20,23-24; left out, the line is clean")


def site(parser):
    parser.add_argument("--site", type=whole, required=True, metavar="SITE", help="1, 2 or 3")


def add(commands, name, does, told, example):
    parser = commands.add_parser(name, help=told, description=told[0].upper() + told[1:] + ".", epilog="example:\n  " + example.replace("\n", "\n  "))
    parser.set_defaults(does=does)
    return parser


def about_circuits(commands):
    one = add(commands, "file", circuits.file, "text to circuit file", "bakebutton file k1.txt k1.circuit")
    one.add_argument("text", metavar="TEXT", help="a text; - is standard input")
    one.add_argument("out", metavar="OUT", nargs="?", help=OUT)
    one.add_argument("--anyway", action="store_true", help="write also a circuit that the check refuses; the status is 1 all the same")
    one = add(commands, "bristol", circuits.bristol, "Bristol Fashion text to circuit file",
              "bakebutton bristol adder64.bristol adder64.circuit --owners 1,2")
    one.add_argument("text", metavar="TEXT", help="a text; - is standard input")
    one.add_argument("out", metavar="OUT", nargs="?", help=OUT)
    one.add_argument("--owners", type=owners, default=b"", metavar="LIST",
                     help="the site of each input value of the text, in their order: 1,2; left out where it has none")
    one = add(commands, "text", circuits.to_text, "circuit file to text, good or bad", "bakebutton text k1.circuit k1.txt")
    one.add_argument("file", metavar="FILE", help="a circuit file; - is standard input")
    one.add_argument("out", metavar="OUT", nargs="?", help=OUT)
    for name, does, told in (("check", circuits.told_check, "whether the engine accepts a circuit, and what it refuses"),
                             ("sizes", circuits.sizes, "how long every slice and buffer of a circuit is"),
                             ("traffic", circuits.traffic, "how many bits each site sends to each other")):
        one = add(commands, name, does, told, f"bakebutton {name} k1.txt")
        one.add_argument("circuit", metavar="CIRCUIT", help=CIRCUIT)
    one = add(commands, "picture", circuits.draw, "a circuit as Graphviz text, a refused gate marked",
              "bakebutton picture k1.txt k1.dot && dot -Tsvg -o k1.svg k1.dot\nbakebutton picture --near 2 refused.circuit near.dot")
    one.add_argument("circuit", metavar="CIRCUIT", help=CIRCUIT)
    one.add_argument("out", metavar="OUT", nargs="?", help=OUT)
    one.add_argument("--near", type=whole, metavar="STEPS", help="only what is at most so many gates away from the refused gate")
    one.add_argument("--gate", type=whole, metavar="GATE", help="with --near: from this gate, and not from the refused one")
    one = add(commands, "words", circuits.explain, "what a number and a place mean", "bakebutton words 5 310")
    one.add_argument("number", type=whole, metavar="NUMBER")
    one.add_argument("place", type=whole, metavar="PLACE")


def about_jobs(commands):
    one = add(commands, "tapes", runs.drawn, "fresh tapes for a circuit, from the system's random source", "bakebutton tapes k1.txt k1.tapes")
    one.add_argument("circuit", metavar="CIRCUIT", help=CIRCUIT)
    one.add_argument("out", metavar="OUT", nargs="?", help=OUT)
    one.add_argument("--raw", action="store_true", help="the engine's bytes, 0 and 1, and not signs")
    one = add(commands, "job", runs.job, "a job from circuit, inputs and tapes", "bakebutton job k1.txt k1.job --inputs 11 --tapes '1011 0101 10'")
    one.add_argument("circuit", metavar="CIRCUIT", help=CIRCUIT)
    one.add_argument("out", metavar="OUT", nargs="?", help=OUT)
    one.add_argument("--inputs", metavar="BITS", help=BITS)
    one.add_argument("--tapes", metavar="BITS", help=TAPES)
    one = add(commands, "apart", runs.apart, "a job taken apart", "bakebutton apart k1.job --circuit k1.circuit --inputs k1.inputs --tapes k1.tapes")
    one.add_argument("job", metavar="JOB", help="a job; - is standard input")
    for part in ("circuit", "inputs", "tapes"):
        one.add_argument(f"--{part}", metavar="FILE", help=f"where the {part} is written" if part == "circuit" else f"where the {part} are written")
    one = add(commands, "listing", runs.listing, "the listing of a job", "bakebutton listing k1.job")
    one.add_argument("job", metavar="JOB", help="a job; - is standard input")


def about_runs(commands):
    one = add(commands, "plain", runs.plain, "the plain value of every wire", "bakebutton plain k1.txt --inputs a=1,b=0")
    one.add_argument("circuit", metavar="CIRCUIT", help=CIRCUIT)
    one.add_argument("--inputs", metavar="BITS", help=BITS)
    one = add(commands, "run", runs.run, "a run of the three sites, each bit with what it is",
              "bakebutton run k1.txt --inputs 11 --tapes '1011 0101 10' --change 20\nbakebutton run --job k1.job --short")
    ran(one)
    one.add_argument("--short", action="store_true", help="without transcript and store")
    one = add(commands, "view", runs.view, "what one site sees of a run, each bit with what it is",
              "bakebutton view k1.txt --inputs 11 --tapes '1011 0101 10' --site 3")
    ran(one, change=False)
    site(one)
    one = add(commands, "retape", runs.retape, "the tapes that explain a site's view by other inputs",
              "bakebutton retape k1.txt --inputs 10 --second 01 --tapes '1011 0101 10' --site 3")
    ran(one, change=False)
    one.add_argument("--second", metavar="BITS", help="the other inputs; as --inputs")
    site(one)
    one = add(commands, "page", runs.look, "a run to look at, as one page of HTML",
              "bakebutton page k1.txt k1.html --inputs 11 --change 20\nbakebutton page --job k1.job k1.html")
    ran(one)
    one.add_argument("out", nargs="?", metavar="OUT", help=OUT)


def parsers():
    """The whole command line's parser, for its help, and each command's by name."""
    whole_parser = Parser(prog="bakebutton", description="Circuits for people, over the proved engine. docs/CIRCUITS.md has the text form.",
                          epilog="example:\n  bakebutton run examples/circuits/k1.txt --inputs 11\n"
                                 "status: 0 good, 1 refused or failed (an abort too), 2 wrong use")
    commands = whole_parser.add_subparsers(dest="command", metavar="COMMAND", required=True)
    about_circuits(commands)
    about_jobs(commands)
    about_runs(commands)
    return whole_parser, commands.choices


def takes(words_):
    """How often standard input is to be read."""
    files = [getattr(words_, name, None) == "-" for name in ("circuit", "job", "text", "file")]
    if words_.does is runs.apart:
        return files[1]  # its other words say where the parts go
    return sum(files + [getattr(words_, name, None) == "@-" for name in ("inputs", "tapes", "second")])


def understood(argv):
    """The words taken apart. Empty ones are refused, because an unset variable is none of a person's words."""
    if "" in argv:
        raise Mistake("an empty word is given", status=2)
    whole_parser, commands = parsers()
    if argv and argv[0].startswith("-") and argv[0] not in ("-h", "--help"):
        raise Mistake(f"a command comes first, and there is no option {argv[0]}; bakebutton --help says how it is used", status=2)
    if argv and argv[0] in commands:
        words_ = commands[argv[0]].parse_intermixed_args(argv[1:])  # files may stand before, between and behind the rest
    else:
        words_ = whole_parser.parse_args(argv)  # help, or an unknown command
    if words_.does is runs.look and words_.job and words_.circuit and not words_.out:
        words_.circuit, words_.out = None, words_.circuit  # with a job the one word that is left is the result's place
    if takes(words_) > 1:
        raise Mistake("standard input (-) is given twice", status=2)
    return words_


def say(*lines):
    for line in lines:
        print(f"bakebutton: {line}", file=sys.stderr)


def main(argv):
    """Runs a command; its status."""
    try:
        words_ = understood(argv)
        status = words_.does(words_) or 0
        sys.stdout.flush()
        return status
    except Refused as refused:
        say(words.told(refused), *refused.reasons)
        return 1
    except Mistake as mistake:
        say(*mistake.lines)
        return mistake.status
    except Unavailable as missing:
        say(*str(missing).split("\n"))
        return 1
    except OSError as error:
        if not isinstance(error, BrokenPipeError):  # whoever reads a pipe may have seen enough; anything else is told
            say(f"the result cannot be written: {error.strerror}")
        os.dup2(os.open(os.devnull, os.O_WRONLY), sys.stdout.fileno())  # what is left to be written goes nowhere
        return 1
    except KeyboardInterrupt:
        return 1
