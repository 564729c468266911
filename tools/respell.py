#!/usr/bin/env python3
"""Spells the repository's own definitions and lemmas with underscores: `add-pair` becomes `add_pair`.

usage: python3 tools/respell.py            once, at the top of the checkout, on texts that port.py has turned

A name turns where the text means this repository's own: in a file that declares it, or imports it from a file of this repository's, or behind a dot where it is
a field that a record of this repository declares, or the last step of a path into this repository. A name that a file has from a library, or that the checker
makes for a function (`loop-i-init`), stays. In comments and pages a name turns in a code span, and in a comment also where its file's text has it.
Wrong programs (must-fail/*.edit) turn as the file that they change. What would fall together with another name of its file is told, and nothing is written.
"""

import pathlib
import re
import sys

ROOT = pathlib.Path(__file__).resolve().parent.parent
NAME = r"[^\s(){}.;,@\"«»\[\]:=λ]+"
TOKEN = re.compile(r"[^\s(){};,@\"«»\[\]]+")
DECLARED = re.compile(rf"^( *)((?:(?:abbrev|unfoldable|pub|record|data|mutual) +)*)({NAME})((?: +[({{][^\n]*?[)}}])*) :(?: |$)", re.M)
USE = re.compile(r"\buse ([^\s;{}]+)\.\{([^}]*)\}(?: as (\S+))?|\buse ([^\s;{}]+)(?: as ([^\s;]+))?", re.S)
MADE = re.compile(r"\.proofs\.(?:\w+\.)*\+?[a-z]\w*(?:\.|$)|\.declared\b")  # what the checker makes of a function or a type


def files(*patterns):
    return [path for pattern in patterns for path in sorted(ROOT.glob(pattern)) if "out" not in path.parts]


def crates():
    return {path.name for path in ROOT.glob("crates/*")}


def quiet(text):
    """The text without its comments, lines kept."""
    return re.sub(r"(?m)(?<!\S)--.*$|//.*$", "", text)


def turned(name):
    return name.replace("-", "_")


def is_own(path):
    steps = path.split(".")
    return steps[0] == "package" or (steps[0] == "Rattle" and len(steps) > 1 and steps[1] in OWN and not MADE.search(path))


OWN = crates()


class Names:
    """What a text declares and imports."""

    def __init__(self, text):
        code = quiet(text)
        self.declared = {found.group(3) for found in DECLARED.finditer(code)}
        self.own, self.foreign, self.aliases = set(), set(), set()
        for found in USE.finditer(code):
            path, items, alias, whole, whole_alias = found.groups()
            if path:
                for item in items.split(","):
                    words = item.split()
                    if words:
                        (self.own if is_own(path) else self.foreign).add(words[0])
                        if len(words) == 3:
                            (self.declared if is_own(path) else self.foreign).add(words[2])
            if (alias or whole_alias) and is_own(path or whole):
                self.aliases.add(alias or whole_alias)


def fields():
    """Names that stand below a record's line, deeper than it."""
    found = set()
    for path in files("crates/*/specs/**/*.antt", "crates/*/proofs/**/*.antt"):
        deep = None
        for line in quiet(path.read_text()).split("\n"):
            here = len(line) - len(line.lstrip())
            if not line.strip():
                continue
            declared = DECLARED.match(line)
            if deep is not None and here <= deep:
                deep = None
            if deep is not None and declared:
                found.add(declared.group(3))
            if declared and "record" in declared.group(2).split():
                deep = here
    return {name for name in found if "-" in name}


def respell(text, names, fields, spans_only=None):
    """Each token of the text, turned where it is this repository's own."""
    own = {name for name in names.declared | names.own if "-" in name} - {name for name in names.foreign if name not in names.declared}

    def token(found):
        word = found.group(0)
        steps = word.split(".")
        out = []
        for at, step in enumerate(steps):
            name, dots = re.fullmatch(r"(.*?)([:=]*)", step).groups()
            head = ".".join(steps[:at])
            if "-" not in name or name.startswith("-"):
                mine = False
            elif at == 0:
                mine = name in own or name in fields and name not in names.foreign
            else:
                mine = name in fields or is_own(head) or head in names.aliases and name in EVERY
            out.append((turned(name) if mine else name) + dots)
        return ".".join(out)

    return TOKEN.sub(token, text)


def in_spans(text, every):
    """Names in code spans: those that turn, and those that port.py turned before."""
    def name(found):
        word = found.group(0)
        return turned(word) if "-" in word and (word in every or turned(word) in every) else word

    return re.sub(r"`[^`\n]+`", lambda span: re.sub(r"(?<![\w/.-])[\w'→←≡-]+(?![\w-])", name, span.group(0)), text)


def clashes(path, before, names, fields):
    """A turned name that the file's text had before, as another's."""
    code = quiet(before)
    words = set(re.findall(r"(?<![\w.-])[\w']+(?![\w-])", code))
    for name in sorted(names.declared | names.own):
        if "-" in name and turned(name) in words and path.suffix == ".antt":
            yield f"{path.relative_to(ROOT)}: {name} would meet {turned(name)}"


def main():
    global EVERY
    texts = {path: path.read_text() for path in files("crates/*/specs/**/*.antt", "crates/*/proofs/**/*.antt", "crates/*/src/*.rt")}
    known = {path: Names(text) for path, text in texts.items()}
    EVERY = {name for path, names in known.items() if path.suffix == ".antt" for name in names.declared}
    inside = fields()
    met = [clash for path, text in texts.items() for clash in clashes(path, text, known[path], inside)]
    written = {}
    for path, text in texts.items():
        if path.suffix == ".rt":
            # clauses and imports; in code a name of antt cannot stand
            new = "\n".join(line if re.match(r"\s*//", line) else respell(line, known[path], inside) for line in text.split("\n"))
            new = "\n".join(in_spans(line, EVERY) if re.match(r"\s*//", line) else line for line in new.split("\n"))
        else:
            new = in_spans(respell(text, known[path], inside), EVERY)
        written[path] = new
    for path in files("crates/*/must-fail/*.edit"):
        text = path.read_text()
        changed = re.search(r"^file: (.*)$", text, re.M)
        source = path.parent.parent / changed.group(1) if changed else None
        if source in known:
            written[path] = "\n".join(respell(line, known[source], inside) if re.match(r"(old|new):", line) else line for line in text.split("\n"))
    for path in files("*.md", "docs/**/*.md"):
        written[path] = in_spans(path.read_text(), EVERY)
    if met:
        print("\n".join(met))
        print(f"respell: {len(met)} names would fall together; nothing is written")
        return 1
    count = 0
    for path, new in written.items():
        if path.read_text() != new:
            path.write_text(new)
            count += 1
    print(f"respell: {count} files, {sum('-' in name for name in EVERY)} names")
    left = {}
    for path, new in written.items():
        if path.suffix == ".antt":
            for word in re.findall(rf"(?<![\w.-]){NAME}", quiet(new)):
                if "-" in word and word in EVERY and word not in known[path].foreign:
                    left.setdefault(word, path.relative_to(ROOT))
    for word, path in sorted(left.items()):
        print(f"left: {path}: {word}")
    return 0


if __name__ == "__main__":
    sys.exit(main())
