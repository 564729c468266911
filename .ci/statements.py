"""Holds docs/STATEMENTS.md, and what the other documents cite, to the sources.

A citation there is a link whose text is a name in code quotes and whose target is
a file of this repository: [`does`](../crates/theory_calls/specs/Call.antt).  The file
must be there and must declare that name; a comment declares nothing.  Every theorem of the demands must be
cited, so that none is added, renamed or dropped without the map.

In the other documents too a link's target must be there, and so must a file or folder of the repository that is named in code quotes
(`crates/run_steps/src/lib.rt`, `tools/words`), with the names that follow it behind a colon (`..`: `a`, `b`), and a function named by its crate
(`run_steps::or_bit`). docs/changes tells what was, and is not looked at.
"""

import pathlib
import re
import sys

ROOT = pathlib.Path(__file__).resolve().parent.parent
MAP = ROOT / "docs" / "STATEMENTS.md"
THEOREMS = sorted(str(path.relative_to(ROOT)) for path in (ROOT / "crates" / "theory_demands" / "proofs").glob("*.antt")
                  if path.stem not in ("Lib", "PublicLaws"))  # a file of theorems more is one of them
LINK = re.compile(r"\[`([^`]+)`\]\(([^)#]+)\)")
COMMENT = {".antt": "--", ".rt": "//"}
MARKS = r"[ ]*(?:(?:pub|abbrev|unfoldable)[ ]+)*"


def declares(text, name, kind):
    quoted = re.escape(name)
    if kind in COMMENT:
        text = re.sub(COMMENT[kind] + ".*", "", text)
    if kind == ".antt":
        return re.search(rf"^{MARKS}(?:data|record)[ ]+{quoted}(?=[\s(:])", text, re.M) \
            or re.search(rf"^{MARKS}(?:[^\s:(=]+[ ]+)*?{quoted}(?:[ ]+[^\s:(=]+)*[ ]+:\s", text, re.M)
    if kind == ".rt":
        return re.search(rf"\b(?:fn|struct|enum|const)\s+{quoted}\b", text)
    if kind == ".py":
        return re.search(rf"^def {quoted}\(", text, re.M)
    return name in text


def problems():
    text = MAP.read_text()
    cited = set()
    for name, target in LINK.findall(text):
        path = (MAP.parent / target).resolve()
        if not path.is_relative_to(ROOT) or not path.is_file():
            yield f"{target} is not there (for {name})"
            continue
        cited.add((str(path.relative_to(ROOT)), name))
        if not declares(path.read_text(), name, path.suffix):
            yield f"{target} declares no {name}"
    if not cited:
        yield "nothing is cited"
    for file in THEOREMS:
        for name in re.findall(r"^\s*pub (\S+) :", (ROOT / file).read_text(), re.M):
            if (file, name) not in cited:
                yield f"{name} of {file} is not in the map"
    for target in re.findall(r"\]\(([^)#]+)\)", text):
        if "://" not in target and not (MAP.parent / target).exists():
            yield f"{target} is not there"


FOLDERS = {path.name for path in ROOT.iterdir() if path.is_dir()} - {"target"}
STANDS_FOR = ("*", "..", "NAME", "CRATE", "FOLDER")  # a place that stands for several
QUOTED = re.compile(r"`([^`\s]+)`")
CODE = re.compile(r"`([^`]*[^`\s][^`]*)`")
BEHIND = re.compile(r"`(crates/[^`\s]+\.(?:rt|antt))`: ((?:`\w[\w-]*`(?:, (?=`))?)+)")
FUNCTION = re.compile(r"^(\w+)::(\w+)$")


def sources_of(crate):
    return "\n".join(path.read_text() for path in sorted((ROOT / "crates" / crate / "src").rglob("*.rt")))


def citations(path):
    """What is wrong with the citations of another document."""
    text = re.sub(r"^```.*?^```$", "", path.read_text(), flags=re.M | re.S)
    for target in re.findall(r"\]\(([^)#]+)\)", text):
        if "://" not in target and not (path.parent / target).exists():
            yield f"{target} is not there"
    for quoted in (whole.split()[0] for whole in CODE.findall(text)):
        if quoted.split("/")[0] in FOLDERS and "/" in quoted and not any(sign in quoted for sign in STANDS_FOR) and not (ROOT / quoted).exists():
            yield f"{quoted} is not there"
        function = FUNCTION.match(quoted)
        if function and (ROOT / "crates" / function.group(1)).is_dir() and not declares(sources_of(function.group(1)), function.group(2), ".rt"):
            yield f"{quoted}: that crate has no such function"
    for file, names in BEHIND.findall(text):
        for name in QUOTED.findall(names):
            if (ROOT / file).is_file() and not declares((ROOT / file).read_text(), name, "." + file.rsplit(".", 1)[1]):
                yield f"{file} declares no {name}"


def main():
    found = ["docs/STATEMENTS.md: " + problem for problem in problems()]
    for path in [ROOT / "README.md", ROOT / "CHANGES.md", *sorted((ROOT / "docs").glob("*.md"))]:
        found += [f"{path.relative_to(ROOT)}: {problem}" for problem in citations(path)]
    for problem in found:
        print(problem)
    if found:
        sys.exit(1)
    print("statement map ok")


if __name__ == "__main__":
    main()
