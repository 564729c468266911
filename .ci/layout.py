"""What must hold of the files themselves.

- Every folder under crates/ is a line of crates.txt, and the other way round.
- No definition or proof declares an axiom.
- A public call is a function whose comment begins "PUBLIC.". Each such mark has its function, none has a `requires`, each cites `does (` in its
  promise (one that takes nothing is a number, and no call), and docs/STATEMENTS.md has exactly these functions in its tables.
- The exported functions (`extern "C"`) are those of crates/door, each a public call, once more in crates/door_c, the static library: comment, name,
  parameters, result and clauses are word for word those of door, and the body hands the parameters on to door's.
- What the checker reads in each public function's contract is pinned to its sentence (crates/theory_wrong/proofs, Promise.antt and PromiseForC.antt).
- The closed list of public calls (crates/theory_demands/specs/Public.antt) is that of the sources: the call that a public function promises stands
  in it, whole; every call in it is promised by one; no name stands for two calls; a call that reads a circuit file is in OnFile; and
  docs/STATEMENTS.md has exactly these calls in its table.
- No function over a Reader that a caller outside can reach, a method too, has a `requires`: anybody can make a Reader.
- Every call of the list has a function for C, and two wrong programs at least: edits of the crate whose function promises it, or rows of
  crates/theory_wrong.
- The evaluator, its streams, the trials and docs/TRIALS.md have the same calls under the same numbers, and the trials ask every public function but
  those for C, which evaluator/door.c asks. The kinds of answers that must occur among them are those of each call's checks.
- docs/ARCHITECTURE.md has a row for each crate, and for none besides.
- Every must-fail edit says in its first line what wrong program it is, and each text that it changes stands once where it says; so does each text
  that the comment of a wrong answer (crates/theory_wrong) says is changed.

That sources are in the toolchain's layout is held by `rt ci`, which refuses those that are not.
"""

import pathlib
import re
import sys

sys.dont_write_bytecode = True  # nothing is written beside the sources

ROOT = pathlib.Path(__file__).resolve().parent.parent


def listed():
    names = set()
    for line in (ROOT / "crates.txt").read_text().splitlines():
        line = line.split("#")[0].strip()
        if line:
            names.add(line.split(":")[0].split()[0])  # a static library has a word behind its name
    return names


MARK = re.compile(r"//+\s*PUBLIC\b")
FUNCTION = re.compile(r"\s*pub (?:extern \"C\" )?fn (\w+)")
EXPORT = '#[unsafe(no_mangle)]\npub extern "C" fn'
NOTHING = re.compile(r"fn \w+\(\)")  # a function that takes nothing: a number, and no call
PLACE = re.compile(r"\[`(\w+)`\]\(\.\./(crates/[^)]+/src/[^)]+\.rt)\)")  # in a row of the map's tables of public calls; a row may have several


def sources():
    for path in sorted((ROOT / "crates").glob("*/src/**/*.rt")):
        yield path.relative_to(ROOT), path.read_text().splitlines()


def written(kind):
    """The crates' files of a kind, without what rt made of them."""
    return [path for path in sorted((ROOT / "crates").rglob(kind)) if path.relative_to(ROOT).parts[2] != "out"]


def head(lines, start):
    """A function from its first line on, up to its body."""
    end = start
    while end < len(lines) and not lines[end].lstrip().startswith("{") and not (end > start and lines[end - 1].endswith("{")):
        end += 1
    return "\n".join(lines[start:end])


def public_calls():
    """Path, name and contract of the function behind each mark; no name where there is none. Comments and attributes may stand between."""
    for path, lines in sources():
        for number, line in enumerate(lines):
            if not MARK.search(line):
                continue
            after = number + 1
            while after < len(lines) and lines[after].strip().startswith(("//", "#[")):
                after += 1
            found = FUNCTION.match(lines[after]) if after < len(lines) and line.startswith("// PUBLIC.") else None
            yield path, found and found.group(1), head(lines, after)


def functions_of(text):
    """What stands in a file before its first function, and each function with its comment, by name."""
    begins, *parts = re.split(r"^(?=// [^\n]*\n(?:// [^\n]*\n)*(?:#\[[^\n]*\n)*pub )", text, flags=re.M)
    return begins, {re.search(r"^pub (?:extern \"C\" )?fn (\w+)", part, re.M).group(1): part.strip() for part in parts}


def export_problems():
    """Of the static library, against the library that it hands on to."""
    for path, lines in sources():
        if path.parts[1] != "door_c" and re.search(r"\bextern\b|\bno_mangle\b", re.sub(r"//.*", "", "\n".join(lines))):
            yield f"{path}: exports something, and crates/door_c alone does"
    (begins, inside), (exports_begin, outside) = (functions_of((ROOT / "crates" / crate / "src" / "lib.rt").read_text()) for crate in ("door", "door_c"))
    marked = {name for path, name, _ in public_calls() if path.parts[1] == "door"}
    for name in sorted(set(inside) ^ set(outside) | set(inside) ^ marked):
        yield f"{name} is not a public call of crates/door and an export of crates/door_c"
    ghosts = [re.findall(r"^ghost use .*?;$|^use .*?;$", text, re.M | re.S) for text in (begins, exports_begin)]
    if ghosts[0] != ghosts[1] or re.search(r"^(?!//|#!\[|ghost use |use |};)\S", exports_begin, re.M):
        yield "crates/door_c has other words for its clauses than crates/door, or more than its exports"
    for name in sorted(set(inside) & set(outside)):
        told = inside[name][:inside[name].rindex("\n{\n")]
        given = re.findall(r"(\w+): &?(?:mut )?[\w\[\]]+", told[told.index("fn "):].split("ensures")[0])
        export = told.replace("// PUBLIC. ", "// ", 1).replace("\npub fn", "\n" + EXPORT, 1)
        if outside[name] != f"{export}\n{{\n    door::{name}({', '.join(given)})\n}}":
            yield f"crates/door_c: {name} is not word for word that of crates/door, handed on"


DECLARED = re.compile(r"^[ ]*(?:(?:unfoldable|abbrev)[ ]+)*pub[ ]+(\S+) :([^\n]*(?:\n[ ]+[^\n]*)*)", re.M)
DATA = re.compile(r"^pub data (\w+) : Call → Type 0 where\n((?:[ ]+[^\n]*\n?)*)", re.M)
MEMBER = re.compile(r"^  \S+ : (.*) → \w+ \((\S+)((?: \w+)*)\)$", re.M)
PROMISED = re.compile(r"\bdoes \(([^\s()]+)|\bTells\w*\b[^{}]*?\(([A-Z][^\s()]*) ")
WRONG = re.compile(r"^  call = (?:K_)?(\w+)", re.M)
CALLS_ROW = re.compile(r"^\| \[`(\w+)`\]\(\.\./crates/[^)]+/specs/[^)]+\.antt\)", re.M)


def defined_calls():
    """Each definition into Call, with its text: a name that occurs twice is there twice."""
    for path in written("*.antt"):
        text = re.sub(r"--.*", "", path.read_text())
        for found in DECLARED.finditer(text):
            if re.search(r"(?:^|→)\s*Call\s*$", found.group(2).split("\nunfolding")[0]):
                body = text[found.end():]
                yield found.group(1), body[:body.find("\n\n")] if "\n\n" in body else body


def closed_list():
    """The calls of each type that Public takes in. A member is a call on variables that are its own, each once."""
    types = dict(DATA.findall(re.sub(r"[ ]*--.*", "", (ROOT / "crates" / "theory_demands" / "specs" / "Public.antt").read_text())))
    inside = {"Public"} | set(re.findall(r"→ (\w+) c → Public c$", types["Public"], re.M))
    for name in sorted(inside):
        for binders, call, words in MEMBER.findall(types[name]):
            bound = [word for group in re.findall(r"\(([^:()]*) :", binders) for word in group.split()]
            yield name, call, words.split() == bound and len(set(bound)) == len(bound)


def call_problems():
    """Of the closed list of public calls, against what public functions promise and against the map's table of calls."""
    where = "crates/theory_demands/specs/Public.antt"
    bodies = {}
    for name, body in defined_calls():
        if name in bodies:
            yield f"two calls are named {name}"
        bodies[name] = body
    for path in written("*.antt") + written("*.rt"):
        for name in re.findall(r"[\w-]+ as ([\w'-]+)[,}]", path.read_text()):
            if name in bodies:
                yield f"{path.relative_to(ROOT)} brings another thing in as {name}, which is a call"
    listed_calls = set()
    for kind, call, whole in closed_list():
        listed_calls.add(call)
        if call not in bodies or not whole:
            yield f"{where}: {call} is no call, or not on variables of its own"
        elif kind != "OnFile" and re.search(r"(?:header|file)_checks", bodies[call]):
            yield f"{where}: {call} reads a circuit file and is not in OnFile, whose checks stand in the one order"
    promised, for_c = set(), set()
    rows = "".join(path.read_text() for path in (ROOT / "crates" / "theory_wrong" / "specs").glob("*.antt"))
    tried = [call.lower() for call in WRONG.findall(rows)]  # a wrong program each
    for path, name, contract in public_calls():
        ensures = re.sub(r"//.*", "", re.sub(r"^.*?\bensures\b", "", contract, count=1, flags=re.S))
        own = {call for found in PROMISED.findall(ensures) for call in found if call}
        if name is not None and not own and not NOTHING.search(contract):
            yield f"{path}: public call {name} promises no call"
        for call in sorted(own - listed_calls):
            yield f"{path}: {name} promises {call}, which is not in the closed list of {where}"
        if name != "bakebutton_sizes":  # made of the check's answer, and no call
            promised |= own
            for_c |= own if path.parts[1] == "door" else set()
            tried += [call.lower() for call in own for _ in (ROOT / path).parent.parent.glob("must-fail/*.edit")]
    for call in sorted(listed_calls):
        if call not in for_c:
            yield f"{where}: {call} has no function for C"
        if tried.count(call.lower()) < 2:
            yield f"{where}: {call} has {tried.count(call.lower())} wrong programs, and two are wanted"
    for call in sorted(listed_calls - promised):
        yield f"{where}: no public function promises {call}"
    rows = set(CALLS_ROW.findall(public_section()))
    for call in sorted(listed_calls ^ rows):
        yield f"docs/STATEMENTS.md: {call} is " + ("not in its table of calls" if call in listed_calls else "in its table of calls, and not in the closed list")


def over_reader():
    """Path, name and contract of each function with a Reader among its parameters, or a method of one, that a caller outside can reach."""
    for path, lines in sources():
        within = ""  # the head of the impl block that a line stands in
        for number, line in enumerate(lines):
            if line.startswith("impl"):
                within = line
            elif line.startswith("}"):
                within = ""
            found = FUNCTION.match(line) or (re.match(r"\s+fn (\w+)", line) if re.search(r"\bReader\b", within) else None)
            asked = head(lines, number).split("->")[0] if found else ""
            if re.search(r"\(.*\bReader\b.*\)", asked, re.S) or (re.search(r"\bReader\b", within) and re.search(r"\(.*\bself\b", asked, re.S)):
                yield path, found.group(1), head(lines, number)
            if re.search(r"\bReader\s+as\b", line):
                yield path, "an import of Reader under another name", "requires"


def public_section():
    """The statement map's section on public calls."""
    return re.search(r"^## The public calls$(.*?)^## ", (ROOT / "docs" / "STATEMENTS.md").read_text(), re.M | re.S).group(1)


def public_problems():
    seen = set()
    for path, name, contract in public_calls():
        if name is None:
            yield f"{path}: a mark PUBLIC with no function behind it"
            continue
        seen.add((name, str(path)))
        if re.search(r"^\s*requires\b", contract, re.M):
            yield f"{path}: public call {name} has a requires"
        if not re.search(r"^\s*ensures\b", contract, re.M):
            yield f"{path}: public call {name} promises nothing"
        elif not NOTHING.search(contract) and not re.search(r"^\s*ensures\b.*\b(?:does \(|Tells\w* )", contract, re.M | re.S):
            yield f"{path}: public call {name} does not promise what its call does"
    rows = re.findall(r"^\|.*$", public_section(), re.M)
    named = set(PLACE.findall("\n".join(rows)))
    for name, path in sorted(seen ^ named):
        yield f"{path}: {name} is " + ("not in docs/STATEMENTS.md's tables of public calls" if (name, path) in seen else "in docs/STATEMENTS.md's tables of public calls, and none")
    if not seen:
        yield "no public call is seen"
    pins = [(ROOT / "crates" / "theory_wrong" / "proofs" / file).read_text() for file in ("Promise.antt", "PromiseForC.antt")]
    for name, path in sorted(seen):
        used = rf"^use Rattle\.{path.split('/')[1]}\.(?:proofs\.{name}(?:\.Reads)?|specs\.contracts\.{name}) as (\w+)$"
        if not any(re.search(rf"^\s+→ \(?{alias}\.(?:Learnt|clauses) ", text, re.M) for text in pins for alias in re.findall(used, text, re.M)):
            yield f"{path}: the contract of {name} is not pinned in crates/theory_wrong/proofs"
    yield from export_problems()
    for path, name, contract in over_reader():
        if re.search(r"^\s*requires\b", contract, re.M):
            yield f"{path}: {name} is over a Reader, can be reached from outside and has a requires"


PART = re.compile(r"^(file|old|new): ?(.*?)\n?(?=^(?:file|old|new):|\Z)", re.S | re.M)


def edit_problems(path):
    """Of a must-fail edit. Its changes are made one after the other, as rt makes them."""
    text = path.read_text()
    if re.match(r"(file|old|new):", text) or not text.split("\n")[0].strip():
        yield "does not say what it is"
    source = old = ""
    for key, value in PART.findall(text):
        if key == "file":
            source = (path.parent.parent / value.strip()).read_text()
        elif key == "old":
            old = value
            if source.count(old) != 1:
                yield f"changes a text that stands there {source.count(old)} times: {old}"
        else:
            source = source.replace(old, value)


CHANGED = re.compile(r"^-- (\w+): `(.+)` → `(.+)`$", re.M)
ROW = re.compile(r"(?:^-- \w+: `.+` → `.+`\n)+", re.M)


def answer_problems():
    """Of the wrong programs that are told by their answers: the changes of one stand above its row, one after the other."""
    seen = 0
    for path in sorted((ROOT / "crates" / "theory_wrong").glob("*/*.antt")):
        for row in ROW.findall(path.read_text()):
            changes = CHANGED.findall(row)
            seen += 1
            source = "\n".join(found.read_text() for found in sorted((ROOT / "crates" / changes[0][0] / "src").glob("*.rt")))
            for name, old, new in changes:
                if name != changes[0][0] or source.count(old) != 1:
                    yield f"{path.relative_to(ROOT)}: a wrong answer's change of {name} stands there {source.count(old)} times: {old}"
                source = source.replace(old, new)
    if not seen:
        yield "no wrong answer is seen"
    text = "".join(path.read_text() for path in sorted((ROOT / "crates" / "theory_wrong").glob("*/*.antt")))
    rows = re.findall(r"^((?:--.*\n)*)(?:abbrev )?pub (\S+) : (Wrong|WrongTold|WrongStruct)$", text, re.M)
    members = set(re.findall(r"[\w-]+", " ".join(re.findall(r"^wrong_(?:reads|runs|texts|tolds|structs) =((?:.|\n +)*)", text, re.M))))
    for above, name, _ in rows:
        if name not in members:
            yield f"crates/theory_wrong: the wrong answer {name} is in no list, so that no theorem speaks of it"
        if not CHANGED.search(above):
            yield f"crates/theory_wrong: the wrong answer {name} does not say what is changed"


def trial_problems():
    """Of the trials: each call has one number everywhere, and every public function but those for C is asked."""
    forms = re.findall(r'^    \{"(\w+)", \d', (ROOT / "evaluator" / "stream.c").read_text(), re.M)
    sys.path.insert(0, str(ROOT / "evaluator"))
    import damage
    import header
    import kinds
    import trials
    rows = re.findall(r"^\| (\d+) \| (\w+) \| (?:file|job|text)", (ROOT / "docs" / "TRIALS.md").read_text(), re.M)
    if damage.NAMES != forms:
        yield f"evaluator/stream.c has the calls {forms}, and evaluator/damage.py {damage.NAMES}"
    if sorted(trials.MADE) != sorted(forms):
        yield f"evaluator/trials.py makes {sorted(trials.MADE)}, and the evaluator {sorted(forms)}"
    if rows != [(str(number), name) for number, name in enumerate(forms, 1)]:
        yield f"docs/TRIALS.md has other calls than evaluator/stream.c: {rows}"
    program = "".join(path.read_text() for name in ("trials", "trials_calls") for path in (ROOT / "crates" / name / "src").glob("*.rt"))
    if f"1..={len(forms)})" not in program:
        yield f"crates/trials/src/main.rt does not make the {len(forms)} calls"
    for name, call in header.promised():
        checks = set(header.orders()[1].get(call, ()))
        asked = {4, 5, 6} if name in kinds.CHECKED else {kinds.QUESTIONS[name]} if name in kinds.QUESTIONS else set(kinds.VALUES.get(name, ()))
        if name != "sizes" and checks & {4, 5, 6, 7, 8, 9, 12} != asked | set(kinds.BITS.get(name, ())):
            yield f"evaluator/kinds.py asks of {name} for other refusals than its checks have, {sorted(checks)}"
    for path, name, _ in public_calls():
        crate = path.parts[1]
        if crate != "door" and f"{crate}::{name}(" not in program:
            yield f"the trials do not ask {crate}::{name}"


def problems():
    yield from public_problems()
    yield from trial_problems()
    yield from answer_problems()
    yield from call_problems()
    folders = {path.name for path in (ROOT / "crates").iterdir() if path.is_dir()}
    for name in sorted(folders ^ listed()):
        yield f"crates/{name} and crates.txt differ"
    rows = re.findall(r"^\| `(\w+)` \|", (ROOT / "docs" / "ARCHITECTURE.md").read_text(), re.M)
    for name in sorted(folders ^ set(rows)):
        yield "docs/ARCHITECTURE.md: its tables of crates have " + (f"no {name}" if name in folders else f"{name}, which is none")
    for path in written("*.antt"):
        for number, line in enumerate(path.read_text().splitlines(), 1):
            if re.match(r"\s*axiom\b", line):
                yield f"{path.relative_to(ROOT)}:{number}: an axiom"
    for path in sorted((ROOT / "crates").glob("*/must-fail/*.edit")):
        for problem in edit_problems(path):
            yield f"{path.relative_to(ROOT)} {problem}"


def main():
    found = list(problems())
    for problem in found:
        print("layout: " + problem)
    if found:
        sys.exit(1)
    print("layout ok")


if __name__ == "__main__":
    main()
