"""Holds include/bakebutton.h, and the Rust crate over it, to the Rattle sources.

- Every exported function, of crates/door_c, is declared, with the parameters and the result that its own text has, and no other is.
- Each of them is asked by evaluator/door.c, by the Rust crate and its example, and stands in the Python package's table; bakebutton_text_bytes, which
  is a number and no call, by the first alone.
- Every struct that goes out (crates/door_answers, #[repr(C)]) has the same members, of the same types, in the same order.
- Good, abort, the refusals' numbers, the order of checks and what each call checks are those of crates/theory_calls/specs and crates/theory_demands/specs.
- The call on a text has an order of its own, that of crates/bristol_text/specs: told in the same words above the table and beside the call, with the
  refusals that are by line and those with the number of lines, and so are their places. Its room is as long as its block says.
- Limits, kinds, the job's and the listing's lengths are those of the code that tests them.
- Each length's macro gives what door_answers::sizes_from and the header's own check compute, and each _MAX what the largest circuit needs.
- The header defines no function but bakebutton_words, which .ci/words.py tries.
- The Rust crate declares functions of the header, structs of the same members, and the same numbers.
- VERSION is the version of the header, of CHANGES.md's first part and of the Rust crates; KIT names one kit, which README.md names too.
"""

import pathlib
import re
import sys

ROOT = pathlib.Path(__file__).resolve().parent.parent
HEADER = (ROOT / "include" / "bakebutton.h").read_text()
CHECKS = "crates/theory_calls/specs/Checks.antt"
TEXT, HEARD = "crates/bristol_text/specs/Call.antt", "crates/bristol_text/specs/Heard.antt"  # the call on a text, and what is wrong with a line of it
OWN = {"lines_check": "by line", "end_checks": "with the number of lines"}  # how the header tells them
DOOR = "crates/door_c/src/lib.rt"  # the exported functions
NUMBERS = {"usize": "size_t", "u8": "uint8_t", "u16": "uint16_t", "u32": "uint32_t"}
TABLE = "uint32_t bits[3][3]"  # the same nine numbers as [u32; 9], row after row


def source(path):
    return (ROOT / path).read_text()


def snake(name):
    return "bakebutton_" + re.sub(r"(?<!^)([A-Z])", r"_\1", name).lower()


def flat(text):
    return re.sub(r"\s+", " ", text).strip()


# What the sources say.

def prototypes():
    """Each exported function as C declares it."""
    for found in re.finditer(r'extern "C" fn (\w+)\(([^)]*)\)(?: -> (\w+))?', source(DOOR)):
        name, parameters, result = found.groups()
        words = []
        for parameter in filter(None, map(str.strip, parameters.split(","))):
            which, kind = map(str.strip, parameter.split(":"))
            if kind == "&[u8]":
                words += [f"const uint8_t *{which}", f"size_t {which}_length"]
            elif kind == "&mut [u8]":
                words += [f"uint8_t *{which}", f"size_t {which}_length"]
            else:
                words.append(f"{NUMBERS[kind]} {which}")
        out = "void" if result is None else NUMBERS[result] if result in NUMBERS else "struct " + snake(result)
        yield name, f"{out} {name}({', '.join(words) or 'void'}) BAKEBUTTON_LOOK;"


def structs():
    """Each struct that goes out as C declares it."""
    for name, body in re.findall(r"#\[repr\(C\)\]\n(?:#\[derive\([^)]*\)\]\n)?pub struct (\w+) \{([^}]*)\}", source("crates/door_answers/src/lib.rt")):
        members = []
        for which, kind in re.findall(r"pub (\w+): ([^,]+),", body):
            array = re.fullmatch(r"\[(\w+); (\d+)\]", kind)
            if array and which == "bits":
                members.append(TABLE if array.groups() == ("u32", "9") else "unfit")
            elif array:
                members.append(f"{NUMBERS[array.group(1)]} {which}[{array.group(2)}]")
            else:
                members.append(f"{NUMBERS[kind]} {which}")
        yield snake(name), members


def list_of(text):
    return [int(number) for number in re.findall(r"\d+", text)]


def bodies(path, names):
    """What stands behind the = of each definition whose name is so, up to a blank line, comments left out."""
    text = re.sub(r" *--.*", "", source(path))
    return re.findall(rf"^({names})(?: [^=\n]*)? =(.*?)(?:\n\n|\Z)", text, re.S | re.M)


def row_places(row):
    """The places of a row that has few of them; none for a row over an index. A row may be another one on numbers of its own."""
    (_, body), = bodies(CHECKS, row)
    other = re.match(r"\s*(\w+_row) ", body)
    return row_places(other.group(1)) if other else [int(place) for place in re.findall(r"[(∷] ?\((\d+), not", body)]


def line_numbers():
    """The refusals that a line of a text can get, in their order on one line."""
    clauses = re.findall(r"^(?:line_fault|within|two_fault|one_fault) [^=\n]*= (.*)$", source(HEARD), re.M)
    return sorted({int(number) for clause in clauses for number in re.findall(r"\b[1-9]\d*\b", clause)})


def checks_in(text, named):
    """A list of checks in its order, each as how it is told and its number: it is `refusal N ..`, or stands for its own by its name."""
    found = re.findall(r"\brefusal (\d+) |\b(\w+_checks?)\b", text)
    return [check for number, name in found for check in ([("", int(number))] if number else named[name])]


def named_checks():
    named = {}
    for path in (CHECKS, TEXT):
        for name, body in bodies(path, r"\S+_checks?"):
            own = [("", number) for number in line_numbers()] if "number = fault_at" in body else checks_in(body, named)
            named[name] = [(OWN.get(name, how), number) for how, number in own]
    return named


def blocks():
    """Each call's checks, by the name of its block, in whatever crate that stands."""
    named = named_checks()
    text = "\n".join(path.read_text() for path in sorted((ROOT / "crates").glob("*/specs/*.antt")))
    calls = re.findall(r"^unfoldable pub (\w+?)(?:Of)? : [^\n]*→ Call$.*?checks =(.*?)buffers =", text, re.M | re.S)
    return {name: checks_in(checks, named) for name, checks in calls}


def orders():
    """The one order of the calls on a circuit file or a job, and the numbers of each call's checks in their order."""
    fixed = list_of(re.search(r"^fixed_order = (.*)$", source("crates/theory_demands/specs/Public.antt"), re.M).group(1))
    return fixed, {name: [number for _, number in checks] for name, checks in blocks().items()}


def told(checks):
    """A call's checks as the header tells them: 10, then by line 15, 16, 17, then ..."""
    groups = []
    for how, number in checks:
        if not groups or groups[-1][0] != how:
            groups.append((how, []))
        groups[-1][1].append(str(number))
    return ", then ".join(f"{how} {', '.join(numbers)}".strip() for how, numbers in groups)


def promised():
    """The call that each exported function promises; none for one that is no call."""
    for name, contract in re.findall(r'pub extern "C" fn bakebutton_(\w+)\([^{]*?ensures (.*?)\n\{', source(DOOR), re.S):
        found = re.search(r"\bdoes \((\w+)|\bTells\w*\b[^{}]*?\(([A-Z]\w*) ", contract)
        if found:
            yield name, found.group(1) or found.group(2)


def lengths():
    """What sizes_from computes, by member, as functions of i, g, o, a and the sites' own inputs."""
    body = re.search(r"pub fn sizes_from\(.*?\n\{\n(.*?)\n\}\n", source("crates/door_answers/src/lib.rt"), re.S).group(1)
    names = dict(re.findall(r"let (\w+) = ([^;]*);", body))
    literal = re.search(r"SizesAnswer \{(.*)\}", body, re.S).group(1)
    view = re.search(r"view: \[\s*([^,]*),", literal).group(1)
    members = dict(re.findall(r"^\s*(\w+): ([^,\[]*),$", literal, re.M))
    members["line"] = "line"
    members["view"] = view

    def value(text, i, g, o, a, own):
        text = text.replace("c.inputs", str(i)).replace("c.gates", str(g)).replace("c.outputs", str(o))
        known = {"a": a, "s1": own}
        while True:
            words = set(re.findall(r"[a-z]\w*", text)) - set(known)
            if not words:
                return eval(text, {}, known)
            for word in words:
                text = re.sub(rf"\b{word}\b", f"({names[word]})", text)
            text = text.replace("c.inputs", str(i)).replace("c.gates", str(g)).replace("c.outputs", str(o))

    return {name: lambda *numbers, text=text: value(text, *numbers) for name, text in members.items()}


# What the header says.

def defined(name):
    found = re.search(rf"^#define BAKEBUTTON_{name} (\d+)(?: /\*.*\*/)?$", HEADER, re.M)
    return int(found.group(1)) if found else None


def macro(name, **numbers):
    found = re.search(rf"^#define BAKEBUTTON_{name}\(([^)]*)\) (.*)$", HEADER, re.M)
    parameters, text = found.groups()
    text = text.replace("(size_t)", "")
    other = re.fullmatch(r"BAKEBUTTON_(\w+)\([^)]*\)", text)
    if other:
        return macro(other.group(1), **numbers)
    return eval(text, {}, {name.strip(): numbers[name.strip()] for name in parameters.split(",")})


# What the Rust crate says, and which version each file.

RUST = "examples/rust/bakebutton/src/lib.rs"
IN_RUST = {"const uint8_t *": "*const u8", "uint8_t *": "*mut u8", "size_t ": "usize", "uint8_t ": "u8", "uint16_t ": "u16", "uint32_t ": "u32"}


def in_rust(declared):
    """A parameter or member of C's as Rust has it."""
    kind, name, arrays = re.fullmatch(r"(.*?[ *])(\w+)((?:\[\d\])*)", declared).groups()
    told = IN_RUST[kind]
    for length in re.findall(r"\d", arrays):
        told = f"[{told}; {length}]"
    return f"{name}: {told}"


def camel(name):
    return "".join(word.capitalize() for word in name.split("_")[1:])


def rust_problems(wanted, given):
    text = source(RUST)
    for name, parameters, result in re.findall(r"pub fn (bakebutton_\w+)\(([^)]*)\) -> (\w+);", text):
        declared = re.fullmatch(r"struct (\w+) \w+\((.*)\) BAKEBUTTON_LOOK;", wanted.get(name, ""))
        told = declared and (", ".join(map(in_rust, declared.group(2).split(", "))), camel(declared.group(1)))
        if (parameters, result) != told:
            yield f"{RUST}: {name} is declared as {parameters} -> {result}"
    for name, members in given.items():
        found = re.search(rf"#\[repr\(C\)\]\n    pub struct {camel(name)} \{{([^}}]*)\}}", text)
        if not found or re.findall(r"pub (\w+: [^,]+),", found.group(1)) != list(map(in_rust, members)):
            yield f"{RUST}: {camel(name)} has not the members {members}"
    example, package = source("examples/rust/example/src/main.rs"), source("python/bakebutton/calls.py")
    for name, _ in promised():
        if f"c::bakebutton_{name}(" not in text or f"bakebutton::{name}(" not in example:
            yield f"{RUST} has no function over bakebutton_{name}, or the example does not call it"
        if f', "{name}", ' not in package:
            yield f"python/bakebutton/calls.py has no {name}"
    for name in wanted:
        if name + "(" not in source("evaluator/door.c"):
            yield f"evaluator/door.c does not ask {name}"
    for name in ("GOOD", "ABORT", "TEXT_BYTES", "FILE_ROOM_BYTES"):
        if f"const {name}: usize = {defined(name)};" not in text:
            yield f"{RUST}: {name} is not {defined(name)}"
    for name in ("TEXT_BYTES", "FILE_ROOM_BYTES"):
        if f"\n{name} = {defined(name)}  #" not in package:
            yield f"python/bakebutton/calls.py: {name} is not {defined(name)}"


def version_problems():
    version = source("VERSION").strip()
    if not re.fullmatch(r"\d+\.\d+\.\d+", version):
        yield f"VERSION is '{version}'"
        return
    if f'\n#define BAKEBUTTON_VERSION "{version}"\n' not in HEADER:
        yield f"BAKEBUTTON_VERSION is not \"{version}\""
    for name, number in zip(("MAJOR", "MINOR", "PATCH"), version.split(".")):
        if defined("VERSION_" + name) != int(number):
            yield f"BAKEBUTTON_VERSION_{name} is not {number}"
    if re.findall(r"^## (.*)$", source("CHANGES.md"), re.M)[:1] != [version]:
        yield f"CHANGES.md does not begin with {version}"
    for path in ("examples/rust/bakebutton/Cargo.toml", "examples/rust/example/Cargo.toml"):
        if f'\nversion = "{version}"\n' not in source(path):
            yield f"{path} has not the version {version}"
    if not re.fullmatch(r"\S.*\S\n", source("KIT")):
        yield "KIT is not one line that names a kit"
    elif f"`{source('KIT').strip()}`" not in source("README.md"):
        yield "README.md names another kit than KIT"


def comment_before(declaration):
    """The comment right before a declaration."""
    head = HEADER[:HEADER.index(declaration)]
    return flat(re.sub(r"^ \*", " ", head[head.rindex("/*"):], flags=re.M))


def text_problems(table):
    """Of the call on a text, whose checks have an order of their own."""
    own = blocks()["FromBristol"]
    order, head = told(own), comment_before("#ifndef BAKEBUTTON_H\n")
    if f" A text has an order of its own: {order}. " not in head:
        yield f"the comment on the order of checks does not say that a text has {order}"
    declaration = "struct bakebutton_file_answer bakebutton_from_bristol("
    if HEADER.count(declaration) != 1 or f" Checks {order}. " not in comment_before(declaration):
        yield f"the comment on bakebutton_from_bristol does not say: Checks {order}"
    (_, ends), = bodies(TEXT, "end_checks")
    (_, checks), = bodies(TEXT, "text_checks")
    behind = [number for how, number in own if how == OWN["end_checks"]]
    if list_of(" ".join(re.findall(r"refusal (\d+) \(at_places \(suc n\) \(\(n, not", ends))) != behind or "end_checks (length ls) " not in checks:
        yield f"the places of {behind} behind a text's lines are not the number of lines"
    for number in line_numbers():
        place = "line number" + (", else number of lines" if number in behind else "")
        if not re.search(rf"  {place}$", table.get(number, "")):
            yield f"the place of {number} is {place}"
    if ("", 4) in own and HEADER.count("  count of input values, else value number\n") != 1:
        yield "the comment's table does not say what the place of 4 is for a text"
    (_, room), = bodies(TEXT, "room_bytes")
    if defined("FILE_ROOM_BYTES") != int(room):
        yield f"a text's file is lent {room.strip()} bytes"


def problems():
    declared = {}
    for text in re.findall(r"^(?!static )[a-z][\w ]*bakebutton_\w+\([^;{]*;", HEADER, re.M):
        declared[re.search(r"(bakebutton_\w+)\(", text).group(1)] = text
    wanted = dict(prototypes())
    for name in sorted(set(declared) ^ set(wanted)):
        yield f"{name} is declared or exported, not both"
    for name in sorted(set(declared) & set(wanted)):
        if flat(declared[name]) != wanted[name]:
            yield f"{name} should be declared: {wanted[name]}"

    if re.findall(r"^\S.*\b(\w+)\([^;]*\)\n\{$", HEADER, re.M) != ["bakebutton_words"]:
        yield "it defines a function besides bakebutton_words"

    found = {name: [flat(member) for member in body.strip().rstrip(";").split(";")]
             for name, body in re.findall(r"^struct (\w+) \{([^}]*)\};", HEADER, re.M)}
    given = dict(structs())
    for name in sorted(set(found) | set(given)):
        if found.get(name) != given.get(name):
            yield f"struct {name} is {found.get(name)}, and goes out as {given.get(name)}"
    yield from rust_problems(wanted, given)
    yield from version_problems()

    answers = source("crates/theory_calls/specs/Answer.antt")
    for case, name in (("good vs", "GOOD"), ("abort o m", "ABORT")):
        number = int(re.search(rf"^number_of \({case}\) = (\d+)$", answers, re.M).group(1))
        if defined(name) != number:
            yield f"BAKEBUTTON_{name} is not {number}"

    every = sorted({*orders()[0], *orders()[1]["FromBristol"]})
    count = len(every)
    numbers = [int(n) for n in re.findall(r"^#define BAKEBUTTON_REFUSED_\w+ (\d+)$", HEADER, re.M)]
    if numbers != list(range(1, count + 1)) or every != numbers:
        yield f"the refusals' numbers are {numbers}, and those of the definitions {every}"
    table = {int(n): text.rstrip() for n, text in re.findall(r"^ \*\s+(\d+)   (\w.*)$", HEADER, re.M)}
    if list(table) != numbers:
        yield f"the comment's table of refusals has {list(table)}"
    for row, number in (("row_short", 1), ("row_large", 2), ("row_field", 3), ("row_site", 11), ("row_job", 14)):
        places = [str(place) for place in row_places(row)]
        said = (", ".join(places[:-1]) + " or " if places[1:] else "") + places[-1]
        if not re.search(rf"(?:^|\s){said}$", table[number]):
            yield f"the places of {number} are {said}"
    for name, numbers_of in (("number 0, BAKEBUTTON_GOOD ", "GOOD"), ("number 100, BAKEBUTTON_ABORT ", "ABORT")):
        if HEADER.count(name) != 1 or list_of(name)[0] != defined(numbers_of):
            yield f"the comment on answers does not say {name.strip()}"
    if HEADER.count(f"number 1 to {count} ") != 1:
        yield f"the comment on answers does not say that refusals are 1 to {count}"
    weights = [int(n) for n in re.findall(r"unlike\(g\.[^)]*, (\d)\)", source("crates/run_copies/src/lib.rt"))]
    shift = re.search(r"^#define BAKEBUTTON_SITE_WEIGHT\(site\) \(1u << \(\(site\) - 1\)\)$", HEADER, re.M)
    if weights != [1, 2, 4] or not shift or HEADER.count("a sum of 1, 2 and 4 for sites 1, 2 and 3") != 1:
        yield f"the sites' weights are {weights}"

    yield from text_problems(table)

    fixed, order = orders()
    line = re.search(r"ORDER OF CHECKS, the same for every call on a circuit file or a job: ([\d, ]*),", HEADER)
    if not line or list_of(line.group(1)) != fixed:
        yield f"the order of checks of every call on a circuit file or a job is {fixed}"
    for name, call in promised():
        if call not in order or "bakebutton_" + name not in declared:
            yield f"the block of {call}, which bakebutton_{name} promises, or its declaration is not found"
            continue
        want = order[call]
        text = comment_before(declared["bakebutton_" + name].split("(")[0] + "(")
        said = re.search(r"Checks ((?:\d+, )*\d+)(?:; then (\d+) with place)?", text)
        have = list_of(said.group(1)) + ([int(said.group(2))] if said.group(2) else [])
        if have != want and name != "from_bristol":  # whose words are held above
            yield f"the comment on bakebutton_{name} says checks {have}, which are {want}"
        lent = re.findall(r"(?<!const )uint8_t \*(\w+)", declared["bakebutton_" + name])
        buffers = re.search(r"Lent: (.*?)(?:\.|;) ", re.sub(r" ?\([^)]*\)", "", text))
        listed = re.findall(r"(\d) (\w+)", buffers.group(1)) if buffers else []
        if [(str(k), which) for k, which in enumerate(lent)] != listed:
            yield f"the comment on bakebutton_{name} does not say that lent are {lent}"

    large = [int(n) for n in re.findall(r"if [igo] > (\d+)", source("crates/check_limits/src/lib.rt"))]
    if [defined("INPUTS_MAX"), defined("GATES_MAX"), defined("OUTPUTS_MAX")] != large:
        yield f"the limits are {large}"
    if flat(HEADER).count("({:,}; {:,}; {:,})".format(*large)) != 1:
        yield "the comment's table has other limits"
    kinds = {kind: pattern.count("suc") for pattern, kind in re.findall(r"^gate_of (\(suc.*\)|zero) a b = (\w+)", source("crates/theory_calls/specs/File.antt"), re.M)}
    for kind, number in kinds.items():
        if defined(kind) != number:
            yield f"{kind} is kind {number}"
    job = int(re.search(r"if n > (\d+)", source("crates/check_tests/src/lib.rt")).group(1))
    if defined("JOB_BYTES_MAX") != job:
        yield f"a job has at most {job} bytes"
    text_bytes = int(re.search(r"fn bakebutton_text_bytes.*?\{\n\s*(\d+)\n", source("crates/door/src/lib.rt"), re.S).group(1))
    if defined("TEXT_BYTES") != text_bytes:
        yield f"a listing is lent {text_bytes} bytes"

    size = lengths()
    own_names = {"inputs": "INPUTS", "tapes": "TAPES", "line": "LINE", "values": "VALUES", "outputs": "OPENED",
                 "transcript": "TRANSCRIPT", "store": "STORE", "view": "VIEW", "room": "ROOM"}
    members = [member.split()[1].split("[")[0] for member in given["bakebutton_sizes_answer"]][2:]
    if members != list(own_names):
        yield f"the lengths are of {members}"
    tries = [(i, g, o, a, own) for i in (0, 1, 7, large[0]) for g in (0, 1, 5, large[1]) for o in (0, 1, 3, large[2])
             for a in {0, g // 2, g} for own in {0, i // 3, i}]
    for member, name in own_names.items():
        for i, g, o, a, own in tries:
            have = macro(name + "_BYTES", inputs=i, gates=g, outputs=o, ands=a, own=own)
            if have != size[member](i, g, o, a, own):
                yield f"BAKEBUTTON_{name}_BYTES is {have} for {(i, g, o, a, own)}"
                break
        most = size[member](large[0], large[1], large[2], large[1], large[0])
        if defined(name + "_BYTES_MAX") != most:
            yield f"BAKEBUTTON_{name}_BYTES_MAX is not {most}"
    whole = re.search(r"if f\.length != (.*) \{", source("crates/file_header/src/lib.rt")).group(1)
    for field, letter in (("f.inputs", "i"), ("f.gates", "g"), ("f.outputs", "o")):
        whole = whole.replace(field, letter)
    for i, g, o, _, _ in tries:
        if macro("FILE_BYTES", inputs=i, gates=g, outputs=o) != eval(whole, {}, {"i": i, "g": g, "o": o}):
            yield f"BAKEBUTTON_FILE_BYTES is wrong for {(i, g, o)}"
            break
    if defined("FILE_BYTES_MAX") != eval(whole, {}, dict(zip("igo", large))):
        yield "BAKEBUTTON_FILE_BYTES_MAX is wrong"


def main():
    found = list(problems())
    for problem in found:
        print("header: " + problem)
    if found:
        sys.exit(1)
    print("header ok")


if __name__ == "__main__":
    main()
