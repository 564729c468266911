"""Tries each wrong program, and reads what the checker says of it.

    python3 -B .ci/wrong.py             all wrong programs
    python3 -B .ci/wrong.py CRATE..     those of some crates

`rt ci` sees that the checker refuses each; what it said of it is gone then, so it is asked here once more, in copies. A wrong program must be
refused at a fact: its first error is a statement that does not hold, or that nothing proves any more. Where it is a name that is missing, a field
that is not there or a declaration that waits for another, the edit broke the proof file and says nothing about the program.

What the checker said is kept in target/must-fail/CRATE/EDIT.log.
"""

import os
import pathlib
import re
import shutil
import subprocess
import sys
import tempfile
from concurrent.futures import ThreadPoolExecutor

sys.dont_write_bytecode = True  # nothing is written beside the sources

import layout  # noqa: E402

ROOT = pathlib.Path(__file__).resolve().parent.parent
LOGS = ROOT / "target" / "must-fail"
UNFIT = ("that can be named from here", "is not in scope", "has no field", "has no `", "was not admitted", "is a declared record",
         "expected type `goal.", "no occurrence of the path")
# Not among them: "no equation of the list has an instance in the goal". The goal is then the fact, which lost what its proof rewrites by: a limit, a
# comparison.
UNPROVED = "it is not proved that"  # of a function whose goal is answered nowhere: nothing was found
MEMORY = 4_000_000_000  # for one check


def first_error(log):
    """The message of the first error, or of the first note on a goal that nothing proves."""
    error = re.search(r"^\S+?:\d+:\d+: error: (.*)$", log, re.M)
    note = re.search(rf"^note: \S+?:\d+:\d+: ({UNPROVED}.*)$", log, re.M)
    return error.group(1) if error else note.group(1) if note else ""


def edits(crate):
    return sorted((ROOT / "crates" / crate / "must-fail").glob("*.edit"))


def rt(words, folder):
    done = subprocess.run(["rt", *words], cwd=folder, stdin=subprocess.DEVNULL, stdout=subprocess.PIPE, stderr=subprocess.STDOUT, text=True, errors="replace")
    return done.returncode, done.stdout


def changed(edit, base):
    """The files that an edit changes, with their texts before and behind it."""
    was, now, path, old = {}, {}, None, ""
    for key, value in layout.PART.findall(edit.read_text()):
        if key == "file":
            path = base / value.strip()
            now.setdefault(path, was.setdefault(path, path.read_text()))
        elif key == "old":
            old = value
        else:
            now[path] = now[path].replace(old, value)
    return was, now


def tried(crate):
    """What is wrong with a crate's wrong programs, each checked in a copy."""
    with tempfile.TemporaryDirectory() as folder:
        shutil.copy(ROOT / "crates.txt", folder)
        shutil.copytree(ROOT / "crates", f"{folder}/crates", ignore=shutil.ignore_patterns("out", "must-fail"))
        base = pathlib.Path(folder, "crates", crate)
        for edit in edits(crate):
            was, now = changed(edit, base)
            for path, text in now.items():
                path.write_text(text)
            status, said = rt(["check", "--jobs", "1"], base)
            for path, text in was.items():
                path.write_text(text)
            (LOGS / crate).mkdir(parents=True, exist_ok=True)
            (LOGS / crate / f"{edit.stem}.log").write_text(said)
            first = first_error(said)
            if status == 0:
                yield f"{crate}/{edit.stem} is proved"
            elif status != 1 or not first or any(words in first for words in UNFIT):
                yield f"{crate}/{edit.stem} is refused, but not at a fact: {first or 'nothing is said'} (status {status})"


def at_once():
    """How many checks the processors and the memory hold."""
    free = int(re.search(r"^MemAvailable: +(\d+) kB$", pathlib.Path("/proc/meminfo").read_text(), re.M).group(1)) * 1024
    return max(1, min(len(os.sched_getaffinity(0)), free // MEMORY))


def problems(words):
    crates = [path.name for path in sorted((ROOT / "crates").iterdir()) if edits(path.name) and (not words or path.name in words)]
    if not crates or set(words) - set(crates):
        yield f"there is no wrong program{' of ' + ', '.join(sorted(set(words) - set(crates))) if words else ''}"
        return
    # The copies take the crates below from here, and begin with what is proved here.
    for given, folder in [(["check"], ROOT / "crates" / crate) for crate in crates] if words else [(["all", "check"], ROOT)]:
        status, said = rt(given, folder)
        if status:
            yield f"the crates are not proved as they stand: rt {' '.join(given)} in {folder.relative_to(ROOT) if words else 'the top folder'}\n{said[-1000:]}"
            return
    shutil.rmtree(LOGS, ignore_errors=True)
    crates.sort(key=lambda crate: -len(edits(crate)))
    with ThreadPoolExecutor(at_once()) as pool:
        for found in pool.map(lambda crate: list(tried(crate)), crates):
            yield from found
    print(f"wrong: tried {sum(len(edits(crate)) for crate in crates)} wrong programs", flush=True)


def main(words):
    found = list(problems(words))
    for problem in found:
        print("wrong: " + problem)
    if found:
        sys.exit(1)
    print("wrong ok, each refused at a fact")


if __name__ == "__main__":
    main(sys.argv[1:])
