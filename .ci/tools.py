"""Tries the commands of tools/ and the gate itself with wrong words, as a user may type them.

Every command: --help and -h print its help, and end with status 0. Unknown, empty and extra words, and files that cannot be read, end with
status 2 and one line on standard error that begins with the command's name, each cause with a line of its own; nothing is printed, and nothing
is done before: the kit's command is not called. Where the kit is missing, or does not prove, the status is 1.
"""

import os
import pathlib
import shutil
import subprocess
import sys
import tempfile

ROOT = pathlib.Path(__file__).resolve().parent.parent
WITHOUT_KIT = os.pathsep.join(place for place in os.environ["PATH"].split(os.pathsep) if not os.path.exists(os.path.join(place, "rt")))
K1 = ROOT / "crates" / "listing_program" / "stdin"
FAKE = """#!/bin/sh
[ "$1" != version ] || exec cat "$FAKE_KIT"
echo called >>"$FAKE_CALLS"
echo 'rt: chose --jobs 2 for theory_sharing'
echo 'logic=proved functions=0 sum=0 native=nat,char,string'
echo 'rt: chose --jobs 2 for theory_calls'
echo 'logic=not-proved'
echo 'rt: the library theory_calls did not build, so nothing above it was checked' >&2
exit "$FAKE_STATUS"
"""


def fail(text):
    print("tools: " + text)
    sys.exit(1)


class Tried:
    """Commands run in a folder of their own, with a kit's command that only notes that it was called, or with none."""

    def __init__(self, folder):
        self.folder = folder
        self.calls = folder / "calls"
        (folder / "bin").mkdir()
        (folder / "bin" / "rt").write_text(FAKE)
        (folder / "bin" / "rt").chmod(0o755)
        (folder / "a file").write_bytes(b"x")
        (folder / "secret").write_bytes(b"x")
        (folder / "secret").chmod(0)
        (folder / "a folder").mkdir()
        self.count = 0

    def run(self, command, words, stdin=subprocess.DEVNULL, status="1", kit=True):
        self.calls.unlink(missing_ok=True)
        path = os.pathsep.join([str(self.folder / "bin"), os.environ["PATH"]]) if kit else WITHOUT_KIT
        surroundings = dict(os.environ, PATH=path, FAKE_CALLS=str(self.calls), FAKE_STATUS=status, FAKE_KIT=str(ROOT / "KIT"))
        self.count += 1
        done = subprocess.run([str(ROOT / command), *words], cwd=self.folder, env=surroundings, stdin=stdin, capture_output=True, text=True)
        return done.returncode, done.stdout, done.stderr

    def helps(self, command):
        told = {self.run(command, [word]) for word in ("-h", "--help")}
        if len(told) > 1 or next(iter(told))[::2] != (0, "") or len(next(iter(told))[1]) < 200:
            fail(f"{command} --help: {told}")

    def refuses(self, command, cases):
        """Each case, words or words with a standard input, is refused with a line of its own."""
        name, lines = "gate" if command == ".ci/run" else command.split("/")[1], {}
        for case in cases:
            words, stdin = case if isinstance(case, tuple) else (case, subprocess.DEVNULL)
            status, out, said = self.run(command, words, stdin)
            if status != 2 or out or said.count("\n") != 1 or not said.startswith(name + ": "):
                fail(f"{command} {words}: status {status}, printed '{out}', said '{said}'")
            if self.calls.exists():
                fail(f"{command} {words}: the kit's command was called")
            if said in lines.values():
                fail(f"{command}: the same line for {words} and another: {said}")
            lines[str(case)] = said

    def fails(self, command, words, part, **how):
        status, _, said = self.run(command, words, **how)
        if status != 1 or part not in said:
            fail(f"{command} {words}: status {status}, said '{said}'")


def cases(folder, job, pipe, directory):
    """Wrong words by command. Files that root may read all the same are left out where we are root."""
    unreadable = [["secret"]] if os.geteuid() else []
    yield "tools/listing", [[""], ["--no"], ["-x"], ["missing"], ["a folder"], *unreadable, ["a file", "second"], ([], job), (["-"], directory)]
    yield "tools/listing", [([], pipe)]
    yield "tools/library", [[""], ["word"], ["--no"]]
    yield "tools/install", [[], [""], ["--no"], ["a file"], ["prefix", "second"]]
    yield "tools/install", [["a file/below"]]
    yield "tools/examples", [[""], ["word"], ["--no"]]
    yield "tools/benchmark", [[""], ["word"], ["--no"], ["instructions", "second"]]
    yield "tools/words", [[""], ["word"], ["5"], ["5", "x"], ["x", "5"], ["7?", "1"], ["5!", "1"], ["5", "1", "2"], ["write", "second"]]
    yield "tools/bakebutton", [[], [""], ["word"], ["--no"], ["check"], ["check", "missing"], ["check", "a folder"], ["check", "a file", "second"],
                               ["bristol", "a file", "--owners", "1,x"]]
    yield "tools/attack", [[], [""], ["nothing"], ["check_circuit", "neither"]]
    yield "tools/cc", [[], [""]]
    yield "tools/run86", [[], [""], ["--no"], ["missing"], ["a folder"], ["a file"]]
    yield ".ci/run", [[""], ["word"], ["--no"], ["kit", "layout"]]


def main():
    with tempfile.TemporaryDirectory() as name:
        folder = pathlib.Path(name)
        tried = Tried(folder)
        reading, writing = os.pipe()
        os.close(writing)
        with open(K1, "rb") as job, os.fdopen(reading) as pipe:
            directory = os.open(folder, os.O_RDONLY)
            commands = set()
            for command, wrong in cases(folder, job, pipe, directory):
                tried.helps(command)
                tried.refuses(command, wrong)
                commands.add(command)
            os.close(directory)
        every = {f"tools/{path.name}" for path in (ROOT / "tools").iterdir() if os.access(path, os.X_OK) and path.is_file()} | {".ci/run"}
        if every != commands:
            fail(f"not tried: {sorted(every ^ commands)}")

        job = str(K1)
        tried.fails("tools/listing", [job], "theory_calls is not proved")
        tried.fails("tools/listing", [job], "listing: 1 of ")
        tried.fails("tools/listing", [job], "could not tell", status="3")
        tried.fails("tools/listing", [job], "rt itself failed", status="2")
        tried.fails("tools/words", ["18", "0"], "no call answers")
        if all(shutil.which(need, path=WITHOUT_KIT) for need in ("sh", "bash", "env", "sed", "python3")):
            tried.fails("tools/listing", [job], "is not here", kit=False)
            tried.fails("tools/attack", ["check_circuit"], "is not here", kit=False)
            tried.fails(".ci/run", ["kit"], "is not here", kit=False)
    print(f"tools ok, {len(every)} commands, {tried.count} calls")


if __name__ == "__main__":
    main()
