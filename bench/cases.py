#!/usr/bin/env python3
"""Runs the cases of examples/cases: whole jobs of the built programs, each with what it must print and leave.

usage: bench/cases.py PLAYER AUTHOR [NAME..]
A case is a folder examples/cases/NAME. Its file args has the command line, one word a line, of which the first is the
program, ra_player or ra_author; stdout is what it must print, nothing where it is not there, and status its exit status,
0 where it is not there. All other files of the folder lie in the working folder. put/FILE is what FILE has to hold after
the run; every other file has to be as it was, and no other may be there. Prints how each failed case differs; the status
is 0 where none failed."""
import difflib
import os
import subprocess
import sys
import tempfile

CASES = os.path.join(os.path.dirname(os.path.dirname(os.path.abspath(__file__))), "examples", "cases")
OWN_FILES = ("args", "stdout", "status")
SECONDS = 60
MOST_LINES = 20


def files_of(folder):
    """The files of a folder, without those of the folders in it: their content by name."""
    found = {}
    for entry in os.scandir(folder) if os.path.isdir(folder) else []:
        if entry.is_file():
            with open(entry.path, "rb") as file:
                found[entry.name] = file.read()
    return found


class Case:
    """One folder of examples/cases."""

    def __init__(self, name):
        folder = f"{CASES}/{name}"
        files = files_of(folder)
        self.program, *self.words = files["args"].split(b"\n")[:-1]
        self.stdout, self.status = files.get("stdout", b""), int(files.get("status", b"0"))
        self.before = {file: content for file, content in files.items() if file not in OWN_FILES}
        self.after = {**self.before, **files_of(f"{folder}/put")}

    def run(self, programs):
        """Runs the case in a folder of its own, and returns how what it gives differs from what it must give."""
        with tempfile.TemporaryDirectory() as folder:
            for name, content in self.before.items():
                with open(f"{folder}/{name}", "wb") as file:
                    file.write(content)
            words = [programs[self.program], *self.words]
            try:
                ran = subprocess.run(words, cwd=folder, stdin=subprocess.DEVNULL, capture_output=True, timeout=SECONDS, check=False)
            except subprocess.TimeoutExpired:
                return [f"had not ended after {SECONDS} seconds"]
            after = files_of(folder)
        differences = [] if ran.returncode == self.status else [f"status {ran.returncode}, not {self.status}", *shown(ran.stderr)]
        differences += compared("stdout", self.stdout, ran.stdout)
        for name in sorted({*self.after, *after}):
            differences += compared(name, self.after.get(name), after.get(name))
        return differences


def shown(content):
    return content.decode(errors="backslashreplace").splitlines()


def compared(name, wanted, given):
    """How two contents of a file differ, in lines; None is a file that is not there."""
    if wanted == given:
        return []
    if wanted is None or given is None:
        return [f"{name}: {'was not put' if given is None else 'is there, and should not be'}"]
    lines = [*difflib.unified_diff(shown(wanted), shown(given), "wanted", "given", n=1, lineterm="")][2:]
    return [f"{name}:", *(lines[:MOST_LINES] or ["only the ends of its lines differ"])]


def main(player, author, *names):
    programs = {b"ra_player": os.path.abspath(player), b"ra_author": os.path.abspath(author)}
    names = names or sorted(os.listdir(CASES))
    failed = 0
    for name in names:
        differences = Case(name).run(programs)
        if differences:
            failed += 1
            print("\n    ".join([f"{name}:", *differences]))
    print(f"{len(names)} cases, {failed} failed")
    return 1 if failed else 0


if __name__ == "__main__":
    if len(sys.argv) < 3:
        print(__doc__, file=sys.stderr)
        sys.exit(2)
    sys.exit(main(*sys.argv[1:]))
