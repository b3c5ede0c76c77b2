"""The worked examples at the end of docs/MEANING.md.

bench/worked.txt has an introduction, and for each example a line "case: FOLDER TITLE" and then its steps. FOLDER is one of
examples/cases, where bench/cases.py checks that the player prints its stdout. What stands in backquotes in the steps is the next
line of stdout or a name of a definition of the page, and each line of stdout has to come. A progress file of a case is one
that an earlier case puts."""
import pathlib
import re
import subprocess

import antt
from library import ROOT

TEXTS = pathlib.Path(ROOT, "bench", "worked.txt")
CASES = pathlib.Path(ROOT, "examples", "cases")
TITLE = "Worked examples"
QUOTED = re.compile(r"`([^`]+)`")


class Example:
    """A case with its title and its steps."""

    def __init__(self, text):
        head, _, steps = text.partition("\n")
        name, _, self.title = head.partition(" ")
        self.name, self.steps, self.folder = name, steps.strip(), CASES / name

    def text_of(self, file):
        return (self.folder / file).read_text(encoding="utf-8")

    def fail(self, why):
        raise antt.Unplaced(f"bench/worked.txt: {self.name}: {why}")

    def check(self, names, saved):
        """It fails where the steps do not lead to what is printed, or the files are not those of each other; `saved` has the
        progress files that were put so far."""
        lines = self.text_of("stdout").splitlines()
        for quoted in QUOTED.findall(self.steps):
            if lines and quoted == lines[0]:
                del lines[0]
            elif quoted not in names:
                self.fail(f"{quoted} is neither the next line that is printed nor a name of the page")
        if lines:
            self.fail(f"no step says {lines[0]}")
        made = subprocess.run([f"{ROOT}/examples/trace.py", "write", self.folder / "trace.txt", "-"], capture_output=True, check=True)
        if made.stdout != (self.folder / "trace").read_bytes():
            self.fail("trace.txt is another trace")
        if not saved.issuperset(map(pathlib.Path.read_bytes, self.folder.glob("progress"))):
            self.fail("no example before it puts this progress file")
        saved.update(map(pathlib.Path.read_bytes, self.folder.glob("put/progress")))

    def page(self):
        words = " ".join(self.text_of("args").split("\n")).strip()
        return [f"### {self.title}", f"`{words}`, in `examples/cases/{self.name}`. The set, the trace, and what is printed:",
                *(f"```text\n{self.text_of(file).strip()}\n```" for file in ("set", "trace.txt", "stdout")), self.steps]


def names_of(order):
    """The names of the page: those of its definitions, and of the constructors of its types."""
    return {shown.name for shown in order} | {part.constructor for shown in order for part in shown.parts}


def chapter(order):
    """The paragraphs of the chapter, of a page with these definitions."""
    head, *texts = re.split(r"(?m)^case: ", TEXTS.read_text(encoding="utf-8"))
    parts, names, saved = [f"## {TITLE}", head.strip()], names_of(order), set()
    for example in map(Example, texts):
        example.check(names, saved)
        parts += example.page()
    return parts
