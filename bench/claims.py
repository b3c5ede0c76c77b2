#!/usr/bin/env python3
"""Checks that what the documents claim of the sources is there.

usage: bench/claims.py
- A clause that docs/PROVED.md or README.md names, as in "`Runtime::save`, clauses `taken` and `err`", is an `ensures` of that
  function, or of one that is named before it in its paragraph or section.
- A name in backquotes is a function, a type, a field, a file, a flag or another word of the sources; of `Type::name` and
  `crate::name` the second is of the first.
- The comment at the head of a file of specs/ cites a heading that is there.
The status is 0 where all are there."""
import os
import re
import subprocess
import sys
from collections import defaultdict

ROOT = os.path.dirname(os.path.dirname(os.path.abspath(__file__)))
CLAIMING = ["docs/PROVED.md", "README.md"]
NAMING = [*CLAIMING, "docs/DEFINITIONS.md", "docs/ARCHITECTURE.md", "docs/EMBEDDING.md", "docs/INTERNALS.md"]
CODE = re.compile(r"`([^`]+)`")
NAME = re.compile(r"[A-Za-z_]\w*(?:::\w+)*")
LIST = r"(?:`[\w:]+`(?: of `\w+`)?(?:, and |, | and | with )?)+"
# Names after the word clause or premise; at the head of a sentence or of an item of a list, before a colon; and in parentheses.
CLAUSES = re.compile(rf"([Cc]lause|[Pp]remise)s? ({LIST})")
HEADED = re.compile(r"(?:^- |[.;] )((?:`\w+`(?:, | and ))*`\w+`):")
IN_PARENTHESES = re.compile(rf"\(({LIST})\)")
SUBJECT = re.compile(rf"({LIST})$")
# What a span that is no name has of names: flags, names of files, and words with an underscore.
NAMED = re.compile(r"--[a-z]\w*|[a-z]\w*_\w+\b(?!\()|^[\w-]+\.[a-z]+$")
# Names of others: those of rcheevos.
OTHERS = re.compile(r"rc_\w+|_lboard|_get_lboard|_richpresence|peek|serialize_progress")
# Files of specs/ that state no rule of a document: what values are seen as, and rows and numbers that hold them.
NO_RULE = (
    "ra_calls/specs/Choosing.antt", "ra_calls/specs/GameViews.antt", "ra_calls/specs/Owned.antt",
    "ra_calls/specs/RecordingViews.antt", "ra_calls/specs/Views.antt", "ra_chain/specs/Order.antt", "ra_memref/specs/Flags.antt",
    "ra_truths/specs/Packing.antt",
)

# Whose headings stand in the tables of docs/DEFINITIONS.md alone: to change a comment of a low crate proves every crate above it anew.
IN_TABLES = "crates/ra_progress/specs/"

FUNCTION = re.compile(r"^( *)(?:pub(?:\(\w+\))? )?(?:ghost )?(?:const )?(?:extern \"C\" )?fn (\w+)")
OWNER = re.compile(r"^(?:impl(?:<.*?>)? (?:([\w:]+)(?:<.*>)? for )?|(?:pub )?trait |(?:pub )?(?:enum|struct) )(\w+)")
CLAUSE = re.compile(r"^ *(ensures|requires) (?:(\w+) )?\{(.*)")
MEMBER = re.compile(r"^    (?:pub )?(?:const |ghost )?(\w+)")
RECORD = re.compile(r"(?m)^( *)(?:pub )?record (\w+).*((?:\n(?:\1 +.*)?)*)")
FIELD = re.compile(r"(?m)^ *(?:pub )?([\w-]+) :")
DEFINITION = re.compile(r"(?m)^ *(?:(?:pub|abbrev|opaque|unfoldable|data) )*([\w-]+)\b[^:\n]*:")
WORDY = (".rt", ".antt", ".h", ".c", ".py", ".sh", ".txt", ".edit", "Makefile", ".ci/run", "HANDLES")


def text_of(path):
    with open(f"{ROOT}/{path}", encoding="utf-8") as file:
        return file.read()


def tracked(*endings):
    listed = subprocess.run(["git", "ls-files"], cwd=ROOT, capture_output=True, text=True, check=True).stdout.split("\n")
    return [path for path in listed if path and path.endswith(endings)]


class Function:
    """A function of the sources: the crate and the type or trait that it is of, the trait that it implements, the names of
    its clauses and their words, and the names and words of its premises."""

    def __init__(self, crate, owner, trait, name):
        self.crate, self.owner, self.trait, self.name = crate, owner, trait, name
        self.clauses, self.premises, self.words = set(), set(), set()

    def is_of(self, places):
        return self.owner in places or self.crate in places

    def add(self, kind, name, text):
        words = re.findall(r"\w+", text)
        if kind == "requires":
            self.premises.update([name or "", *words])
        else:
            self.clauses.add(name or "")
            self.words.update(words)


class Sources:
    """What the sources define: functions by name, what stands in a type, a record or a crate, definitions, and all words."""

    def __init__(self):
        self.functions, self.methods, self.members = defaultdict(list), defaultdict(list), defaultdict(set)
        self.definitions, self.words = set(), set()
        for path in tracked(".rt"):
            self.read_code(path)
        for path in tracked(".antt"):
            self.read_definitions(text_of(path))
        for one in [one for functions in self.functions.values() for one in functions]:
            self.add_clauses(one)
        for path in tracked(*WORDY):
            self.words.update(words_of(path))
        for path in tracked(""):
            self.words.update(re.split(r"[/.]", path), [os.path.basename(path)])

    def read_code(self, path):
        """Notes what a file of code defines; rt fmt gives it its layout."""
        crate, owner, trait, function = path.split("/")[1], None, None, None
        for line in text_of(path).split("\n"):
            if line.startswith("}"):
                owner = trait = None
            elif found := OWNER.match(line):
                trait, owner = found.groups()
                self.members[crate].add(owner)
            elif found := FUNCTION.match(line):
                function = Function(crate, owner, trait, found[2])
                self.functions[found[2]].append(function)
                self.methods[owner].append(function)
                self.members[owner or crate].add(found[2])
            elif found := CLAUSE.match(line):
                function.add(*found.groups())
            elif owner and (found := MEMBER.match(line)):
                self.members[owner].add(found[1])

    def read_definitions(self, text):
        for _, name, fields in RECORD.findall(text):
            self.members[name].update(FIELD.findall(fields))
        self.definitions.update(DEFINITION.findall(RECORD.sub("", text)))

    def add_clauses(self, function):
        """Adds the clauses of the trait's method, and the fields of the records that the clauses say to hold."""
        if function.trait:
            function.clauses.update(*(of.clauses for of in self.functions[function.name] if of.owner == function.trait))
        function.clauses.update(*(self.members[word] for word in function.words if word in self.members and word not in self.functions))

    def resolve(self, name):
        """The functions that a name of a document may mean, all those of a type where it is one."""
        *first, last = name.split("::")
        found = [one for one in self.functions[last] if not first or first[-1] in (one.owner, one.crate, one.trait)]
        return found or self.methods[last]

    def is_known(self, name):
        """Whether a name is one of a function, a type, a crate or a definition."""
        return bool(self.resolve(name)) or name in self.members or name in self.definitions

    def lacks(self, name):
        """Whether a name is none of the sources, or in a path of names one is none of the one before it."""
        path = name.split("::")
        return name not in self.words and (path[0] not in self.words or any(two not in self.members[one] for one, two in zip(path, path[1:])))


def words_of(path):
    """The words of a file, without those of its comments where they are marked by // or --."""
    text = text_of(path)
    if path.endswith((".rt", ".antt", ".h", ".c")):
        text = re.sub(r"(?m)(^|\s)(//|--).*$", "", text)
    return [word for form in (r"\w+", r"[\w-]+", r"[\w.-]+", r"\w+(?:::\w+)+") for word in re.findall(form, text)]


def blocks(text):
    """Each paragraph, item of a list and row of a table on one line, with those before it in its section."""
    before, block = [], []
    for line in [*re.sub(r"(?ms)^```.*?^```", "", text).split("\n"), ""]:
        if block and re.match(r"\s*(- |\||#|$)", line):
            yield " ".join(block), " ".join(before)
            before.append(" ".join(block))
            block = []
        if line.startswith("#"):
            before = []
        elif line.strip():
            block.append(line.strip())


class Claims:
    """What one document claims of clauses, over the sources."""

    def __init__(self, sources, path):
        self.sources, self.path, self.found, self.wrong = sources, path, 0, []
        for block, before in blocks(text_of(path)):
            for found in CLAUSES.finditer(block):
                self.check(found[2], f"{before} {block[: found.start()]}", found[1].lower() == "premise")
            for found in HEADED.finditer(block):
                self.check(found[1], f"{before} {block[: found.start() + 2]}", True)
            for found in IN_PARENTHESES.finditer(block):
                self.check(found[1], f"{before} {block[: found.start()]}", True)

    def functions_in(self, text, around):
        """The functions that are named in a text, of the types and crates that are named around it where there are such."""
        found = []
        for name in filter(NAME.fullmatch, CODE.findall(text)):
            functions = self.sources.resolve(name)
            found += [one for one in functions if one.is_of(places_in(around))] or functions
        return found

    def check(self, text, before, may_be_other):
        """Notes each name of a text that is no clause of the functions right before it, else of those that its section names
        before it, and where it may be something else no premise of them and no other name either."""
        near = SUBJECT.search(before.rstrip(" ,"))
        functions = near and self.functions_in(near[1], before) or self.functions_in(before, before)
        if may_be_other:
            functions = functions + self.functions_in(f"{before} {text}", before)
        known = {name for one in functions for name in one.clauses | (one.premises if may_be_other else set())}
        for name in CODE.findall(text):
            if name in known:
                self.found += 1
            elif not (may_be_other and self.is_other(name, before)):
                of = ", ".join(dict.fromkeys(one.name for one in functions))
                self.wrong.append(f"{self.path}: no clause {name} of {of or 'a function that is named'}")

    def is_other(self, name, before):
        """Whether a name is known by itself; one short word is only a function of the types and crates that are named before it."""
        if re.fullmatch(r"[a-z]+", name):
            return any(one.is_of(places_in(before)) for one in self.sources.resolve(name))
        return self.sources.is_known(name)


def places_in(text):
    """The words in backquotes in a text, types and crates among them."""
    return set(re.findall(r"\w+", " ".join(CODE.findall(text))))


def wrong_names(sources, path):
    """The names in a document that are none of the sources. What its grammars and examples name is there."""
    text = text_of(path)
    shown = set(re.findall(r"\w+", " ".join(re.findall(r"(?m)^ {4}.*$", text))))
    for block, _ in blocks(text):
        for span in CODE.findall(block):
            for name in [span] if NAME.fullmatch(span) else NAMED.findall(span):
                if name not in shown and not OTHERS.fullmatch(name) and sources.lacks(name):
                    yield f"{path}: no {name} in the sources"


def wrong_heads():
    """The files of specs/ whose head cites no heading; that one which is cited is there is checked by links.py."""
    for path in tracked(".antt"):
        head = re.match(r"(--.*\n)*", text_of(path))[0]
        is_rule = "/specs/" in path and not path.endswith(("/Lib.antt", *NO_RULE))
        if is_rule and "docs/" not in head and not path.startswith(IN_TABLES):
            yield f"{path}: its head cites no heading"


def main():
    sources = Sources()
    claims = [Claims(sources, path) for path in CLAIMING]
    wrong = [*(line for one in claims for line in one.wrong), *(line for path in NAMING for line in wrong_names(sources, path)), *wrong_heads()]
    print("\n".join(dict.fromkeys(wrong)) if wrong else f"{sum(one.found for one in claims)} clauses, and all names and headings, are there")
    return 1 if wrong else 0


if __name__ == "__main__":
    sys.exit(main())
