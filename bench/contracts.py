"""The types, traits and clauses of .rt files, as far as a clause names them.

used by bench/believe.py
A file is cut into items by its brackets; a type's name is placed by the `use` lines of its module, as Rust does."""
import os
import re
from collections import namedtuple

HIDDEN = re.compile(r"""//[^\n]*|/\*.*?\*/|b?"(?:\\.|[^"\\])*"|b?'(?:\\(?:x..|u\{[^}]*\}|.)|[^'\\\n])'""", re.S)
HEAD = re.compile(
    r"(?:pub(?:\([^)]*\))?\s+)?(?:unsafe\s+|const\s+(?=fn)|extern\s+)*"
    r"(ghost use|ghost|fn|struct|enum|trait|impl|mod|use|type|const|static|\w+!)\s*([\w«»]*)"
)
CLAUSE = re.compile(r"(ghost|requires\*?|ensures\*?)(?:\s+([\w«»]+):?)?\s*\{")
PAIRS = {"(": ")", "[": "]", "{": "}"}
PATH = re.compile(r"(?<![\w'])[A-Za-z_]\w*(?:::[A-Za-z_]\w*)*")
# Words of types that stand for themselves, and names of std that need no `use` line.
PLAIN = set("char str bool f32 f64 Self mut dyn impl fn for as const where pub crate super".split())
PLAIN |= {f"{sign}{width}" for sign in "iu" for width in ("8", "16", "32", "64", "128", "size")}
STD = set("Vec Option Result String Box Some None Ok Err Iterator IntoIterator Drop Copy Clone Into From Fn FnMut".split())
STD |= set("FnOnce Send Sized Default PartialEq Eq PartialOrd Ord Hash usize u64 u32 u16 u8".split())

# An item: what it is, its name, where it stands in the text, its head, its clauses and the items in its braces.
Item = namedtuple("Item", "kind name start end head clauses body inner")
Clause = namedtuple("Clause", "kind name text first last")


def masked(text):
    """The text with blanks for comments and quoted texts."""
    return HIDDEN.sub(lambda found: re.sub(r"[^\n]", " ", found[0]), text)


def closing(shown, place):
    """The place after the bracket that closes the one here."""
    depth = 0
    for at in range(place, len(shown)):
        depth += (shown[at] in PAIRS) - (shown[at] in PAIRS.values())
        if depth == 0:
            return at + 1
    raise ValueError("a bracket that nothing closes")


def next_of(shown, place, pattern):
    """The first match outside of round and square brackets."""
    while place < len(shown):
        found = pattern.match(shown, place)
        if found:
            return found
        place = closing(shown, place) if shown[place] in "([" else place + 1
    return None


class File:
    """A source file, and what stands in it."""

    def __init__(self, path, crate, module):
        with open(path, encoding="utf-8") as it:
            self.text = it.read()
        self.path, self.crate, self.module = path, crate, module
        self.lines, self.shown = self.text.split("\n"), masked(self.text)
        self.items = list(self.cut(0, len(self.text)))

    def line(self, place):
        return self.text.count("\n", 0, place) + 1

    def cut(self, place, end):
        """The items between two places; those that hold for tests alone are left out."""
        is_test = False
        while place < end:
            if self.shown[place].isspace():
                place += 1
            elif self.shown[place] == "#":
                after = closing(self.shown, self.shown.index("[", place))
                is_test = is_test or "test" in self.shown[place:after]
                place = after
            else:
                item, place = self.item(place)
                if item and not is_test:
                    yield item
                is_test = False

    def item(self, place):
        found = HEAD.match(self.shown, place)
        if not found:
            return None, place + 1
        kind = found[1]
        if kind == "fn":
            return self.function(place, found)
        stop = ";" if kind in ("ghost use", "ghost", "use", "const", "static") else "{;"
        end = found.end(1)
        while self.shown[end] not in stop:
            end = closing(self.shown, end) if self.shown[end] in PAIRS else end + 1
        after = closing(self.shown, end) if self.shown[end] == "{" else end + 1
        inner = list(self.cut(end + 1, after - 1)) if kind in ("trait", "impl") else []
        return self.made(kind, found[2], place, after, end, [], (end + 1, after - 1), inner), after

    def function(self, place, found):
        clauses, head_end = [], None
        at = closing(self.shown, self.shown.index("(", found.end()))
        while True:
            part = next_of(self.shown, at, re.compile(CLAUSE.pattern + r"|[{;]"))
            head_end = head_end or part.start()
            if not part[1]:
                break
            at = closing(self.shown, part.end() - 1)
            span = (part.end(), at - 1)
            clauses.append(Clause(part[1], part[2], self.text[slice(*span)], self.line(part.start()), self.line(at)))
        after = closing(self.shown, part.start()) if part[0] == "{" else part.end()
        return self.made("fn", found[2], place, after, head_end, clauses, (part.start(), after), []), after

    def made(self, kind, name, place, after, head_end, clauses, body, inner):
        return Item(kind, name, place, after, self.shown[place:head_end], clauses, body, inner)

    def ghost(self, item):
        """The term in the braces of a ghost line, and its first line."""
        start = self.shown.index("{", item.start) + 1
        return self.text[start : self.shown.rindex("}", start, item.end)], self.line(start)

    def comment(self, line):
        """The comment lines above a line, past its attributes."""
        at = line - 2
        while at >= 0 and self.lines[at].strip().startswith(("#[", "//")):
            at -= 1
        return [it.strip() for it in self.lines[at + 1 : line - 1] if it.strip().startswith("//")]

    def uses(self):
        """The names that the `use` lines bring, each with its path."""
        for item in self.items:
            if item.kind == "use":
                text = re.sub(r"^\s*(pub(\([^)]*\))?\s+)?use\s+", "", item.head)
                yield from leaves(text.strip(), [])


    def segments(self, item):
        """Where the parts of an item's braces or brackets stand: its fields or variants."""
        start, end = item.body
        for part in spans(self.shown[start:end]):
            yield start + part[0], start + part[1]


def leaves(text, front):
    """The names of a `use` tree, each with its path."""
    brace = text.find("{")
    if brace >= 0:
        front = front + [part for part in text[:brace].split("::") if part]
        for part in parts(text[brace + 1 : text.rindex("}")]):
            yield from leaves(part, front)
    elif text:
        path, _, name = text.partition(" as ")
        path = front + [part.strip() for part in path.split("::")]
        path = path[:-1] if path[-1] == "self" else path
        yield name.strip() or path[-1], path


def spans(text):
    """Where the parts of a list stand that commas outside of brackets cut."""
    depth, start = 0, 0
    for at, letter in enumerate(text + ","):
        depth += (letter in "([{<") - (letter in ")]}" or letter == ">" and text[at - 1] not in "-=")
        if letter == "," and depth == 0:
            if text[start:at].strip():
                yield start + len(text[start:at]) - len(text[start:at].lstrip()), at
            start = at + 1


def parts(text):
    return [text[start:end].strip() for start, end in spans(text)]


def generics(head):
    """The type parameters of an item's head, each with its bounds."""
    found = re.search(r"\b(?:impl|(?:struct|enum|trait|type|fn)\s+\w+)\s*<", head)
    if not found:
        return {}
    start, depth, at = found.end(), 1, found.end()
    while depth:
        depth += (head[at] == "<") - (head[at] == ">" and head[at - 1] != "-")
        at += 1
    names = {}
    for part in parts(head[start : at - 1]):
        name, _, bound = part.partition(":")
        if not name.startswith("'"):
            names[re.sub(r"^const\s+", "", name).strip()] = PATH.findall(bound)
    return names


def parameters(head):
    """The parameters of a function: their names, and the text of their types and of the result's."""
    start = head.index("(", head.index("fn "))
    end = closing(head, start)
    names, types = [], [head[end:]]
    for part in parts(head[start + 1 : end - 1]):
        name, colon, kind = part.partition(":")
        names += re.findall(r"\w+", name)
        types.append(kind)
    return names, types


def type_paths(text):
    """The paths of the types in a text."""
    return [path for path in PATH.findall(text) if path not in PLAIN]


class Crate:
    """The source files of a crate, by their modules."""

    def __init__(self, root, name):
        self.name, self.folder, self.modules = name, f"{root}/crates/{name}/src", {}
        top = "lib" if os.path.exists(f"{self.folder}/lib.rt") else "main"
        self.add(f"{self.folder}/{top}.rt", ())

    def add(self, path, module):
        file = self.modules[module] = File(path, self.name, module)
        for item in file.items:
            below = f"{self.folder}/{'/'.join(module + (item.name,))}"
            if item.kind == "mod":
                for place in (f"{below}.rt", f"{below}/mod.rt", f"{below}/lib.rt"):
                    if os.path.exists(place):
                        self.add(place, module + (item.name,))

    def files(self):
        return self.modules.values()

    def implementations(self, name):
        """The blocks of the crate that make a type a model, with their files."""
        for file in self.files():
            for item in file.items:
                if item.kind == "impl" and re.search(rf"\bModel\s+for\s+{name}\b", item.head):
                    yield file, item
