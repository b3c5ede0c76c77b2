"""All definitions of the crates by their keys, and what each names.

used by bench/believe.py
A key is the path of a file below crates/ and a name in it, as `ra_text/specs/Form.antt Form`; of a struct with a model
the key alone is its value, and ` inside` and ` view` after it are its fields and the view of them. The key of a name of
the kit begins with `kit `."""
import os
import re

import antt
import contracts

ROOT = os.path.dirname(os.path.dirname(os.path.abspath(__file__)))


class Part:
    """A part of a definition: its lines, what its left side names if it is a case, and what it names in all."""

    def __init__(self, lines, targets, left=(), constructor=None):
        self.lines, self.targets, self.left, self.constructor = lines, targets, left, constructor


class Shown:
    """A definition as it is printed."""

    def __init__(self, key, line, comment, around, parts):
        self.key, self.line, self.comment, self.around, self.parts = key, line, comment, around, parts
        self.path, self.name = key.split(" ", 1)

    def crate(self):
        return self.path.split("/")[0]

    def targets(self):
        return [target for part in self.parts for target in part.targets]

    def text(self):
        return self.around + [line for part in self.parts for line in part.lines]

    def count(self):
        return sum(bool(line.strip()) and not line.strip().startswith(("--", "//")) for line in self.text())


class SpecFile:
    """A file of specs/: its comment, its definitions, and what its names stand for."""

    def __init__(self, path, library):
        with open(f"{ROOT}/crates/{path}", encoding="utf-8") as it:
            text = it.read()
        self.path, self.lines = path, text.split("\n")
        self.header, self.definitions = antt.declarations(antt.tree(antt.tokens(text)))
        self.library, self.imported, self.own = library, None, {}
        for definition in self.definitions:
            self.own.update(self.names(definition))

    def names(self, definition):
        """The names that a definition declares, constructors first."""
        key = f"{self.path} {definition.name}"
        found = {name: antt.Target(key, name) for name in definition.constructors()}
        return {**found, definition.name: antt.Target(key, None)}

    def scope(self, definition):
        """The names that a definition sees: what the file imports, and what it declares up to there."""
        if self.imported is None:
            self.imported = antt.Scope(f"crates/{self.path}", self.library)
            for line in self.header:
                if line[0].text == "use":
                    self.imported.use(line)
        found = self.imported.copy()
        for earlier in self.definitions[: self.definitions.index(definition) + 1]:
            for name, target in self.names(earlier).items():
                found.add(name, target)
        return found

    def export(self, name):
        """What a name of this file stands for to others."""
        if name in self.own:
            return self.own[name]
        for line in self.header:
            for found, path, is_item in antt.imports(line) if line[0].text == "use" else ():
                if found == name and is_item:
                    return self.library.item(path)
        raise antt.Unplaced(f"crates/{self.path}: no {name}")

    def shown(self, name):
        definition = next(it for it in self.definitions if it.name == name)
        around, pieces = antt.Reader(self.scope(definition)).definition(definition)
        first, parts, last = definition.pieces[0].first, [], definition.pieces[0].first - 1
        for piece, left, targets in pieces:
            lines = self.lines[last : piece.last]
            name = piece.name if piece.kind == "constructor" else None
            parts.append(Part([line for line in lines if line.strip()], targets, left, name))
            last = max(last, piece.last)
        parts[0].targets = around + parts[0].targets
        module = [self.module_line(telescope) for telescope in definition.around]
        return Shown(f"{self.path} {definition.name}", first, self.comment(first), module, parts)

    def module_line(self, telescope):
        first, last = telescope[0].line, antt.last_line(list(telescope))
        return "\n".join(self.lines[first - 1 : last])

    def comment(self, line):
        """The comment lines above a line, past the line of an operator's fixity."""
        at = line - 2
        while self.lines[at].startswith(antt.FIXITIES):
            at -= 1
        end = at + 1
        while at >= 0 and self.lines[at].strip().startswith("--"):
            at -= 1
        return [line.strip() for line in self.lines[at + 1 : end]]

    def heading(self):
        end = next(at for at, line in enumerate(self.lines) if not line.startswith("--"))
        return headings(" ".join(line[2:].strip() for line in self.lines[:end]))


def headings(comment):
    """The headings of docs/DEFINITIONS.md that a comment names."""
    found = re.search(r'docs/DEFINITIONS\.md,((?:[^."]|\.(?! )|"[^"]*")*)', comment)
    return re.findall(r'"([^"]+)"', found[1]) if found else []


class Library:
    """All crates, and what a path names in them."""

    def __init__(self):
        with open(f"{ROOT}/crates.txt", encoding="utf-8") as lines:
            self.needs = {line.split(":")[0].split()[0]: line.split(":")[1].split() for line in lines if line.strip()}
        self.specs, self.crates, self.known, self.depths = {}, {}, {}, {}

    def depth(self, crate):
        """How many crates stand below a crate, one on the other."""
        if crate not in self.depths:
            self.depths[crate] = max((1 + self.depth(it) for it in self.needs[crate] if it in self.needs), default=0)
        return self.depths[crate]

    def crate(self, name):
        if name not in self.crates:
            self.crates[name] = contracts.Crate(ROOT, name)
        return self.crates[name]

    def spec(self, path):
        if path not in self.specs:
            self.specs[path] = SpecFile(path, self) if os.path.exists(f"{ROOT}/crates/{path}") else None
        return self.specs[path]

    def item(self, path):
        """What an item's path stands for: one of the kit, of src/ or of specs/."""
        if path[0] == "package":
            path = path[1:]
        if path[0] != "Rattle" or path[1] not in self.needs:
            return antt.Target("kit " + ".".join(path[1:] if path[0] == "Rattle" else path), None)
        if path[3] == "contracts":
            return antt.Target("kit " + ".".join(path[1:]), None)
        if path[3] == "declared":
            return self.declared(path[1], path[4:])
        spec = self.spec(f"{path[1]}/specs/{'/'.join(path[3:-1])}.antt")
        if spec is None:
            raise antt.Unplaced(".".join(path))
        return spec.export(path[-1])

    def declared(self, crate, path):
        """What a path below `specs.declared` stands for: a type of src/, its variant, or its fields."""
        at = next(place for place, word in enumerate(path) if word[0].isupper())
        file = self.crate(crate).modules.get(tuple(path[:at]))
        key = file and self.type_key(file, path[at])
        if key is None:
            raise antt.Unplaced(f"{crate}: {'.'.join(path)}")
        if path[at + 1] == "TheInside":
            return antt.Target(f"{key} inside", None)
        return antt.Target(key, path[at + 2] if path[at + 1] == "TheVariants" else None)

    def type_key(self, file, name):
        kinds = ("struct", "enum", "trait", "type", "const", "static")
        if any(item.name == name and item.kind in kinds for item in file.items):
            return f"{os.path.relpath(file.path, ROOT + '/crates')} {name}"
        return None

    def member(self, target, word):
        """What stands behind the dot after a name: a constructor of a type, or a field."""
        if target.key.startswith("kit ") or target.constructor:
            return target
        return antt.Target(target.key, word) if word in self.constructors(target.key) else target

    def constructors(self, key):
        path, name = key.split(" ", 1)
        if path.endswith(".antt"):
            return [it for found in self.spec(path).definitions if found.name == name for it in found.constructors()]
        file, item = self.source(key)
        return [file.shown[start:end].split("(")[0].split()[0] for start, end in file.segments(item)] if item.kind == "enum" else []

    def source(self, key):
        """The file and the item of a type of src/."""
        path, name = key.split(" ")[:2]
        file = next(file for file in self.crate(path.split("/")[0]).files() if file.path.endswith(path))
        return file, next(item for item in file.items if item.name == name and item.kind not in ("mod", "impl", "fn"))

    def other(self, scope, words):
        """What a name of a clause stands for by the `use` lines of Rust, or a path that is written whole."""
        if words[0] in ("Rattle", "package") and len(words) > 1:
            return self.item(words)
        file = getattr(scope, "file", None)
        target = file and self.rust(file, [words[0]])
        return self.member(target, words[1]) if target and len(words) > 1 else target

    def rust(self, file, path):
        """What a path of Rust stands for, seen from a file."""
        crate = self.crate(file.crate)
        key = self.type_key(file, path[0])
        if key:
            return antt.Target(key, None)
        if path[0] in ("crate", "self", "super") or file.module + (path[0],) in crate.modules:
            front = {"crate": (), "self": file.module, "super": file.module[:-1]}
            return self.below(crate, front.get(path[0], file.module + (path[0],)), path[1:])
        if path[0] in self.needs:
            return self.below(self.crate(path[0]), (), path[1:])
        used = dict(file.uses()).get(path[0])
        if used and used != path:
            return self.rust(file, used + path[1:])
        if path[0] in contracts.STD:
            return antt.Target("kit std." + ".".join(path), None)
        if used or path[0] == "std" or path[0] in self.needs[file.crate]:
            return antt.Target("kit " + ".".join(path), None)
        return None

    def below(self, crate, module, path):
        while len(path) > 1 and module + (path[0],) in crate.modules:
            module, path = module + (path[0],), path[1:]
        return self.rust(crate.modules[module], path) if path else None

    def shown(self, key):
        if key not in self.known:
            path, name = key.split(" ", 1)
            self.known[key] = self.spec(path).shown(name) if path.endswith(".antt") else Source(self, key, *self.source(key)).shown()
        return self.known[key]

    def has_view(self, key):
        """Whether a key is that of a struct with a model."""
        path, _, name = key.partition(" ")
        return not path.endswith(".antt") and any(self.crate(path.split("/")[0]).implementations(name))

    def heading(self, shown):
        """The headings that a definition's file names, or else the tables of docs/DEFINITIONS.md for it."""
        if shown.path.endswith(".antt"):
            return self.spec(shown.path).heading() or self.rows(shown.path)
        return headings(" ".join(line.lstrip("/ ") for line in shown.comment))

    def rows(self, path):
        with open(f"{ROOT}/docs/DEFINITIONS.md", encoding="utf-8") as lines:
            return [line[3:].split("]")[0] for line in lines if line.startswith("| [") and f"`{path}`" in line]


class Source:
    """What a type or trait of src/ shows to clauses."""

    def __init__(self, library, key, file, item):
        self.library, self.key, self.file, self.item = library, key, file, item

    def scope(self, inner=()):
        """The names of a clause of this file, with those of the block that it stands in."""
        scope = antt.Scope(os.path.relpath(self.file.path, ROOT), self.library)
        scope.file = self.file
        for item in [*self.file.items, *inner]:
            if item.kind == "ghost use":
                line = antt.tree(antt.tokens(self.file.text[item.start : item.end - 1], self.file.line(item.start)))
                scope.use(line[1:])
        return scope

    def types(self, text, own=()):
        """The targets of the types that a text names."""
        found = []
        for path in contracts.type_paths(text):
            names = path.split("::")
            if names[0] not in own:
                target = self.library.rust(self.file, names)
                if target is None:
                    raise antt.Unplaced(f"{self.file.path}: {path}")
                found.append(target)
        return found

    def terms(self, texts, scope, bound):
        """The targets of antt terms, each with its first line."""
        reader = antt.Reader(scope)
        for text, line in texts:
            reader.term(antt.tree(antt.tokens(text, line)), bound)
        return reader.found

    def lines(self, start, end):
        first, last = self.file.line(start), self.file.line(end - 1)
        return [line for line in self.file.lines[first - 1 : last] if line.strip()]

    def shown(self):
        first = self.file.line(self.item.start)
        model = next(self.library.crate(self.file.crate).implementations(self.item.name), None)
        if self.key.endswith(" view"):
            parts = [self.members(model, ("view", "invariant"))]
        elif self.item.kind == "struct" and model and not self.key.endswith(" inside"):
            parts = [Part([self.file.lines[first - 1].rstrip(" {") + " { .. }"], []), self.members(model, ("Value",))]
        else:
            parts = getattr(self, self.item.kind)()
        return Shown(self.key, first, self.file.comment(first), [], parts)

    def members(self, model, names):
        """The members of a model that have these names."""
        file, block = model
        here = Source(self.library, self.key, file, self.item)
        ghosts = [item for item in block.inner if item.kind == "ghost" and item.name in names]
        targets = here.terms([file.ghost(item) for item in ghosts], here.scope(block.inner), set(contracts.generics(block.head)))
        inside = [antt.Target(f"{self.key.split(' view')[0]} inside", None)] if "view" in names else []
        return Part([line for item in ghosts for line in here.lines(item.start, item.end)], targets + inside)

    def enum(self):
        own = contracts.generics(self.item.head)
        at, parts = self.file.line(self.item.start), []
        parts.append(Part(self.file.lines[at - 1 : at], []))
        for start, end in self.file.segments(self.item):
            last = self.file.line(end)
            text = self.file.shown[start:end]
            name = re.match(r"\w+", text)[0]
            fields = re.sub(r"\b\w+\s*:(?!:)", "", text[len(name) :])
            lines = [line for line in self.file.lines[at:last] if line.strip()]
            parts.append(Part(lines, self.types(fields, own), (), name))
            at = last
        parts.append(Part(self.lines(self.item.end - 1, self.item.end), []))
        return parts

    def struct(self):
        own, targets = contracts.generics(self.item.head), []
        if self.file.shown[self.item.end - 1] == ";":
            targets = self.types(re.sub(r".*?struct\s+\w+(<[^>]*>)?", "", self.file.shown[self.item.start : self.item.end], 1), own)
            return [Part(self.lines(self.item.start, self.item.end), targets)]
        ghosts, bound = [], set(own)
        for start, end in self.file.segments(self.item):
            text = self.file.shown[start:end]
            ghost = re.match(r"(?:pub\s+)?ghost\s+\w+\s*:\s*\{", text)
            name, _, kind = text.partition(":")
            bound.add(name.split()[-1])
            if ghost:
                open_at = start + ghost.end() - 1
                ghosts.append((self.file.text[open_at + 1 : contracts.closing(self.file.shown, open_at) - 1], self.file.line(open_at)))
            else:
                targets += self.types(kind, own)
        targets += self.terms(ghosts, self.scope(), bound)
        return [Part(self.lines(self.item.start, self.item.end), targets)]

    def trait(self):
        own = contracts.generics(self.item.head)
        own.update({item.name: [] for item in self.item.inner if item.kind == "ghost"})
        scope, targets = self.scope(self.item.inner), []
        for item in self.item.inner:
            if item.kind == "ghost":
                targets += self.terms([self.file.ghost(item)], scope, {*own, "Self"})
            elif item.kind == "fn":
                targets += self.clauses(item, item.clauses, scope, own)
        return [Part(self.lines(self.item.start, self.item.end), targets)]

    def clauses(self, function, clauses, scope, outer):
        """What clauses of a function name, with the types in its head and the bounds of its type parameters."""
        names, types = contracts.parameters(function.head)
        own = {**outer, **contracts.generics(function.head)}
        bounds = [path for paths in own.values() for path in paths]
        targets = self.types(" ".join(types + bounds), {*own, "Self"})
        bound = {*names, *own, "Self", "self", "result", "𝓛"}
        return targets + self.terms([(clause.text, clause.first) for clause in clauses], scope, bound)

    def type(self):
        text = self.file.shown[self.item.start : self.item.end]
        return [Part(self.lines(self.item.start, self.item.end), self.types(text.split("=", 1)[1], contracts.generics(text)))]

    def const(self):
        text = self.file.shown[self.item.start : self.item.end].split(":", 1)[1]
        return [Part(self.lines(self.item.start, self.item.end), self.types(text))]

    static = const


class Claim(Source):
    """A clause of a public function, or all of its clauses."""

    def __init__(self, library, file, function, block, name):
        key = f"{os.path.relpath(file.path, ROOT + '/crates')} {function.name} {name or ''}".strip()
        super().__init__(library, key, file, function)
        self.block = block
        self.picked = [it for it in function.clauses if it.kind.startswith("ensures") and name in (None, it.name)]

    def shown(self):
        asked = [it for it in self.item.clauses if not it.kind.startswith("ensures")]
        own = contracts.generics(self.block.head) if self.block else {}
        scope = self.scope(self.block.inner if self.block else ())
        targets = self.clauses(self.item, asked + self.picked, scope, own)
        if self.block:
            targets += self.types(self.block.head.split("impl", 1)[1].split(" for ")[-1], own)
        first = self.file.line(self.item.start)
        head = self.lines(self.item.start, self.item.start + len(self.item.head.rstrip()))
        lines = [line for it in asked + self.picked for line in self.file.lines[it.first - 1 : it.last]]
        return Shown(self.key, first, self.file.comment(first), [], [Part(head + lines, targets)])


def claims(library, words):
    """The clauses that the words name."""
    *front, name = words[0].split("::")
    crates = front[:1] if front and front[0] in library.needs else list(library.needs)
    kind = front[-1] if front and front[-1] not in library.needs else None
    for crate in crates:
        for file in library.crate(crate).files():
            places = [(None, it) for it in file.items if kind is None]
            places += [(block, it) for block in file.items if block.kind == "impl" for it in block.inner]
            for block, it in places:
                is_public = it.kind == "fn" and it.name == name and re.match(r"pub\s", it.head)
                if is_public and (kind is None or block and re.search(rf"\b{kind}\b", block.head)):
                    claim = Claim(library, file, it, block, words[1] if len(words) > 1 else None)
                    if claim.picked:
                        yield claim
