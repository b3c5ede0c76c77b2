"""The declarations of .antt files, and what each name in a term stands for.

used by bench/believe.py
A text is cut into tokens, brackets and declarations by the layout, and a term is read with the names that its binders
bind, so a local name never stands for an import. A name is placed by the `use` lines of its file alone; one that stands
for nothing raises Unplaced, and a form that is not read here raises Unread."""
import re
from collections import namedtuple

TOKEN = re.compile(r'--[^\n]*|\{-.*?-\}|"(?:\\.|[^"\\\n])*"|[(){};,.@]|«[^»]*»|[^\s(){}.;,@"«»]+', re.S)
CLOSING = {"(": ")", "{": "}", "[": "]"}
MARKS = ("pub", "unfoldable", "abbrev", "pattern")
FIXITIES = ("infix", "infixl", "infixr")
UNREAD = ("mutual", "ruleset", "deriving", "open", "axiom", "coe", "hcom", "com", "unfold")
# Words of the language, and what its prelude brings into every file.
BUILT_IN = set("→ × ↦ = : ← λ _ ∀ 𝕀 as in record do elim let where Type tt Unit ⊥ absurd ¬ ⊔ IsProp IsSet".split())
SMALL_CONSTRUCTORS = set("true false zero suc pos negsuc [] ◌∷◌ null item no_items".split())

Token = namedtuple("Token", "text line column glued")
Group = namedtuple("Group", "text nodes line column glued last")
# What a name stands for: a definition's key, and the constructor of it that is meant, if one is.
Target = namedtuple("Target", "key constructor")


class Unplaced(Exception):
    """A name that stands for nothing that its file declares or imports."""


class Unread(Exception):
    """A form of the language that is not read here."""


def tokens(text, line=1):
    """The tokens of a text, with their lines from 1 and columns from 0; comments are left out."""
    end, start, at = 0, 0, 0
    for found in TOKEN.finditer(text):
        line += text.count("\n", at, found.start())
        at = found.start()
        start = text.rfind("\n", 0, at) + 1
        if not found[0].startswith(("--", "{-")):
            yield Token(found[0], line, at - start, at == end and at > start)
        end = found.end()


def tree(stream):
    """The tokens with what stands in brackets as groups."""
    stack = [(None, [])]
    for token in stream:
        if token.text in CLOSING:
            stack.append((token, []))
        elif token.text in CLOSING.values():
            opened, nodes = stack.pop()
            if opened is None or CLOSING[opened.text] != token.text:
                raise Unread(f"line {token.line}: {token.text}")
            stack[-1][1].append(Group(opened.text, nodes, opened.line, opened.column, opened.glued, token.line))
        else:
            stack[-1][1].append(token)
    return stack[0][1]


def by_layout(nodes):
    """The nodes cut where one stands first on its line and in the column of the first."""
    items, line = [], None
    for node in nodes:
        if not items or (node.column <= nodes[0].column and node.line != line):
            items.append([])
        items[-1].append(node)
        line = last_line([node])
    return items


def last_line(nodes):
    """The line of the last token."""
    return nodes[-1].last if isinstance(nodes[-1], Group) else nodes[-1].line


def split(nodes, *words):
    """The nodes cut at these words."""
    parts = [[]]
    for node in nodes:
        if node.text in words:
            parts.append([])
        else:
            parts[-1].append(node)
    return parts


def place_of(nodes, *words):
    """The place of the first of these words, or none."""
    return next((place for place, node in enumerate(nodes) if node.text in words), None)


def parts_of(operator):
    """The words of an operator's name, without the places of its arguments."""
    return [part for part in operator.split("◌") if part]


def path_at(nodes, place):
    """The dotted name at a place, and the place after it."""
    parts, place = [nodes[place]], place + 1
    while is_dotted(nodes, place) and isinstance(nodes[place + 1], Token):
        parts.append(nodes[place + 1])
        place += 2
    return parts, place


def is_dotted(nodes, place):
    """Whether a dot with no space around it stands at a place."""
    return place + 1 < len(nodes) and nodes[place].text == "." and nodes[place].glued and nodes[place + 1].glued


def is_plain(text):
    """Whether a token is a name: no number, text, bracket or blank."""
    return not (text[0] == '"' or text in ".;,@|({[" or re.fullmatch(r"0[xob]\w+|[\d_]+|-\d+", text))


class Piece:
    """A part of a definition that may be left out as a whole: its head, a case, a constructor or a field."""

    def __init__(self, kind, nodes, name=None):
        self.kind, self.nodes, self.name = kind, nodes, name
        self.first, self.last = nodes[0].line, last_line(nodes)


class Definition:
    """A declaration of a file: its name, its comment, the telescopes around it, and its pieces."""

    def __init__(self, name, kind, around, head):
        self.name, self.kind, self.around, self.comment = name, kind, around, []
        self.pieces = [head]

    def constructors(self):
        return [piece.name for piece in self.pieces if piece.kind == "constructor"]


def without_marks(nodes):
    """The nodes after `pub`, `abbrev` and the like."""
    place = 0
    while nodes[place].text in MARKS:
        place += 1
    return nodes[place:]


def declarations(nodes, around=()):
    """The header lines and the definitions of a file or block, in order."""
    header, found = [], []
    for item in by_layout(nodes):
        bare = without_marks(item)
        word = bare[0].text
        if word in UNREAD:
            raise Unread(f"line {bare[0].line}: {word}")
        if word in ("use", "mod"):
            header.append(bare)
        elif word == "module":
            at = place_of(bare, "where")
            inner = declarations(bare[at + 1 :], around + (bare[2:at],))
            found += inner[1]
        elif word in ("record", "data"):
            found.append(declared(word, item, bare, around))
        elif word == "unfolding":
            found[-1].pieces.append(Piece("unfolding", item))
        elif word not in FIXITIES:
            add_equation(found, item, bare, around)
    return header, found


def declared(word, item, bare, around):
    """A record with its fields, or a data type with its constructors."""
    at = place_of(bare, "where")
    end = len(bare) if at is None else at
    definition = Definition(bare[1].text, word, around, Piece("head", item[: len(item) - len(bare) + end]))
    for part in by_layout(bare[end + 1 :]):
        kind = "field" if word == "record" else "constructor"
        names = without_marks(part)
        for name in names[: place_of(names, ":")]:
            definition.pieces.append(Piece(kind, part, name.text))
    return definition


def add_equation(found, item, bare, around):
    """A signature begins a definition, and an equation belongs to the last one."""
    at = place_of(bare, ":", "=")
    if at is None:
        raise Unread(f"line {bare[0].line}: {bare[0].text}")
    if bare[at].text == ":":
        found.append(Definition(bare[0].text, "function", around, Piece("head", item)))
    else:
        found[-1].pieces.append(Piece("case", item))


def imports(line):
    """The names that a `use` line brings: as what, of which path, and whether it is an item."""
    body = line[1:]
    path, at = path_at(body, 0)
    path = [part.text for part in path]
    if at + 1 < len(body) and body[at].text == "." and isinstance(body[at + 1], Group):
        for leaf in split(body[at + 1].nodes, ","):
            if leaf:
                names, after = path_at(leaf, 0)
                names = [part.text for part in names]
                yield leaf[-1].text if after < len(leaf) else names[-1], path + names, True
    elif at < len(body) and body[at].text == "as":
        yield body[at + 1].text, path, False
    elif at == len(body):
        yield path[-1], path, False
    else:
        raise Unread(f"line {line[0].line}: use")


class Scope:
    """What the names of a file stand for."""

    def __init__(self, where, library):
        self.where, self.library, self.names, self.modules, self.operators = where, library, {}, {}, {}

    def add(self, name, target):
        self.names[name] = target
        if "◌" in name:
            for part in parts_of(name):
                self.operators.setdefault(part, []).append(name)

    def use(self, line):
        for name, path, is_item in imports(line):
            if is_item:
                self.add(name, self.library.item(path))
            else:
                self.modules[name] = path

    def copy(self):
        """A scope that has all of this one and may get more."""
        found = Scope(self.where, self.library)
        found.names, found.modules = dict(self.names), dict(self.modules)
        found.operators = {part: list(names) for part, names in self.operators.items()}
        return found

    def operator(self, word, follows):
        """The operator of which this word is a part, by whether an argument stands before it."""
        fitting = set(self.operators.get(word, ()))
        if len(fitting) > 1:
            fitting = {name for name in fitting if name.startswith("◌") == follows}
        return fitting.pop() if len(fitting) == 1 else None

    def place(self, parts, follows):
        """What a dotted name stands for, or none where it is built in."""
        words = [part.text.strip("«»") for part in parts]
        if words[0] in self.names:
            target = self.names[words[0]]
            return self.library.member(target, words[1]) if len(words) > 1 else target
        if words[0] in self.modules and len(words) > 1:
            return self.library.item(self.modules[words[0]] + words[1:])
        operator = self.operator(words[0], follows)
        if operator:
            return self.names[operator]
        found = self.library.other(self, words)
        if found or words[0] in BUILT_IN:
            return found
        raise Unplaced(f"{self.where}:{parts[0].line}: {'.'.join(words)}")


def is_constructor(target):
    """Whether a target is a constructor, by its definition or, of the kit's, by its spelling."""
    if target is None or target.constructor:
        return target is not None
    if target.key.startswith("kit "):
        name = target.key.rsplit(".", 1)[-1]
        return name in SMALL_CONSTRUCTORS or name[0].isupper()
    return False


class Reader:
    """Collects what the names of a term stand for."""

    def __init__(self, scope):
        self.scope, self.found = scope, []

    def note(self, target):
        if target is not None and target not in self.found:
            self.found.append(target)

    def term(self, nodes, bound):
        """Reads a term; what its binders bind holds up to the next comma, semicolon or bar."""
        place, here = 0, set(bound)
        while place < len(nodes):
            node = nodes[place]
            if node.text in (",", ";", "|"):
                place, here = place + 1, set(bound)
            elif node.text == "λ":
                place = self.after_lambda(nodes, place + 1, here)
            elif node.text == "let":
                place = self.after_let(nodes, place + 1, here)
            elif node.text == "do":
                place = self.after_do(nodes, place + 1, here)
            elif isinstance(node, Group):
                self.group(node, here, nodes[place - 1].text if place else "")
                place = self.after_fields(nodes, place + 1)
            else:
                place = self.name(nodes, place, here)

    def after_fields(self, nodes, place):
        """The place after the projections of what stands in brackets."""
        while is_dotted(nodes, place):
            place += 2
        return place

    def name(self, nodes, place, here):
        node = nodes[place]
        if not is_plain(node.text):
            return place + 1
        parts, after = path_at(nodes, place)
        if node.text not in here:
            follows = place > 0 and nodes[place - 1].text not in ("=", "→", "×", ",", ";", "|", "↦", ":", "in", ".")
            self.note(self.scope.place(parts, follows))
        return after

    def after_lambda(self, nodes, place, here):
        end = place_of(nodes[place:], ".") + place
        self.pattern(nodes[place:end], here)
        return end + 1

    def after_let(self, nodes, place, here):
        equals = place_of(nodes[place:], "=") + place
        end = self.matching_in(nodes, equals + 1)
        self.term(nodes[equals + 1 : end], here)
        typed = place_of(nodes[place:equals], ":")
        if typed is not None:
            self.term(nodes[place + typed + 1 : equals], here)
        self.pattern(nodes[place : equals if typed is None else place + typed], here)
        return end + 1

    def matching_in(self, nodes, place):
        depth = 1
        while depth:
            depth += {"let": 1, "in": -1}.get(nodes[place].text, 0)
            place += 1
        return place - 1

    def after_do(self, nodes, place, here):
        """Reads the lines of a do block, whose steps `◌>>=◌` joins."""
        end, line = place, nodes[place].line
        while end < len(nodes) and (nodes[end].line == line or nodes[end].column >= nodes[place].column):
            line = last_line([nodes[end]])
            end += 1
        self.note(self.scope.place([Token(">>=", nodes[place].line, 0, False)], True))
        inner = set(here)
        for step in by_layout(nodes[place:end]):
            arrow = place_of(step, "←")
            self.term(step[(-1 if arrow is None else arrow) + 1 :], inner)
            self.pattern(step[: arrow or 0], inner)
        return end

    def group(self, group, here, before):
        """Reads what stands in brackets: cases, binders, labelled terms, or a term."""
        if group.text == "[":
            for case in split(group.nodes, "|"):
                self.case(case, here)
        elif group.text == "{" and (before == "record" or place_of(group.nodes, "=") is not None):
            self.labelled(group.nodes, here)
        elif place_of(group.nodes, ":") is not None and place_of(group.nodes, ",", ";", "λ") is None:
            self.binder(group.nodes, here)
        elif group.text == "(" and place_of(group.nodes, ":") is not None and group.nodes[0].text not in ("λ", "let"):
            self.binder(group.nodes, here)
        else:
            self.term(group.nodes, here)

    def case(self, case, here):
        arrow = place_of(case, "↦")
        if arrow is not None:
            inner = set(here)
            self.pattern(case[:arrow], inner)
            self.term(case[arrow + 1 :], inner)

    def labelled(self, nodes, here):
        """The parts of a record, or a named argument: a label is no name; one with a type is one for the later parts."""
        inner = set(here)
        for part in split(nodes, ";"):
            at = place_of(part, "=", ":")
            if at is not None:
                self.term(part[at + 1 :], inner)
                if part[at].text == ":":
                    inner.update(node.text for node in part[:at])

    def binder(self, nodes, here):
        at = place_of(nodes, ":")
        self.term(nodes[at + 1 :], here)
        here.update(node.text for node in nodes[:at])

    def pattern(self, nodes, here):
        """Reads a pattern: a name that is a constructor is one, and any other is bound from here on."""
        place = 0
        while place < len(nodes):
            node = nodes[place]
            if isinstance(node, Group):
                self.pattern_group(node, here)
                place += 1
            elif not is_plain(node.text) or node.text in BUILT_IN:
                place += 1
            else:
                place = self.pattern_name(nodes, place, here)

    def pattern_group(self, group, here):
        at = place_of(group.nodes, ":")
        if at is not None:
            self.binder(group.nodes, here)
        elif place_of(group.nodes, "=") is not None:
            for part in split(group.nodes, ";"):
                self.pattern(part[place_of(part, "=") + 1 :], here)
        else:
            self.pattern(group.nodes, here)

    def pattern_name(self, nodes, place, here):
        parts, after = path_at(nodes, place)
        word = parts[0].text
        operator = self.scope.operator(word, place > 0) if word not in self.scope.names else None
        target = self.scope.place(parts, True) if len(parts) > 1 else self.scope.names.get(operator or word)
        if len(parts) > 1 or is_constructor(target):
            self.note(target)
        elif target is not None and target.key.startswith("kit "):
            raise Unread(f"{self.scope.where}:{parts[0].line}: {word} of the kit in a pattern")
        else:
            here.add(word)
        return after

    def equation(self, nodes, name, bound):
        """Reads an equation of a definition and what stands in its `where`; the targets of its left side come first."""
        at, end = place_of(nodes, "="), place_of(nodes, "where")
        own = parts_of(name) if "◌" in name else [name]
        here = set(bound)
        self.pattern([node for node in nodes[:at] if node.text not in own + [name]], here)
        left = list(self.found)
        if end is not None:
            self.local(nodes[end + 1 :], here)
        self.term(nodes[at + 1 : end], here)
        return left

    def local(self, nodes, here):
        """Reads the definitions of a `where`, whose names hold in the whole equation."""
        found = declarations(nodes)[1]
        here.update(definition.name for definition in found)
        for definition in found:
            for piece in definition.pieces:
                self.piece(piece, definition.name, here)

    def piece(self, piece, name, bound):
        """Reads a piece, and gives the targets of the left side of a case."""
        nodes = without_marks(piece.nodes)
        if piece.kind == "case":
            return self.equation(nodes, name, bound)
        if piece.kind == "head" and nodes[0].text in ("record", "data"):
            self.head(nodes[2:], bound)
        elif piece.kind != "unfolding":
            here = set(bound)
            at = place_of(nodes, ":")
            here.update(node.nodes[0].text for node in nodes[:at] if isinstance(node, Group))
            self.term(nodes[at + 1 :], here)
            if piece.kind == "field":
                bound.update(node.text for node in nodes[:at])
        return []

    def head(self, nodes, bound):
        """Reads the parameters of a record or a data type, which all its parts see, and its type."""
        at = place_of(nodes, ":")
        for node in nodes[:at]:
            self.group(node, bound, "")
        self.term(nodes[at + 1 :], bound)

    def definition(self, definition):
        """The targets that each piece names, with those of the left side of a case."""
        bound, pieces = set(), []
        for telescope in definition.around:
            for node in telescope:
                self.group(node, bound, "")
        around, self.found = self.found, []
        for piece in definition.pieces:
            left = self.piece(piece, definition.name, bound)
            pieces.append((piece, left, self.found))
            self.found = []
        return around, pieces
