"""The text of a set, read by docs/DEFINITIONS.md ("Texts") into plain values: what bench/model.py steps.

`read_set` takes a text that the grammar has; of any other one the first surprise is an error. Nothing here is taken of the runtime's sources."""
import hashlib
import re
from typing import NamedTuple, Optional

WORD = 2**32
HANDS_ON = set("ABIK")
COMPARED = {"=", "==", "!=", "<", "<=", ">", ">="}
OPERAND = re.compile(
    r"(?P<recall>(?-i:\{recall\}))|(?P<prefix>[dpb~]?)0x(?P<size>[MNOPQRSTLUHKIWJXG ]?)(?P<address>[0-9a-f]+)"
    r"|v?h(?P<hex>[0-9a-f]+)|v?(?P<sign>[+-]?)(?P<digits>[0-9]+)",
    re.I,
)
OPERATOR = re.compile(r"==|!=|<=|>=|[=<>*/&^%+-]")
TARGET = re.compile(r"\.([0-9]+)\.|\(([0-9]+)\)")
FLAG = re.compile(r"([PRABCDNOMGQITZK]):", re.I)
FIELD = re.compile(r"(STA|CAN|SUB|VAL|PRO):", re.I)
MACRO = re.compile(r"@([^()@\\]+)\(")
RANGE = re.compile(r"(0x[0-9a-f]+|[0-9]+)(?:-(0x[0-9a-f]+|[0-9]+))?", re.I)


class Operand(NamedTuple):
    """A constant, `{recall}`, or a memory operand: a prefix, a size and an address."""

    kind: str
    number: int = 0
    prefix: str = ""
    size: str = "H"

    def text(self):
        if self.kind == "constant":
            return str(self.number)
        if self.kind == "recall":
            return "{recall}"
        return f"{self.prefix}0x{self.size}{self.number:04x}"


class Condition(NamedTuple):
    flag: str
    left: Operand
    operator: str
    right: Operand
    target: int

    def text(self):
        flag = f"{self.flag}:" if self.flag else ""
        joined = f"{self.operator}{self.right.text()}" if self.operator else ""
        return f"{flag}{self.left.text()}{joined}" + (f".{self.target}." if self.target else "")


class Term(NamedTuple):
    """A legacy term."""

    operand: Operand
    factor: Optional[Operand]


class Achievement(NamedTuple):
    text: bytes
    number: int
    trigger: list


class Board(NamedTuple):
    """A leaderboard; its triggers are in the order start, cancel, submit, and its values VAL and, where there is one, PRO."""

    text: bytes
    number: int
    format: str
    triggers: list
    values: list


class Macro(NamedTuple):
    name: str
    value: list


class Line(NamedTuple):
    """A display line: its test, where it has one, and its pieces, texts and macros."""

    test: Optional[list]
    pieces: list


class Lookup(NamedTuple):
    """The ranges of each keys line with its text, and the text of the first `*` line."""

    keys: list
    rest: Optional[str]

    def of(self, number):
        for ranges, text in self.keys:
            if any(low <= number <= high for low, high in ranges):
                return text
        return self.rest or ""


class Script(NamedTuple):
    """The lookups and formats by their names, a format as its type, and the lines of the display."""

    text: bytes
    named: dict
    lines: list


class SetText(NamedTuple):
    digest: bytes
    items: list
    script: Optional[Script]


ZERO = Operand("constant")


def saturated(digits, base=10):
    return min(int(digits, base), WORD - 1)


class Reader:
    """A text and how far it is read."""

    def __init__(self, text):
        self.text, self.at = text, 0

    def take(self, pattern):
        found = pattern.match(self.text, self.at)
        if found:
            self.at = found.end()
        return found

    def eat(self, front):
        found = self.text.startswith(front, self.at)
        self.at += len(front) if found else 0
        return found

    def expect(self, front):
        if not self.eat(front):
            raise ValueError(f"{front} is wanted at {self.at} of {self.text}")

    def operand(self):
        found = self.take(OPERAND)
        if not found:
            raise ValueError(f"an operand is wanted at {self.at} of {self.text}")
        if found["recall"]:
            return Operand("recall")
        if found["address"]:
            return Operand("memory", saturated(found["address"], 16), found["prefix"].lower(), found["size"].upper() or " ")
        if found["hex"]:
            return Operand("constant", saturated(found["hex"], 16))
        if found["sign"] == "-":
            return Operand("constant", -min(int(found["digits"]), WORD // 2) % WORD)
        return Operand("constant", saturated(found["digits"]))

    def condition(self):
        flag = self.take(FLAG)
        flag = flag[1].upper() if flag else ""
        left, operator = self.operand(), self.take(OPERATOR)
        if not operator:
            return Condition(flag, left, "", ZERO, 0)
        operator, right, target = operator[0], self.operand(), self.take(TARGET)
        target = saturated(target[1] or target[2]) if target else 0
        if flag in HANDS_ON and operator in COMPARED:
            return Condition(flag, left, "", ZERO, 0)
        if flag in HANDS_ON:
            return Condition(flag, left, operator, right, 0)
        return Condition(flag, left, "=" if operator == "==" else operator, right, target)

    def joined(self, read, join="_"):
        row = [read()]
        while self.eat(join):
            row.append(read())
        return row

    def group(self):
        starts = FLAG.match(self.text, self.at) or OPERAND.match(self.text, self.at)
        return self.joined(self.condition) if starts else []

    def trigger(self):
        groups = [self.group()]
        while self.eat("S") or self.eat("s"):
            groups.append(self.group())
        return groups

    def term(self):
        operand = self.operand()
        return Term(operand, self.operand() if self.eat("*") else None)

    def part(self):
        return self.joined(self.condition if FLAG.match(self.text, self.at) else self.term)

    def value(self):
        return self.joined(self.part, "$")

    def end(self):
        if self.at < len(self.text):
            raise ValueError(f"the end is wanted at {self.at} of {self.text}")


def read_trigger(text):
    reader = Reader(text)
    trigger = reader.trigger()
    reader.end()
    return trigger


def read_board(line, number, name, text):
    reader, fields = Reader(text), {}
    while True:
        tag = reader.take(FIELD)[1].upper()
        fields[tag] = reader.trigger() if tag in ("STA", "CAN", "SUB") else reader.value()
        if not reader.eat("::"):
            break
    reader.end()
    values = [fields[tag] for tag in ("VAL", "PRO") if tag in fields]
    return Board(line, number, name, [fields[tag] for tag in ("STA", "CAN", "SUB")], values)


def read_item(line):
    text = line.decode("latin-1")
    if text.startswith("A"):
        _, number, trigger = text.split(" ", 2)
        return Achievement(line, int(number), read_trigger(trigger))
    _, number, name, board = text.split(" ", 3)
    return read_board(line, int(number), name, board)


def unescaped(text):
    """A text with its escapes read, where a backslash at the end means itself."""
    return re.sub(r"\\(.)", r"\1", text)


def read_pieces(text):
    """The pieces of a line: texts, joined where they stand side by side, and macros."""
    reader, pieces, plain = Reader(text), [], ""
    while reader.at < len(text):
        macro = reader.take(MACRO)
        if macro:
            pieces += [plain] * bool(plain) + [Macro(macro[1], reader.value())]
            reader.expect(")")
            plain = ""
            continue
        if text[reader.at] == "\\" and reader.at + 1 < len(text):
            reader.at += 1
        plain += text[reader.at]
        reader.at += 1
    return pieces + [plain] * bool(plain)


def read_line(text):
    if not text.startswith("?"):
        return Line(None, read_pieces(text))
    reader = Reader(text)
    reader.expect("?")
    test = reader.trigger()
    reader.expect("?")
    return Line(test, read_pieces(text[reader.at :]))


def key(digits):
    return saturated(digits[2:], 16) if digits[:2] in ("0x", "0X") else saturated(digits)


def read_keys(text):
    """The ranges of a keys line; a key alone is a range of one."""
    return [(key(found[1]), key(found[2] or found[1])) for found in RANGE.finditer(text)]


def read_lookup(lines):
    keys, rest = [], None
    for line in lines:
        left, _, text = line.partition("=")
        if left != "*":
            keys.append((read_keys(left), unescaped(text)))
        elif rest is None:
            rest = unescaped(text)
    return Lookup(keys, rest)


def read_script(text):
    cut = (line.removesuffix("\r").partition("//")[0].rstrip(" \t") for line in text.decode("latin-1").split("\n"))
    lines, named, display, at = [line for line in cut if line], {}, [], 0
    while at < len(lines):
        head, at = lines[at], at + 1
        start = at
        if head.startswith("Lookup:"):
            while at < len(lines) and not re.match("Lookup:|Format:|Display:", lines[at]):
                at += 1
            named.setdefault(head[7:], read_lookup(lines[start:at]))
        elif head.startswith("Format:"):
            named.setdefault(head[7:], lines[at].removeprefix("FormatType="))
            at += 1
        else:
            while lines[at].startswith("?"):
                at += 1
            at += 1
            display = [read_line(line) for line in lines[start:at]]
    return Script(text, named, display)


def read_set(text):
    """The set of a file that is accepted."""
    items, rest = [], text
    while rest:
        line, end, rest = rest.partition(b"\n")
        line = line.removesuffix(b"\r") if end else line
        if line == b"P":
            return SetText(hashlib.md5(text).digest(), items, read_script(rest))
        if line and not line.startswith(b"#"):
            items.append(read_item(line))
    return SetText(hashlib.md5(text).digest(), items, None)
