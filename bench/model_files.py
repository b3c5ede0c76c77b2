"""Traces and progress files of the model of bench/model.py, by docs/DEFINITIONS.md ("Files", "The program").

`played` says what a run of the player prints, its status, and the progress file that it puts."""
import hashlib
from typing import NamedTuple, Optional

from model import (
    TRIGGERED,
    AchievementModel,
    BoardModel,
    History,
    KeptAchievement,
    KeptBoard,
    KeptLine,
    KeptPresence,
    KeptValue,
    PresenceModel,
    Values,
    item_model,
    mask_of,
)
from model_texts import SetText

LAST_FRAME = 2**64 - 1
EARNED = 8
KINDS = ["", "d", "p", "b", "~"]
SIZES = "MNOPQRSTLUH WXKIJG"
OPERATORS = ["", "=", "!=", "<", "<=", ">", ">=", "*", "/", "&", "^", "%", "+", "-"]


# ---- traces


class Course(NamedTuple):
    """The history of a trace, what its records do in order as words and moments, and why it is refused, where it is."""

    history: History
    steps: list
    refusal: Optional[str]


def course_of(size, records):
    """Reads the records of a trace, up to its end or to the first that is refused."""
    history, steps, slots, now, place = History(), [], {}, 0, 9
    image, frame = bytearray(size), bytes(size)
    for record in records:
        match record[:1]:
            case b"W":
                at, count = int.from_bytes(record[1:5], "little"), int.from_bytes(record[5:7], "little")
                if at + count > size:
                    return Course(history, steps, f"trace refused at {place}: memory\n")
                image[at : at + count] = record[7:]
                frame = None
            case b"F":
                frame = bytes(image) if frame is None else frame
                now = history.take(now, frame)
                steps.append(("frame", now))
            case b"S":
                slots[record[1]] = now
            case b"R":
                if record[1] not in slots:
                    return Course(history, steps, f"trace refused at {place}: empty\n")
                now = slots[record[1]]
                steps.append(("restore", now))
            case b"P":
                steps.append(("show", now))
            case b"E":
                return Course(history, steps, None)
            case _:
                return Course(history, steps, f"trace refused at {place}: kind\n")
        place += len(record)
    return Course(history, steps, f"trace refused at {place}: cut\n")


# ---- names and numbers


def md5(row):
    return hashlib.md5(row).digest()


def word(number, width=4):
    return number.to_bytes(width, "little")


def words(row):
    return b"".join(map(word, row))


def flat(rows):
    return [number for row in rows for number in row]


class Names:
    """The names of trees, cells and tracked masks."""

    def __init__(self):
        self.known = {}

    def of(self, tree):
        if tree not in self.known:
            self.known[tree] = md5(getattr(self, tree[0])(*tree[1:]))
        return self.known[tree]

    def constant(self, number):
        return b"C" + word(number)

    def cell(self, pointer, address, width):
        return b"M" + self.of(pointer) + word(address) + bytes([width])

    def view(self, prefix, size, cell):
        return b"V" + bytes([KINDS.index(prefix), SIZES.index(size)]) + self.of(cell)

    def joined(self, operator, left, right):
        return b"O" + bytes([OPERATORS.index(operator)]) + self.of(left) + self.of(right)

    def prior(self, cell, mask):
        return b"P" + self.of(cell) + word(mask)


class Occurrence:
    """The cells and tracked masks of trees, in the order of first occurrence."""

    def __init__(self, trees):
        self.cells, self.priors, self.seen = {}, {}, set()
        for tree in trees:
            self.visit(tree)

    def visit(self, tree):
        if tree in self.seen or tree[0] == "constant":
            return
        self.seen.add(tree)
        if tree[0] == "joined":
            self.visit(tree[2])
            self.visit(tree[3])
            return
        _, prefix, size, cell = tree
        self.visit(cell[1])
        self.cells.setdefault(cell)
        if prefix == "p":
            self.priors.setdefault((cell, mask_of(size)))


# ---- blocks


def value_hits(kept):
    return flat(flat(value.hits) for value in kept)


def value_numbers(kept):
    return flat(value.numbers for value in kept)


def block_of(kept, earned=False, version=3):
    """The bytes of what is kept of an item or of the script."""
    if isinstance(kept, KeptAchievement):
        state = kept.state + (EARNED if earned and version == 3 else 0)
        return bytes([state]) + words([kept.measured, *flat(kept.hits)])
    if isinstance(kept, KeptBoard):
        hits = flat(map(flat, kept.hits)) + value_hits(kept.values)
        return bytes([kept.state]) + words(hits + value_numbers(kept.values))
    hits = flat(flat(line.hits) + value_hits(line.values) for line in kept.lines)
    return words([kept.shown, *hits, *flat(value_numbers(line.values) for line in kept.lines)])


class Front:
    """Bytes that are read from a place on."""

    def __init__(self, row, at=0):
        self.row, self.at = row, at

    def take(self, count):
        self.at += count
        return self.row[self.at - count : self.at]

    def number(self, width=4):
        return int.from_bytes(self.take(width), "little")

    def hits(self, groups):
        return tuple(tuple(self.number() for _ in range(group.size)) for group in groups)

    def values(self, hits):
        return tuple(KeptValue(own, tuple(self.number() for _ in own)) for own in hits)


def kept_of(model, block, version):
    """What a block says of a model, and whether the achievement is earned."""
    read = Front(block)
    if isinstance(model, AchievementModel):
        state = read.number(1)
        earned = state >= EARNED if version == 3 else state == TRIGGERED
        return KeptAchievement(state % EARNED, read.number(), read.hits(model.trigger.groups)), earned
    if isinstance(model, BoardModel):
        state = read.number(1)
        tests = tuple(read.hits(it.groups) for it in model.triggers)
        hits = [read.hits(it.parts) for it in model.values]
        return KeptBoard(state, tests, read.values(hits)), False
    shown, hits = read.number(), []
    for line in model.lines:
        test = read.hits(line.test.groups) if line.test else ()
        hits.append((test, [read.hits(it.parts) for it in line.values]))
    lines = tuple(KeptLine(test, read.values(own)) for test, own in hits)
    return KeptPresence(shown, lines), False


# ---- progress files


class Contents(NamedTuple):
    """What a progress file has: cells, priors and entries as names with their numbers or blocks. Version 1 has no names."""

    version: int
    digest: bytes
    frames: int
    cells: list
    priors: list
    entries: list

    def spelled(self):
        named = self.version > 1
        parts = [b"RAPG", bytes([self.version]), self.digest, word(self.frames, 8)]
        for row in (self.cells, self.priors):
            parts += [word(len(row))] * named + [name * named + word(number) for name, number in row]
        parts += [word(len(self.entries))] * named
        parts += [(name + word(len(block))) * named + block for name, block in self.entries]
        spelled = b"".join(parts)
        return spelled + md5(spelled)


def read_contents(file, shape):
    """The contents of a file; the places of one in version 1 are those of the shape."""
    version, read = file[4], Front(file, 5)
    digest, frames = read.take(16), read.number(8)
    if version == 1:
        numbers = [[(name, read.number()) for name, _ in own] for own in (shape.cells, shape.priors)]
        entries = [(name, read.take(length)) for name, length in shape.entries]
    else:
        numbers = [[(read.take(16), read.number()) for _ in range(read.number())] for _ in range(2)]
        entries = [(read.take(16), read.take(read.number())) for _ in range(read.number())]
    return Contents(version, digest, frames, *numbers, entries)


class Shape(NamedTuple):
    """The digest of a set, the names of its cells and priors beside them, and those of its entries with their lengths."""

    digest: bytes
    cells: list
    priors: list
    entries: list


class Opening(NamedTuple):
    """What is kept before the first frame: the count, numbers by cell or by cell and mask, what items keep, who is earned."""

    frames: int
    numbers: dict
    kept: list
    earned: list


class Model:
    """A set: its items and then its script, where it has one, and their shape."""

    def __init__(self, text: SetText):
        self.items = [item_model(item) for item in text.items]
        self.presence = PresenceModel(text.script) if text.script else None
        self.models = self.items + [self.presence] * bool(self.presence)
        trees = [tree for model in self.models for member in model.members for tree in member.operands()]
        found, names = Occurrence(trees), Names()
        texts = [it.text for it in [*text.items, text.script] if it]
        self.shape = Shape(
            text.digest,
            [(names.of(cell), cell) for cell in found.cells],
            [(names.of(("prior", *prior)), prior) for prior in found.priors],
            [(md5(line), len(block_of(model.first))) for line, model in zip(texts, self.models)],
        )

    def plain(self):
        return Opening(0, {}, [model.first for model in self.models], [False] * len(self.models))

    def is_own(self, contents):
        if contents.version == 1:
            return True
        lengths = [len(block) for _, block in contents.entries]
        counts = (len(contents.cells), len(contents.priors))
        own = (len(self.shape.cells), len(self.shape.priors))
        return contents.digest == self.shape.digest and counts == own and lengths == [it for _, it in self.shape.entries]

    def opening(self, contents):
        """What an accepted file says, or nothing where it has nothing of the set."""
        if contents.version == 1 and contents.digest != self.shape.digest:
            return None
        known, take = dict(contents.entries), self.by_name
        blocks = [known.get(name) for name, _ in self.shape.entries]
        if self.is_own(contents):
            take, blocks = self.by_place, [block for _, block in contents.entries]
        elif not any(blocks):
            return None
        numbers = take(self.shape.cells, contents.cells) | take(self.shape.priors, contents.priors)
        kept = [self.kept(model, block, contents.version) for model, block in zip(self.models, blocks)]
        return Opening(contents.frames, numbers, [it for it, _ in kept], [earned for _, earned in kept])

    @staticmethod
    def kept(model, block, version):
        """What a block says, or without one what the plain opening keeps."""
        return (model.first, False) if block is None else kept_of(model, block, version)

    @staticmethod
    def by_place(own, row):
        return {key: number for (_, key), (_, number) in zip(own, row)}

    @staticmethod
    def by_name(own, row):
        known = dict(row)
        return {key: known.get(name, 0) for name, key in own}


class Play:
    """A set over the history of a trace, from an opening."""

    def __init__(self, model, opening, history):
        self.model, self.opening, self.history = model, opening, history
        self.values = Values(history, opening.numbers)
        self.earned = list(opening.earned)
        self.kept = {0: opening.kept}
        for it in model.models:
            for member in it.members:
                member.watch(self.values)

    def count(self, moment):
        return min(self.opening.frames + self.history.frames[moment], LAST_FRAME)

    def frame(self, moment):
        """Steps all by the frame of a moment, and gives its lines."""
        before = self.history.before[moment]
        old, lines = self.kept[before], []
        new = [model.step(moment, kept) for model, kept in zip(self.model.models, old)]
        self.kept[moment] = new
        for place, model in enumerate(self.model.items):
            if not self.earned[place]:
                lines += model.lines(self.count(before), old[place], new[place])
            if isinstance(model, AchievementModel) and new[place].state == TRIGGERED:
                self.earned[place] = True
        return lines

    def show(self, moment):
        if not self.model.presence:
            return []
        return [f"presence {self.count(moment)} {self.model.presence.text(self.kept[moment][-1])}"]

    def file(self, moment, version=3):
        """The contents of the progress file of a moment, with what is earned now."""
        shape = self.model.shape
        cells = [(name, self.values.of(cell)[moment]) for name, cell in shape.cells]
        priors = [(name, self.values.of(("prior", *prior))[moment]) for name, prior in shape.priors]
        blocks = [block_of(kept, earned, version) for kept, earned in zip(self.kept[moment], self.earned)]
        entries = [(name, block) for (name, _), block in zip(shape.entries, blocks)]
        return Contents(version, shape.digest, self.count(moment), cells, priors, entries)


class Run(NamedTuple):
    """What a run says: its status, what it prints, and the contents of the file that it puts."""

    status: int
    text: bytes
    file: Optional[Contents]


def played(text, size, records, start=None):
    """A run of a set over a trace, from the plain opening or from a progress file."""
    model, opening = Model(text), None
    if start is not None:
        contents = read_contents(start, model.shape)
        opening = model.opening(contents)
        if opening is None:
            refused = f"progress refused: set {contents.digest.hex()} wanted {text.digest.hex()}\n"
            return Run(6, refused.encode(), None)
    course = course_of(size, records)
    play, lines, moment = Play(model, opening or model.plain(), course.history), [], 0
    for step, moment in course.steps:
        if step != "restore":
            lines += play.frame(moment) if step == "frame" else play.show(moment)
    said = "".join(line + "\n" for line in lines).encode("latin-1")
    if course.refusal:
        return Run(7, said + course.refusal.encode(), None)
    return Run(0, said, play.file(moment))
