"""A model of the rules in plain Python, by docs/DEFINITIONS.md ("Evaluation", "Items"): what a set says over a history.

Nothing of it is taken of the runtime's sources, and no number is carried from frame to frame but what an item keeps. All images of a
trace are there before anything is computed, and a tree has a column: its value at each moment. Moment 0 is before the first frame, and
each frame that is taken makes the next one, also after a restore; `before` tells of each the moment before it in its history.

Trees are tuples: ("constant", number), ("joined", operator, left, right) and ("view", prefix, size, cell), where a cell is
("cell", pointer, address, width). bench/model_files.py plays traces and has the files, bench/why_rounds.py tells accounts by it."""
import operator
from typing import NamedTuple, Optional

from model_texts import HANDS_ON, WORD, Achievement, Board, Macro

COMBINES = set("ABCDIKNOZ")
WANTED = {"", "M", "G", "Q", "T"}
WIDTHS = {"X": 4, "G": 4, "W": 4, "J": 4, " ": 2, "I": 2}
LOOKS = {"X": 4, "G": 4, "W": 3, "J": 3, " ": 2, "I": 2}
BITS = {"X": 32, "G": 32, "W": 24, "J": 24, " ": 16, "I": 16, "H": 8, "K": 8, "L": 4, "U": 4}
WAITING, ACTIVE, PAUSED, PRIMED, TRIGGERED = range(5)
STARTED, CANCELLED, SUBMITTED = 2, 3, 4
ZERO = ("constant", 0)
ARITHMETIC = {
    "+": lambda left, right: (left + right) % WORD,
    "-": lambda left, right: (left - right) % WORD,
    "*": lambda left, right: left * right % WORD,
    "/": lambda left, right: left // right if right else 0,
    "%": lambda left, right: left % right if right else 0,
    "&": operator.and_,
    "^": operator.xor,
}
COMPARISONS = {
    "=": operator.eq,
    "!=": operator.ne,
    "<": operator.lt,
    "<=": operator.le,
    ">": operator.gt,
    ">=": operator.ge,
    "": lambda left, right: True,
}


# ---- values


def mask_of(size):
    if size in "MNOPQRST":
        return 1 << "MNOPQRST".index(size)
    return {"L": 15, "U": 240}.get(size, 2 ** BITS[size] - 1)


def viewed(size, number):
    """The view of a masked number."""
    if size in "MNOPQRST":
        return 1 if number & mask_of(size) else 0
    number &= mask_of(size)
    if size == "U":
        return number >> 4
    if size == "K":
        return bin(number).count("1")
    if size in "IJG":
        return int.from_bytes(number.to_bytes(LOOKS[size], "little"), "big")
    return number


def of_kind(prefix, size, view):
    if prefix == "b":
        return sum((view >> 4 * at & 15) * 10**at for at in range(8))
    if prefix == "~":
        return view ^ (2 ** BITS.get(size, 1) - 1)
    return view


def signed(number):
    return number - WORD if number >= WORD // 2 else number


class History:
    """The images of all frames of a trace, and of each moment the one before it and how many frames its history has."""

    def __init__(self):
        self.images, self.before, self.frames = [b""], [0], [0]

    def take(self, before, image):
        """The moment after a frame of this image, after the moment `before`."""
        self.images.append(image)
        self.before.append(before)
        self.frames.append(self.frames[before] + 1)
        return len(self.images) - 1

    def back(self, moment):
        """The moments up to this one that count, the first frame first."""
        row = []
        while moment:
            row.append(moment)
            moment = self.before[moment]
        return row[::-1]


class Values:
    """The columns of trees, cells and tracked masks. `kept` has the numbers of the opening, by cell or by cell and mask."""

    def __init__(self, history, kept):
        self.history, self.kept, self.columns = history, kept, {}

    def of(self, tree):
        if tree not in self.columns:
            self.columns[tree] = getattr(self, tree[0])(*tree[1:])
        return self.columns[tree]

    def constant(self, number):
        return [number] * len(self.history.images)

    def joined(self, sign, left, right):
        return list(map(ARITHMETIC[sign], self.of(left), self.of(right)))

    def view(self, prefix, size, cell):
        if prefix == "p":
            numbers = self.of(("prior", cell, mask_of(size)))
        else:
            numbers = self.of(cell)
        if prefix == "d":
            numbers = [numbers[before] for before in self.history.before]
        views = {number: of_kind(prefix, size, viewed(size, number)) for number in set(numbers)}
        return [views[number] for number in numbers]

    def cell(self, pointer, address, width):
        places = [(address + value) % WORD for value in self.of(pointer)]
        bytes_at = [image[place : place + width] for image, place in zip(self.history.images, places)]
        numbers = [int.from_bytes(read, "little") for read in bytes_at]
        numbers[0] = self.kept.get(("cell", pointer, address, width), 0)
        return numbers

    def prior(self, cell, mask):
        """The masked number before the latest change, of each moment: that of the moment before, where there was no change."""
        numbers = [number & mask for number in self.of(cell)]
        priors = [self.kept.get((cell, mask), 0)]
        for number, before in zip(numbers[1:], self.history.before[1:]):
            priors.append(numbers[before] if numbers[before] != number else priors[before])
        return priors


# ---- groups


class Row(NamedTuple):
    """What a frame shows of a condition."""

    met: bool
    reset: bool
    hit: int
    add: int
    total: int
    valid: bool


class Shown(NamedTuple):
    """What a frame shows of a group."""

    rows: list
    paused: bool
    reset: bool
    valid: bool
    primed: bool
    measured: Optional[int]
    after: tuple


class Group:
    """The conditions of a group with their chains and trees, and after `watch` with their columns."""

    def __init__(self, conditions, in_value=False):
        self.conditions, self.in_value = conditions, in_value
        self.size = len(conditions)
        self.find_chains()
        self.find_trees()
        places = range(self.size)
        with_flag = lambda flags: [at for at in places if conditions[at].flag in flags]
        self.stepped = [at for at in places if conditions[at].flag not in HANDS_ON]
        self.pause_ifs, self.reset_ifs, self.measured_ifs = with_flag({"P"}), with_flag({"R"}), with_flag({"Q"})
        self.wanted, self.for_prime = with_flag(WANTED), with_flag(WANTED - {"T"})
        self.measuring = with_flag({"M", "G"})
        self.has_trigger = bool(with_flag({"T"}))
        self.counted = any(self.counts(conditions[at]) for at in self.measuring)

    def counts(self, it):
        """Whether a Measured condition takes its number from a total."""
        return bool(it.target) or (self.in_value and bool(it.operator))

    def find_chains(self):
        self.previous, starts, start, last = [], [], 0, None
        for at, it in enumerate(self.conditions):
            self.previous.append(last)
            starts.append(start)
            if it.flag not in HANDS_ON:
                last = at
            if it.flag not in COMBINES:
                start, last = at + 1, None
        ends = {start: at for at, start in enumerate(starts)}
        self.pauses = [self.conditions[ends[start]].flag == "P" for start in starts]
        places = range(self.size)
        self.order = [at for at in places if self.pauses[at]] + [at for at in places if not self.pauses[at]]

    def find_trees(self):
        self.sides, remembered = {}, ZERO
        for at in self.order:
            it = self.conditions[at]
            self.sides[at] = self.tree_of(at, it.left, remembered), self.tree_of(at, it.right, remembered)
            if it.flag == "K":
                remembered = self.value(at)

    def pointer(self, at):
        return self.value(at - 1) if at and self.conditions[at - 1].flag == "I" else ZERO

    def tree_of(self, at, operand, remembered):
        if operand.kind == "recall":
            return remembered
        return operand_tree(operand, self.pointer(at))

    def value(self, at):
        """What an A, B, I or K hands on."""
        it, (left, right) = self.conditions[at], self.sides[at]
        value = ("joined", it.operator, left, right) if it.operator else left
        total = self.sum(at) if it.flag == "K" else None
        return ("joined", "+", total, value) if total else value

    def sum(self, at):
        first = at
        while first and self.conditions[first - 1].flag in ("A", "B", "I"):
            first -= 1
        total = None
        for place in range(first, at):
            flag = self.conditions[place].flag
            if flag == "A":
                total = ("joined", "+", total, self.value(place)) if total else self.value(place)
            elif flag == "B":
                total = ("joined", "-", total or ZERO, self.value(place))
        return total

    def left(self, at):
        total, left = self.sum(at), self.sides[at][0]
        return ("joined", "+", total, left) if total else left

    def operands(self):
        """The trees of its operands, in the order of first occurrence."""
        return [tree for at in self.order for tree in self.sides[at]]

    def watch(self, values):
        """Takes up the columns: both values of each condition that compares, and whether its comparison holds."""
        self.lefts, self.rights, self.holds = {}, {}, {}
        for at in self.stepped:
            compare = COMPARISONS[self.conditions[at].operator]
            self.lefts[at], self.rights[at] = values.of(self.left(at)), values.of(self.sides[at][1])
            self.holds[at] = list(map(compare, self.lefts[at], self.rights[at]))

    def step(self, moment, hits):
        """What the frame of a moment shows of the group, with these hits before it."""
        rows = [None] * self.size
        for at in self.stepped:
            rows[at] = self.row(at, rows, self.holds[at][moment], hits[at])
        paused = any(rows[at].valid for at in self.pause_ifs)
        reset = not paused and any(rows[at].valid for at in self.reset_ifs)
        fits = not paused and not reset
        valid = fits and all(rows[at].valid for at in self.wanted)
        primed = fits and all(rows[at].valid for at in self.for_prime)
        after = list(hits)
        for at in self.stepped:
            if not paused or self.pauses[at]:
                after[at] = rows[at].hit
        measured = None if paused else self.measured(rows, moment)
        return Shown(rows, paused, reset, valid, primed, measured, tuple(after))

    def measured(self, rows, moment):
        """What a group measures that is not paused, where it measures."""
        if not self.measuring:
            return None
        if not all(rows[at].valid for at in self.measured_ifs):
            return 0
        return max(self.number(at, rows, moment) for at in self.measuring)

    def number(self, at, rows, moment):
        """The number of a Measured condition."""
        it = self.conditions[at]
        if it.target:
            return min(rows[at].total, it.target)
        return rows[at].total if self.counts(it) else self.lefts[at][moment]

    def row(self, at, rows, met, before):
        """A condition at a frame: "Equations of a condition", with `before` as its hits."""
        it, reset, add = self.conditions[at], False, 0
        if self.previous[at] is not None:
            flag, previous = self.conditions[self.previous[at]].flag, rows[self.previous[at]]
            met = {"N": previous.valid and met, "O": previous.valid or met}.get(flag, met)
            reset = {"Z": previous.valid, "N": previous.reset, "O": previous.reset}.get(flag, False)
            add = previous.add + {"C": previous.hit, "D": -previous.hit}.get(flag, 0)
        grows = met and (not it.target or before < it.target)
        hit = 0 if reset else min(before + 1, WORD - 1) if grows else before
        alone = not reset and (hit >= it.target if it.target else met)
        total = max(0, min(hit + add, WORD - 1))
        by_total = it.target and it.flag not in COMBINES
        return Row(met, reset, hit, add, total, total >= it.target if by_total else alone)


def operand_tree(operand, pointer=ZERO):
    """The tree of an operand that is no `{recall}`; outside of groups that is 0."""
    if operand.kind != "memory":
        return ("constant", operand.number)
    cell = ("cell", pointer, operand.number, WIDTHS.get(operand.size, 1))
    return ("view", operand.prefix, operand.size, cell)


def zeros(groups):
    return tuple((0,) * group.size for group in groups)


# ---- triggers and values


class Stepped(NamedTuple):
    """What a frame shows of a trigger. Its hits after the frame are 0 where it resets."""

    shown: list
    reset: bool
    valid: bool
    paused: bool
    primed: bool
    measured: Optional[int]
    after: tuple


class Trigger:
    def __init__(self, groups):
        self.groups = [Group(conditions) for conditions in groups]
        self.counted = any(group.counted for group in self.groups)

    def operands(self):
        return [tree for group in self.groups for tree in group.operands()]

    def watch(self, values):
        for group in self.groups:
            group.watch(values)

    def step(self, moment, hits):
        shown = [group.step(moment, own) for group, own in zip(self.groups, hits)]
        core, alts = shown[0], shown[1:]
        reset = any(it.reset for it in shown)
        valid = not reset and core.valid and (not alts or any(it.valid for it in alts))
        paused = core.paused or (bool(alts) and all(it.paused for it in alts))
        primed = not reset and any(group.has_trigger for group in self.groups)
        primed = primed and core.primed and (not alts or any(it.primed for it in alts))
        measured = max((it.measured for it in shown if it.measured is not None), default=None)
        after = zeros(self.groups) if reset else tuple(it.after for it in shown)
        return Stepped(shown, reset, valid, paused, primed, measured, after)


class LegacyPart:
    """A part of terms: its sum, and no hits."""

    size, counted = 0, False

    def __init__(self, terms):
        self.trees, self.sum = [], None
        for term in terms:
            tree = operand_tree(term.operand)
            self.trees.append(tree)
            if term.factor:
                factor = operand_tree(term.factor)
                self.trees.append(factor)
                tree = ("joined", "*", tree, factor)
            self.sum = ("joined", "+", self.sum, tree) if self.sum else tree

    def operands(self):
        return self.trees

    def watch(self, values):
        self.sums = values.of(self.sum)

    def step(self, moment, hits):
        return Shown([], False, False, False, False, self.sums[moment], hits)


class KeptValue(NamedTuple):
    """The hits and the number of each part."""

    hits: tuple
    numbers: tuple

    def number(self):
        return max(map(signed, self.numbers))


class Value:
    def __init__(self, parts):
        is_legacy = lambda part: hasattr(part[0], "factor")
        self.parts = [LegacyPart(part) if is_legacy(part) else Group(part, in_value=True) for part in parts]
        self.first = KeptValue(zeros(self.parts), (0,) * len(parts))

    def operands(self):
        return [tree for part in self.parts for tree in part.operands()]

    def watch(self, values):
        for part in self.parts:
            part.watch(values)

    def step(self, moment, kept):
        shown = [part.step(moment, own) for part, own in zip(self.parts, kept.hits)]
        numbers = [old if it.measured is None else it.measured for it, old in zip(shown, kept.numbers)]
        if not any(it.reset for it in shown):
            return KeptValue(tuple(it.after for it in shown), tuple(numbers))
        cleared = (0 if part.counted else number for part, number in zip(self.parts, numbers))
        return KeptValue(zeros(self.parts), tuple(cleared))


# ---- items


class KeptAchievement(NamedTuple):
    state: int
    measured: int
    hits: tuple


class AchievementModel:
    """An achievement: what it keeps after each frame, and its events."""

    def __init__(self, item: Achievement):
        self.number, self.trigger = item.number, Trigger(item.trigger)
        self.members = [self.trigger]
        self.first = KeptAchievement(WAITING, 0, zeros(self.trigger.groups))

    def step(self, moment, kept):
        return kept if kept.state == TRIGGERED else self.after(kept, self.trigger.step(moment, kept.hits))

    def after(self, kept, it):
        waits = kept.state == WAITING and it.valid
        clears = it.reset or waits
        if it.valid:
            state = WAITING if waits else TRIGGERED
        else:
            state = PAUSED if it.paused else PRIMED if it.primed else ACTIVE
        measured = kept.measured if it.measured is None else it.measured
        measured = 0 if clears and self.trigger.counted else measured
        return KeptAchievement(state, measured, zeros(self.trigger.groups) if clears else it.after)

    def lines(self, frame, old, new):
        lines = [f"measured {frame} {self.number} {new.measured}"] * (old.measured != new.measured)
        lines += [f"primed {frame} {self.number}"] * (new.state == PRIMED != old.state)
        lines += [f"unprimed {frame} {self.number}"] * (old.state == PRIMED != new.state)
        return lines + [f"unlock {frame} {self.number}"] * (new.state == TRIGGERED != old.state)


class KeptBoard(NamedTuple):
    state: int
    hits: tuple
    values: tuple

    def tracked(self):
        return self.values[-1].number()


class BoardModel:
    def __init__(self, item: Board):
        self.number, self.format = item.number, item.format
        self.triggers, self.values = [Trigger(it) for it in item.triggers], [Value(it) for it in item.values]
        self.members = self.triggers + self.values
        hits, values = (zeros(it.groups) for it in self.triggers), (it.first for it in self.values)
        self.first = KeptBoard(WAITING, tuple(hits), tuple(values))

    def step(self, moment, kept):
        stepped = [trigger.step(moment, hits) for trigger, hits in zip(self.triggers, kept.hits)]
        state = board_state(kept.state, *(it.valid for it in stepped))
        values = kept.values
        if state in (STARTED, SUBMITTED):
            before = [value.first for value in self.values] if kept.state == ACTIVE else values
            values = tuple(value.step(moment, own) for value, own in zip(self.values, before))
        return KeptBoard(state, tuple(it.after for it in stepped), values)

    def lines(self, frame, old, new):
        head, became, lines = f"{frame} {self.number}", new.state if new.state != old.state else None, []
        if became == STARTED:
            lines.append(f"start {head}")
        if new.state == STARTED and (became == STARTED or old.tracked() != new.tracked()):
            lines.append(f"track {head} {formatted(self.format, new.tracked())}")
        if became == CANCELLED:
            lines.append(f"cancel {head}")
        if became == SUBMITTED:
            value = new.values[0].number()
            lines.append(f"submit {head} {value} {formatted(self.format, value)}")
        return lines


def board_state(old, start, cancel, submit):
    if old == ACTIVE:
        return ACTIVE if not start or cancel else SUBMITTED if submit else STARTED
    if old == STARTED:
        return CANCELLED if cancel else SUBMITTED if submit else STARTED
    return old if start else ACTIVE


class KeptLine(NamedTuple):
    """The hits of the test, or of none, and what its macros keep."""

    hits: tuple
    values: tuple


class LineModel:
    def __init__(self, line):
        self.pieces, self.test = line.pieces, Trigger(line.test) if line.test is not None else None
        self.values = [Value(it.value) for it in line.pieces if isinstance(it, Macro)]
        self.members = ([self.test] if self.test else []) + self.values
        self.first = KeptLine(zeros(self.test.groups) if self.test else (), tuple(it.first for it in self.values))

    def step(self, moment, kept):
        """What is kept after a frame, and whether the line holds."""
        values = tuple(value.step(moment, own) for value, own in zip(self.values, kept.values))
        if not self.test:
            return KeptLine((), values), True
        it = self.test.step(moment, kept.hits)
        return KeptLine(it.after, values), it.valid


class KeptPresence(NamedTuple):
    shown: int
    lines: tuple


class PresenceModel:
    def __init__(self, script):
        self.named, self.lines = script.named, [LineModel(line) for line in script.lines]
        self.members = [member for line in self.lines for member in line.members]
        self.first = KeptPresence(len(self.lines) - 1, tuple(line.first for line in self.lines))

    def step(self, moment, kept):
        stepped = [line.step(moment, own) for line, own in zip(self.lines, kept.lines)]
        return KeptPresence([holds for _, holds in stepped].index(True), tuple(it for it, _ in stepped))

    def text(self, kept):
        values = iter(kept.lines[kept.shown].values)
        pieces = self.lines[kept.shown].pieces
        return "".join(self.told(it.name, next(values).number()) if isinstance(it, Macro) else it for it in pieces)

    def told(self, name, value):
        named = self.named.get(name, BUILT_IN.get(name))
        if named is None:
            return f"[Unknown macro]{name}"
        return formatted(named, value) if isinstance(named, str) else named.of(value % WORD)


BUILT_IN = {"Number": "VALUE", "Score": "SCORE", "Centisecs": "MILLISECS", "Seconds": "SECS", "Minutes": "MINUTES"}
BUILT_IN |= {"SecondsAsMinutes": "SECS_AS_MINS", "Unformatted": "UNSIGNED"}
BUILT_IN |= {f"Fixed{n}": f"FIXED{n}" for n in range(1, 4)} | {f"Float{n}": f"FLOAT{n}" for n in range(1, 7)}


def seconds_form(seconds):
    minutes, hours = seconds // 60, seconds // 3600
    return f"{hours}h{minutes % 60:02}:{seconds % 60:02}" if hours else f"{minutes}:{seconds % 60:02}"


def hundredths_form(hundredths):
    return f"{seconds_form(hundredths // 100)}.{hundredths % 100:02}"


def minutes_form(minutes):
    return f"{minutes // 60}h{minutes % 60:02}"


def fixed(value, decimals):
    whole, part = divmod(abs(value), 10**decimals)
    return f"{'-' if value < 0 else ''}{whole}.{part:0{decimals}}"


def formatted(name, value):
    """The text of a signed number in a format."""
    unsigned = value % WORD
    if name in ("SCORE", "POINTS", "OTHER"):
        return f"{value:06}"
    if name == "UNSIGNED":
        return str(unsigned)
    if name in ("FRAMES", "TIME"):
        return hundredths_form(unsigned * 10 // 6)
    if name == "MILLISECS":
        return hundredths_form(unsigned)
    if name in ("SECS", "TIMESECS"):
        return seconds_form(unsigned)
    if name in ("MINUTES", "SECS_AS_MINS"):
        return minutes_form(unsigned if name == "MINUTES" else unsigned // 60)
    if name in ("TENS", "HUNDREDS", "THOUSANDS"):
        return str(value * {"TENS": 10, "HUNDREDS": 100, "THOUSANDS": 1000}[name])
    if name in ("FIXED1", "FIXED2", "FIXED3"):
        return fixed(value, int(name[5:]))
    if name[:5] == "FLOAT" and name[5:] in ("1", "2", "3", "4", "5", "6"):
        return f"{value}.{'0' * int(name[5:])}"
    return str(value)


def item_model(item):
    return AchievementModel(item) if isinstance(item, Achievement) else BoardModel(item)
