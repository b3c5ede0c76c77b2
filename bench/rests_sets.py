"""Drawn sets and progress files for bench/rests.py: over few addresses of a memory, so that items share what they read."""
from typing import NamedTuple

from model import AchievementModel, BoardModel
from model_files import EARNED, LAST_FRAME, Model, Play, course_of
from model_texts import WORD, read_set

SIZES = "HHHHHHHHHHMNOPQRSTLUK IWJXG"
SMALL = [0, 0, 0, 1, 1, 1, 2, 2, 3]
COMPARISONS = ["=", "=", "=", "!=", "!=", "<", "<=", ">", ">="]
TARGETS = [0] * 10 + [1, 1, 1, 2, 2, 2, 3, 3, 5, 12, 40, 1000, 65535, WORD - 2, WORD - 1]
ENDS = [""] * 9 + ["P", "P", "R", "R", "T", "M", "M", "G", "Q"]
FORMATS = ["VALUE", "SCORE", "UNSIGNED", "FRAMES", "MILLISECS", "SECS", "MINUTES", "SECS_AS_MINS", "TENS", "FIXED2", "FLOAT1"]
WORDS = [0, 0, 1, 2, 3, WORD - 1, WORD - 1, WORD - 2, WORD - 3, WORD - 9]
LARGE = 65536


class Ground(NamedTuple):
    """A memory of so many bytes, and the window that most writes and cells lie in."""

    size: int
    start: int
    end: int


def drawn_ground(r):
    k = r.random()
    if k < 0.15:
        size = r.randrange(1, 18)
        return Ground(size, 0, size)
    if k < 0.25:
        start = r.choice([0, LARGE - 64, LARGE // 2 - 32, LARGE // 2 - 8, 1000])
        return Ground(LARGE, start, start + 64)
    size = r.choice([64, 65, 70, 100, 128, 128, 128, 250])
    start = r.choice([0, 0, 0, size - 64])
    return Ground(size, start, start + 64)


class SetDrawing:
    """Draws a set over few addresses, so that its items share nodes and one write moves what several look at."""

    def __init__(self, r, ground):
        self.r, self.ground = r, ground
        window = ground.end - ground.start
        bases = [r.randrange(window) for _ in range(r.choice([1, 1, 2, 2, 3, 5, 8]))]
        self.places = sorted({ground.start + (base + k) % window for base in bases for k in range(4)})
        self.pointers = r.sample(self.places, min(2, len(self.places)))

    def often(self, share):
        return self.r.random() < share

    def memory(self, kind=None, cell=None):
        """A view of a cell: of any, or of this one by this kind."""
        size, at = cell or self.cell()
        kind = self.r.choice(["", "", "", "", "d", "d", "p", "p", "b", "~"]) if kind is None else kind
        return f"{kind}0x{size}{at:04x}"

    def cell(self, far=0.03):
        """A size and an address: one of the places, or now and then, `far`, some way before an edge."""
        at = self.far() if self.often(far) else self.r.choice(self.places)
        return self.r.choice(SIZES), at

    def far(self):
        """An address at which, or some bytes before which, the window, the memory or all addresses end."""
        edge = self.r.choice([self.ground.start, self.ground.end, self.ground.size, self.ground.size, WORD])
        return (edge - self.r.choice([0, 1, 1, 2, 3, 4, 16, 100, 255])) % WORD

    def number(self):
        return str(self.r.choice(SMALL if self.often(0.9) else [4, 16, 255, 256, 258, 65535, WORD - 1]))

    def operand(self, far=0.03):
        k = self.r.random()
        if k < 0.08:
            return "{recall}"
        return self.memory(None, self.cell(far)) if k < 0.7 else self.number()

    def comparison(self, far=0.03):
        """The two sides and the operator between them: often two views of one cell, now and then constants."""
        op, k = self.r.choice(COMPARISONS), self.r.random()
        if k < 0.4:
            return self.memory(None, self.cell(far)) + op + self.number()
        if k < 0.7:
            cell = self.cell(far)
            kinds = self.r.choice([("", "d"), ("", "d"), ("", "p"), ("d", "p"), ("", "~"), ("b", "d")])
            return self.memory(kinds[0], cell) + op + self.memory(kinds[1], cell)
        if k < 0.95:
            return self.operand(far) + op + self.operand(far)
        return self.r.choice(["1=1", "0=1", "0=0"])

    def source(self, flag, far):
        """What an AddSource, a SubSource, an AddAddress or a Remember hands on. A pointer is mostly a byte of few numbers."""
        if flag == "I" and self.often(0.8):
            kind = self.r.choice(["", "", "", "", "d", "p"])
            left = self.memory(kind, ("H", self.r.choice(self.pointers)))
        else:
            left = self.operand(far)
        if self.often(0.7):
            return left
        return left + self.r.choice("*/&^%+-") + (self.number() if self.often(0.7) else self.operand())

    def condition(self, flag, in_value=False, far=0.03):
        head = flag + ":" if flag else ""
        if flag and flag in "ABIK":
            return head + self.source(flag, far)
        if in_value and flag in ("M", "G"):
            k = self.r.random()
            if k < 0.35:
                return head + self.operand(far)
            if k < 0.7:
                return head + self.comparison(far)
        target = self.r.choice(TARGETS)
        return head + self.comparison(far) + (f".{target}." if target else "")

    def chain(self, end, in_value=False):
        """A chain; what comes directly after an AddAddress often lies before an edge that the pointer takes it over."""
        flags = [self.r.choice("AABCCDIIIIKKNNOOZZ") for _ in range(self.r.choice([0, 0, 0, 1, 1, 2, 3]))]
        if end is not None:
            flags.append(end)
        moved = [0.3 if flag == "I" else 0.03 for flag in flags]
        return [self.condition(flag, in_value, far) for flag, far in zip(flags, [0.03, *moved])]

    def group(self):
        chains = [self.chain(self.r.choice(ENDS)) for _ in range(self.r.choice([1, 1, 2, 2, 3, 4]))]
        if self.often(0.04):
            chains.append(self.chain(None))
        return "_".join(condition for chain in chains for condition in chain)

    def trigger(self, plain=0.2):
        if self.often(plain):
            return self.comparison()
        groups = [self.group() for _ in range(self.r.choice([1, 1, 1, 2, 3]))]
        return "S".join(groups)

    def part(self):
        if self.often(0.35):
            factors = ["", "", "*2", "*v-1", "*" + self.operand()]
            return "_".join(self.operand() + self.r.choice(factors) for _ in range(self.r.choice([1, 1, 2, 3])))
        chains = [self.chain(self.r.choice("PRMMMGGQ"), True) for _ in range(self.r.choice([0, 1, 1, 2]))]
        chains.append(self.chain(self.r.choice("MMMG"), True))
        return "_".join(condition for chain in chains for condition in chain)

    def value(self):
        return "$".join(self.part() for _ in range(self.r.choice([1, 1, 1, 2, 3])))

    def board(self):
        """A leaderboard that often starts, and whose attempts often run for long."""
        fields = [f"{tag}:{self.trigger(0.6)}" for tag in ("STA", "CAN", "SUB")]
        if self.often(0.6):
            often_written = self.memory("", ("H", self.r.choice(self.pointers)))
            fields[0] = f"STA:{often_written}{self.r.choice(COMPARISONS)}{self.r.choice(SMALL)}"
        for place in (1, 2):
            if self.often(0.6):
                fields[place] = fields[place][:4] + "0=1"
        if self.often(0.15):
            # it is submitted where it starts, and stays so
            fields[2] = "SUB:" + fields[0][4:]
        fields.append("VAL:" + self.value())
        if self.often(0.4):
            fields.append("PRO:" + self.value())
        return "::".join(fields)

    def item(self, number):
        if self.often(0.6):
            return f"A {number} {self.trigger()}"
        return f"L {number} {self.r.choice(FORMATS)} {self.board()}"

    def items(self):
        count = self.r.choice([1, 1, 2, 3, 5, 8, 13, 20])
        lines = [self.item(number) for number in range(1, count + 1)]
        if self.often(0.03):
            lines += [f"A {number} {self.comparison()}" for number in range(100, 170)]
        if self.often(0.6):
            lines.insert(self.r.randrange(count + 1), self.still())
        return lines

    def still(self):
        """An item over many bytes that few writes reach, so that the nodes that change are few among all.

        Some have more cells than a word has bits, and some more than a word of words has."""
        most = 4200 if self.ground.size == LARGE and self.often(0.1) else self.r.choice([12, 12, 40, 40, 90])
        end = self.ground.end
        looks = [f"0xH{at:04x}{self.r.choice(['=0', '!=0'])}" for at in range(end, end + most)]
        return "A 900 " + "_".join(looks) + self.r.choice(["", "", "_0=1", f"_{self.comparison()}"])

    def pieces(self):
        names = ["Stage", "Points", "Number", "Seconds", "Nothing"]
        macros = [f"{text} @{self.r.choice(names)}({self.value()})" for text in ("at", "of", "in")]
        return " ".join(macros[: self.r.choice([0, 1, 1, 2, 3])] + ["end"])

    def script(self):
        if self.often(0.25):
            return []
        lines = ["P", "Lookup:Stage", "0=Title", "1-2,16=Forest", "0x3=Castle"] + ["*=Unknown"] * self.often(0.7)
        lines += ["Format:Points", "FormatType=" + self.r.choice(FORMATS), "Display:"]
        tests = [f"?{self.trigger(0.3)}?{text} {self.pieces()}" for text in ("One", "Two", "Three", "Four", "Five")]
        return lines + tests[: self.r.choice([0, 1, 2, 3, 5])] + ["Else " + self.pieces()]

    def earlier(self, items, script):
        """Another set, of which a change gives this one: with lines that are gone since, changed since or not there yet."""
        lines = []
        for line in items:
            lines.append(self.r.choice([line] * 6 + [None, None, self.redrawn(line), self.redrawn(line)]))
        lines += [self.item(number) for number in range(500, 500 + self.r.choice([0, 1, 2, 4]))]
        lines = [line for line in lines if line]
        if self.often(0.4):
            self.r.shuffle(lines)
        return lines, self.r.choice([script] * 3 + [[], self.script()])

    def redrawn(self, line):
        """An item of the same kind and id."""
        kind, number, *_ = line.split(" ")
        if kind == "A":
            return f"A {number} {self.trigger()}"
        return f"L {number} {self.r.choice(FORMATS)} {self.board()}"


def set_bytes(items, script):
    return "".join(line + "\n" for line in items + script).encode()


# ---- progress files


def targets_of(model):
    """For each number of a block after its state, the hit target of its condition, and 0 where it is no hits of one."""
    rows = lambda groups: [it.target for group in groups for it in getattr(group, "conditions", [])]
    if isinstance(model, AchievementModel):
        return [0, *rows(model.trigger.groups)]
    members = [it.groups if hasattr(it, "groups") else it.parts for it in model.members]
    return [target for groups in members for target in rows(groups)]


class FileDrawing:
    """Draws a progress file that a run over a set may have left, with other numbers in it: whatever a file may have."""

    def __init__(self, r, items, script):
        self.r, self.model = r, Model(read_set(set_bytes(items, script)))
        self.share = r.choice([0, 0.05, 0.3, 0.9])

    def often(self):
        return self.r.random() < self.share

    def drawn(self, size, records, version):
        course = course_of(size, [*records, b"E"])
        play = Play(self.model, self.model.plain(), course.history)
        moment = 0
        for step, moment in course.steps:
            if step == "frame":
                play.frame(moment)
        contents = play.file(moment)
        blocks = zip(self.model.models, contents.entries)
        altered = contents._replace(
            version=version,
            frames=LAST_FRAME - self.r.choice([0, 1, 29]) if self.r.random() < 0.1 else contents.frames,
            cells=self.with_numbers(contents.cells),
            priors=self.with_numbers(contents.priors),
            entries=[(name, self.block(model, block, version)) for model, (name, block) in blocks],
        )
        return altered.spelled()

    def with_numbers(self, row):
        return [(name, self.r.choice(SMALL) if self.often() else number) for name, number in row]

    def block(self, model, block, version):
        is_item = len(block) % 4 == 1
        targets, start = targets_of(model), 1 if is_item else 4
        head = self.state(model, block[0], version) if is_item else block[:4]
        numbers = [int.from_bytes(block[at : at + 4], "little") for at in range(start, len(block), 4)]
        targets += [0] * (len(numbers) - len(targets))
        return head + b"".join(self.number(*pair).to_bytes(4, "little") for pair in zip(numbers, targets))

    def state(self, model, state, version):
        """The state byte; in an older version nobody is earned beside being triggered."""
        if self.r.random() < self.share / 3:
            state = self.r.choice([0, 1, 2, 3, 8, 9, 10, 11, 12] if isinstance(model, AchievementModel) else range(5))
        if isinstance(model, BoardModel) or version == 3:
            return bytes([state])
        return bytes([state % EARNED])

    def number(self, number, target):
        if not self.often():
            return number
        near = [target - 1, target, min(target + 1, WORD - 1)]
        return self.r.choice(near if target and self.r.random() < 0.6 else WORDS)
