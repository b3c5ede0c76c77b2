#!/usr/bin/env python3
"""Sets and traces of the game of examples/libretro, for bench/game.sh.

    game_sets.py make calm|busy SET TRACE OUT [SEED]   100 achievements of 8 conditions over the game's variables, drawn with a seed
    game_sets.py count SET TRACE                       what a set has, and what changes at a frame of the trace
    game_sets.py copies COUNT TRACE OUT                the trace over 2 MiB, with each write at COUNT places
    game_sets.py empty TRACE OUT                       the trace without its frames

A condition is drawn as one of SET's own achievements with its variable and constant replaced, so operators, deltas, hits, pointers and
flags have the shares that they have there. A constant is a number that the variable takes in the trace. `make` and `count` print
how many distinct comparisons come out otherwise than at the frame before, a frame; `make` ends with status 1 where these are too few.
"""

import re
import sys

CALM = (
    "0xH0010 0xH0011 0xH0012 0xH0013 b0xW0014 0xH001a 0xH001b b0xH001c 0xH001d 0xH0022 0xH0025 0x_0026 0xH002b 0xK002c".split(),
    ["0xH0005"],
)
BUSY = (CALM[0] + ["0xH0017", "0x_0018"], CALM[1] + ["0xH0001", "0xH0002", "0xH0006"])
LEAST = {"calm": 1, "busy": 2}
POINTER = "0x_0020"
GREAT = 2 << 20

MEMORY = r"[dpb~]?0x[MNOPQRSTLUHKWX _]?[0-9a-f]+"
OPERAND = rf"(?:{MEMORY}|v?-?[0-9]+)"
CONDITION = re.compile(rf"(?:([A-Z]):)?({OPERAND})(?:(<=|>=|!=|=|<|>|\*)({OPERAND}))?(?:\.([0-9]+)\.)?")
WIDTHS = {"W": 4, "X": 4, " ": 2, "_": 2, "": 2}
MASKS = {"W": 0xFFFFFF, "X": 0xFFFFFFFF, " ": 0xFFFF, "_": 0xFFFF, "": 0xFFFF, "L": 0x0F, "U": 0xF0}
MASKS.update({letter: 1 << bit for bit, letter in enumerate("MNOPQRST")})


def frames_of(trace):
    """The image at each frame, one that changes."""
    image, at = bytearray(int.from_bytes(trace[5:9], "little")), 9
    while trace[at : at + 1] != b"E":
        letter = trace[at : at + 1]
        if letter == b"W":
            place, count = int.from_bytes(trace[at + 1 : at + 5], "little"), int.from_bytes(trace[at + 5 : at + 7], "little")
            image[place : place + count] = trace[at + 7 : at + 7 + count]
            at += 7 + count
        else:
            if letter == b"F":
                yield image
            at += 2 if letter in (b"S", b"R") else 1


def conditions_of(text):
    """The groups of a trigger: lists of flag, left, operator, right, target."""
    groups, at = [[]], 0
    while at < len(text):
        if text[at] in "_S":
            if text[at] == "S":
                groups.append([])
            at += 1
            continue
        found = CONDITION.match(text, at)
        if not found:
            sys.exit(f"no condition at {at}: {text}")
        groups[-1].append(found.groups())
        at = found.end()
    return groups


def values_of(text):
    """The groups of a value: of a legacy part its terms, as conditions that compare nothing."""
    for part in text.split("$"):
        if re.match("[A-Z]:", part):
            yield from conditions_of(part)
        else:
            yield [(None, term.split("*")[0], None, None, None) for term in part.split("_")]


def groups_of(lines):
    """The groups of a set, with A or L of their items, or P."""
    for line in map(str.rstrip, lines):
        words = line.split(" ", 2)
        if words[0] == "A":
            yield from (("A", group) for group in conditions_of(words[2]))
        elif words[0] == "L":
            for field in words[2].split(" ", 1)[1].split("::"):
                cut = values_of if field[:3] in ("VAL", "PRO") else conditions_of
                yield from (("L", group) for group in cut(field[4:]))
        elif line.startswith("?") or "@" in line:
            test = line[1 : line.index("?", 1)] if line.startswith("?") else ""
            yield from (("P", group) for group in conditions_of(test))
            for value in re.findall(r"@[^(]*\(([^)]*)\)", line):
                yield from (("P", group) for group in values_of(value))


class Table:
    """The numbers of cells at a frame and at the one before, and the truths of comparisons."""

    def __init__(self):
        self.cells, self.priors, self.comparisons = {}, {}, {}

    def operand(self, text, pointer=None):
        """The tree of an operand: a number, or a view of a cell behind a pointer."""
        if not re.fullmatch(MEMORY, text):
            return int(text.lstrip("v")) & 0xFFFFFFFF
        kind = text[0] if text[0] in "dpb~" else ""
        size = text[len(kind) + 2]
        size = size if size not in "0123456789abcdef" else ""
        cell = (pointer, int(text[len(kind) + 2 + len(size) :], 16), WIDTHS.get(size, 1))
        self.cells.setdefault(cell, [0, 0])
        if kind == "p":
            self.priors.setdefault((cell, MASKS.get(size, 0xFF)), [0])
        return (kind, size, cell)

    def value(self, tree):
        if isinstance(tree, int):
            return tree
        if tree[0] == "sum":
            return sum(self.value(part) * sign for sign, part in tree[1]) & 0xFFFFFFFF
        kind, size, cell = tree
        mask = MASKS.get(size, 0xFF)
        number = self.priors[cell, mask][0] if kind == "p" else self.cells[cell][1 if kind == "d" else 0] & mask
        if size == "K":
            number = bin(number).count("1")
        elif mask & 1 == 0:
            number //= mask & -mask
        return int(f"{number:x}") if kind == "b" and f"{number:x}".isdecimal() else number

    def add(self, group):
        """The comparisons of a group, each once."""
        pointer, parts = None, []
        for flag, left, operator, right, _ in group:
            tree = self.operand(left, pointer)
            if flag == "I":
                pointer = tree
                continue
            if flag in ("A", "B"):
                parts.append((1 if flag == "A" else -1, tree))
            elif operator:
                tree = ("sum", (*parts, (1, tree))) if parts else tree
                self.comparisons[operator, tree, self.operand(right, pointer)] = None
                parts = []
            pointer = None

    def step(self, image):
        """One frame; how many cells changed, and how many comparisons came out otherwise."""
        for cell, numbers in self.cells.items():
            pointer, at, width = cell
            at = (at + (self.value(pointer) if pointer else 0)) & 0xFFFFFFFF
            numbers[1], numbers[0] = numbers[0], int.from_bytes(image[at : at + width], "little")
        for (cell, mask), kept in self.priors.items():
            if (self.cells[cell][0] ^ self.cells[cell][1]) & mask:
                kept[0] = self.cells[cell][1] & mask
        otherwise = 0
        for comparison, truth in self.comparisons.items():
            now = holds(comparison[0], self.value(comparison[1]), self.value(comparison[2]))
            otherwise += truth is not None and truth != now
            self.comparisons[comparison] = now
        return sum(now != before for now, before in self.cells.values()), otherwise


def holds(operator, left, right):
    if operator in ("=", "!="):
        return (left == right) == (operator == "=")
    if operator in ("<", ">="):
        return (left < right) == (operator == "<")
    return (left > right) == (operator == ">")


def count(lines, trace):
    """Prints what a set has and what changes; answers how many comparisons come out otherwise a frame."""
    table, conditions = Table(), 0
    for _, group in groups_of(lines):
        table.add(group)
        conditions += len(group)
    changed = otherwise = frames = 0
    for image in frames_of(trace):
        cells, truths = table.step(image)
        frames, changed, otherwise = frames + 1, changed + cells, otherwise + truths
    print(
        f"cells {len(table.cells)} conditions {conditions} comparisons {len(table.comparisons)}"
        f" cells that change {changed / frames:.2f} comparisons otherwise {otherwise / frames:.2f}"
    )
    return otherwise / frames


def taken(variables, trace):
    """For each variable the numbers that it takes in the trace, in order."""
    table = Table()
    pointer = table.operand(POINTER)
    trees = {name: table.operand(name, pointer if behind else None) for behind, names in enumerate(variables) for name in names}
    numbers = {name: set() for name in trees}
    for image in frames_of(trace):
        table.step(image)
        for name, tree in trees.items():
            numbers[name].add(table.value(tree))
    return {name: sorted(them) for name, them in numbers.items()}


def shapes_of(lines):
    """Of each comparison of the achievements: flag, whether behind a pointer, kinds of left and right, operator, target."""
    shapes = []
    for item, group in groups_of(lines):
        behind = False
        for flag, left, operator, right, target in group if item == "A" else ():
            if operator and re.fullmatch(MEMORY, left):
                right_kind = right[0] if right[0] in "dp" else "" if re.fullmatch(MEMORY, right) else None
                kept = flag if flag in ("N", "O", "C", "Z", "R", "P", "T") else None
                shapes.append((kept, behind, left[0] if left[0] in "dp" else "", operator, right_kind, target))
            behind = flag == "I"
    return shapes


def made(kind, lines, trace, seed):
    """The lines of 100 achievements of 8 comparisons."""
    variables = CALM if kind == "calm" else BUSY
    numbers, shapes, drawn = taken(variables, trace), shapes_of(lines), [seed]

    def draw(them):
        drawn[0] = (drawn[0] * 1664525 + 1013904223) % 2**32
        return them[(drawn[0] >> 16) % len(them)]

    def condition(last):
        flag, behind, left, operator, right, target = draw(shapes)
        name = draw(variables[behind])
        bare = name.lstrip("b").replace("_", " ")
        pointer = f"I:{POINTER.replace('_', ' ')}_" if behind else ""
        right = draw(numbers[name]) if right is None else right + bare
        text = f"{left}{bare}" if left or not isinstance(right, int) else name.replace("_", " ")
        combines = flag in ("N", "O", "C", "Z")
        flag = "" if flag is None or (last and combines) else flag + ":"
        return f"{pointer}{flag}{text}{operator}{right}{f'.{target}.' if target else ''}"

    yield f"# 100 achievements of 8 comparisons over the {kind} variables of the game, by bench/game_sets.py with the seed {seed}.\n"
    for item in range(1, 101):
        yield f"A {item} " + "_".join(condition(place == 7) for place in range(8)) + "\n"


def copies(trace, places):
    """The trace over 2 MiB, with each write at this many places."""
    step, size = GREAT // places, int.from_bytes(trace[5:9], "little")
    if size > step:
        sys.exit(f"{places} copies of {size} bytes pass {GREAT}")
    records, at = [trace[:5], GREAT.to_bytes(4, "little")], 9
    while at < len(trace):
        letter = trace[at : at + 1]
        if letter == b"W":
            place, end = int.from_bytes(trace[at + 1 : at + 5], "little"), at + 7 + int.from_bytes(trace[at + 5 : at + 7], "little")
            records += [b"W" + (place + i * step).to_bytes(4, "little") + trace[at + 5 : end] for i in range(places)]
        else:
            end = at + (2 if letter in (b"S", b"R") else 1)
            records.append(trace[at:end])
        at = end
    return b"".join(records)


def read(path):
    with open(path, "rb") as file:
        return file.read()


def read_lines(path):
    with open(path, encoding="latin-1") as file:
        return list(file)


def write(path, content):
    with open(path, "wb") as file:
        file.write(content)


def main(words):
    if len(words) in (5, 6) and words[0] == "make" and words[1] in LEAST:
        lines, trace = read_lines(words[2]), read(words[3])
        text = "".join(made(words[1], lines, trace, int(words[5]) if len(words) == 6 else 1))
        write(words[4], text.encode())
        if count(text.splitlines(), trace) < LEAST[words[1]]:
            sys.exit(f"fewer than {LEAST[words[1]]} comparisons come out otherwise a frame: take another seed")
    elif len(words) == 3 and words[0] == "count":
        count(read_lines(words[1]), read(words[2]))
    elif len(words) == 4 and words[0] == "copies":
        write(words[3], copies(read(words[2]), int(words[1])))
    elif len(words) == 3 and words[0] == "empty":
        write(words[2], read(words[1])[:9] + b"E")
    else:
        sys.exit(__doc__.strip())


main(sys.argv[1:])
