#!/usr/bin/env python3
"""Random triggers over random traces: `ra_author why` beside a model of the rules.

    bench/why_rounds.py [AUTHOR [ROUNDS [SEED]]]

AUTHOR is the built program; where it is not named it is found in crates/ra_author/out. Each of ROUNDS rounds, 100 where they
are not named, draws a trigger and a trace with writes, frames, saves, restores and some records that are refused. SEED, 1
where it is not named, is that of the first round, and each further round takes the next one.

The model (bench/model.py) computes every frame anew from the images of the history, by docs/DEFINITIONS.md ("Evaluation", "Items");
the account of it is told here ("Account of an achievement"). It shares nothing with the program. Status and text have to be the
same. A round that differs is kept in a folder and told. The last line counts the rounds; the status is 1 where one differs."""
import os
import random
import subprocess
import sys
import tempfile
from typing import NamedTuple

from model import LOOKS, TRIGGERED, WAITING, WANTED, AchievementModel, KeptAchievement, Stepped, Values
from model_files import Course, course_of
from model_texts import HANDS_ON, WORD, ZERO, Achievement, Condition, Operand

ROOT = os.path.dirname(os.path.dirname(os.path.abspath(__file__)))
STATES = ("waiting", "active", "paused", "primed", "triggered")
FRAMES = (0, 1, 2, 3, 5, 9, 20, 58, 59, 60, 61, 62, 100, 119, 120, 121, 150, 239, 240, 241)


# ---- an achievement over a trace


class Frame(NamedTuple):
    """What a frame shows of a trigger, and whether it was waiting and is valid."""

    moment: int
    stepped: Stepped
    waited: bool


class Watched:
    """An achievement over the frames of a trace, up to its unlock or to where the trace ends or is refused."""

    def __init__(self, course: Course, groups):
        model = AchievementModel(Achievement(b"", 0, groups))
        self.history, self.groups, self.values = course.history, model.trigger.groups, Values(course.history, {})
        model.trigger.watch(self.values)
        self.now, self.unlocks = 0, False
        kept, frames = {0: model.first}, {}
        for step, self.now in course.steps:
            if step == "frame":
                old = kept[self.history.before[self.now]]
                stepped = model.trigger.step(self.now, old.hits)
                kept[self.now] = model.after(old, stepped)
                frames[self.now] = Frame(self.now, stepped, old.state == WAITING and stepped.valid)
                self.unlocks = kept[self.now].state == TRIGGERED
            if self.unlocks:
                break
        self.kept: KeptAchievement = kept[self.now]
        self.frames = [frames[moment] for moment in self.history.back(self.now)]

    def is_live(self, frame, place, at):
        """Whether a condition counts hits at a frame: it hands nothing on, and its group is not paused or it is in a pause chain."""
        group = self.groups[place]
        return at in group.holds and (not frame.stepped.shown[place].paused or group.pauses[at])

    def is_past(self, frame, place, at):
        """Whether an operand of a condition is past memory at a frame."""
        group, size = self.groups[place], len(self.history.images[frame.moment])
        pointer = self.values.of(group.pointer(at))[frame.moment]
        it = group.conditions[at]
        return any(
            operand.kind == "memory" and (operand.number + pointer) % WORD + LOOKS.get(operand.size, 1) > size
            for operand in (it.left, it.right)
        )

    def wants(self, frame, place, at):
        shown = frame.stepped.shown[place]
        flag, row = self.groups[place].conditions[at].flag, shown.rows[at]
        return (flag in WANTED and (shown.paused or not row.valid)) or (shown.paused and flag == "P" and row.valid)

    def wanted(self, frame):
        """The places that a frame wants: those of the core, and of the first alt that has the fewest."""
        places = [
            [f"{place}.{at}" for at in range(group.size) if self.wants(frame, place, at)]
            for place, group in enumerate(self.groups)
        ]
        return places[0] + (min(places[1:], key=len) if places[1:] else [])


# ---- the text


def times(word, marks):
    where = [at for at, it in enumerate(marks) if it]
    return f"{word} {len(where)}" + (f" first {where[0]} last {where[-1]}" if where else "")


def timeline(marks, width):
    columns = [marks[at : at + width] for at in range(0, len(marks), width)]
    return "".join("#" if all(it) else "+" if any(it) else "." for it in columns)


def counting_lines(watched, place, at, width):
    """The lines of a condition that hands nothing on."""
    group, frames = watched.groups[place], watched.frames
    it = group.conditions[at]
    rows = [frame.stepped.shown[place].rows[at] for frame in frames]
    live = [watched.is_live(frame, place, at) for frame in frames]
    counts = [alive and row.met and not row.reset for row, alive in zip(rows, live)]
    line = f" {times('counts', counts)} hits {watched.kept.hits[place][at]}"
    if it.target:
        best = max((row.total for row, alive in zip(rows, live) if alive), default=0)
        first = next((at for at, row in enumerate(rows) if live[at] and row.total == best), None) if best else None
        line += f" of {it.target} best {best} at {'none' if first is None else first}"
    lines = [line]
    if not any(counts) and rows:
        sides = [[column[frame.moment] for frame in frames] for column in (group.lefts[at], group.rights[at])]
        (a, b), (c, d) = [(min(side), max(side)) for side in sides]
        lines.append(f" left {a} to {b} right {c} to {d}")
    if any(counts) and not all(counts):
        lines.append(" " + timeline(counts, width))
    return lines


def condition_lines(watched, place, at, width):
    it = watched.groups[place].conditions[at]
    lines = [f"{place}.{at} {it.text()}"]
    if it.flag not in HANDS_ON:
        lines += counting_lines(watched, place, at, width)
    past = [watched.is_past(frame, place, at) for frame in watched.frames]
    return lines + [" " + times("past memory", past)] * any(past)


def nearest_line(watched):
    frames = watched.frames
    if not frames:
        return "nearest none"
    calm = [at for at, it in enumerate(frames) if not it.stepped.reset] or list(range(len(frames)))
    fewest = min(len(watched.wanted(frames[at])) for at in calm)
    at = max(at for at in calm if len(watched.wanted(frames[at])) == fewest)
    wanted = " ".join(watched.wanted(frames[at])) or "nothing"
    return f"nearest {at} wants {wanted}" + (" reset" if frames[at].stepped.reset else "")


def account(watched, number):
    frames, kept = watched.frames, watched.kept
    width = 1
    while 60 * width < len(frames):
        width *= 2
    lines = [f"unlock {len(frames) - 1} {number}" if kept.state == TRIGGERED else f"no unlock {number}"]
    lines.append(f"frames {len(frames)} state {STATES[kept.state]} measured {kept.measured}" + (f" column {width}" if width > 1 else ""))
    for place, group in enumerate(watched.groups):
        for at in range(group.size):
            lines += condition_lines(watched, place, at, width)
    lines.append(times("resets", [it.stepped.reset for it in frames]))
    lines.append(times("paused", [it.stepped.paused for it in frames]))
    lines.append(times("waited", [it.waited for it in frames]))
    lines.append(nearest_line(watched))
    return "".join(line + "\n" for line in lines)


# ---- rounds


class Drawing:
    """Draws triggers over few addresses and traces that move them."""

    def __init__(self, seed):
        self.r = random.Random(seed)
        self.size = self.r.choice([4, 8, 9, 16, 32])

    def operand(self):
        r = self.r
        match r.randrange(12):
            case 0 | 1 | 2:
                return Operand("constant", r.choice([0, 0, 1, 1, 2, 3, 5, WORD - 1]))
            case 3:
                return Operand("recall") if r.randrange(3) == 0 else Operand("constant", 1)
        prefix = r.choice(["", "", "", "", "d", "p", "b", "~"])
        size = r.choice("HHHHHHHMNTLUK IWJXG")
        return Operand("memory", r.randrange(self.size + (3 if r.randrange(8) == 0 else 0)), prefix, size)

    def condition(self):
        r = self.r
        flag = r.choice(["", "", "", "", "P", "R", "T", "M", "G", "Q", "A", "B", "C", "D", "N", "O", "Z", "I", "K"])
        left = self.operand()
        if flag in HANDS_ON:
            if r.randrange(2):
                return Condition(flag, left, "", ZERO, 0)
            return Condition(flag, left, r.choice("*/&^%+-"), self.operand(), 0)
        operator = r.choice(["=", "=", "=", "!=", "<", "<=", ">", ">="])
        right = self.operand() if r.randrange(3) == 0 else Operand("constant", r.choice([0, 1, 1, 2, 3]))
        return Condition(flag, left, operator, right, r.choice([0, 0, 0, 1, 2, 3, 4, 7, 20]))

    def trigger(self):
        counts = [self.r.randrange(6) for _ in range(self.r.choice([1, 1, 1, 2, 3, 4]))]
        return [[self.condition() for _ in range(count)] for count in counts]

    def records(self):
        r, records, saved = self.r, [], set()
        for _ in range(r.choice(FRAMES)):
            for _ in range(r.choice([0, 0, 1, 1, 2])):
                at = r.randrange(self.size)
                new = bytes(r.choice([0, 0, 1, 1, 2, 3, 16, 255]) for _ in range(r.choice([1, 1, 1, 2])))[: self.size - at]
                records.append(b"W" + at.to_bytes(4, "little") + len(new).to_bytes(2, "little") + new)
            if r.randrange(25) == 0:
                saved.add(r.randrange(3))
                records.append(b"S" + bytes([max(saved)]))
                saved = {*saved}
            if saved and r.randrange(30) == 0:
                records.append(b"R" + bytes([max(saved)]))
            if r.randrange(40) == 0:
                records.append(b"P")
            records.append(b"F")
        match r.randrange(30):
            case 0:
                records.insert(r.randrange(len(records) + 1), b"R\x0f")
            case 1:
                records.insert(r.randrange(len(records) + 1), b"?")
            case 2:
                records.insert(r.randrange(len(records) + 1), b"W" + self.size.to_bytes(4, "little") + b"\x01\0\1")
            case 3:
                return records
        return records + [b"E"]


def ran(author, folder, set_text, trace, number):
    for name, content in (("set", set_text.encode()), ("trace", trace)):
        with open(f"{folder}/{name}", "wb") as out:
            out.write(content)
    it = subprocess.run([author, "why", f"{folder}/set", f"{folder}/trace", str(number)], capture_output=True, check=False)
    return it.returncode, it.stdout.decode()


def one_round(author, folder, seed):
    """Whether a round agrees, whether it is refused, and whether it unlocks."""
    drawing = Drawing(seed)
    groups, number = drawing.trigger(), 1 + seed % 3
    records = drawing.records()
    set_text = f"A {number} " + "S".join("_".join(it.text() for it in group) for group in groups) + f"\nL {number + 1} VALUE STA:0=1::CAN:0=1::SUB:0=1::VAL:5\n"
    trace = b"RATR\x01" + drawing.size.to_bytes(4, "little") + b"".join(records)
    if seed % 50 == 0:
        expected = (12, f"why refused: no achievement {number + 1}\n")
        return ran(author, folder, set_text, trace, number + 1) == expected, True, False
    course = course_of(drawing.size, records)
    watched = Watched(course, groups)
    refused = None if watched.unlocks else course.refusal
    expected = (7, refused) if refused else (0, account(watched, number))
    found = ran(author, folder, set_text, trace, number)
    if found != expected:
        with open(f"{folder}/expected", "w", encoding="utf-8") as out:
            out.write(f"{expected[0]}\n{expected[1]}")
        with open(f"{folder}/found", "w", encoding="utf-8") as out:
            out.write(f"{found[0]}\n{found[1]}")
    return found == expected, bool(refused), watched.unlocks


def main(words):
    author = os.path.abspath(words[0]) if words else f"{ROOT}/crates/ra_author/out/ra_author"
    rounds, seed = (int(words[1]) if len(words) > 1 else 100), (int(words[2]) if len(words) > 2 else 1)
    different = refused = unlocked = 0
    for at in range(seed, seed + rounds):
        folder = tempfile.mkdtemp(prefix=f"why_{at}_")
        same, stops, unlocks = one_round(author, folder, at)
        refused, unlocked = refused + stops, unlocked + unlocks
        if same:
            for name in ("set", "trace"):
                os.remove(f"{folder}/{name}")
            os.rmdir(folder)
        else:
            different += 1
            if different <= 3:
                print(f"round {at} differs: {folder}")
    print(f"rounds {rounds} refused {refused} unlocked {unlocked} different {different}")
    return 1 if different else 0


if __name__ == "__main__":
    sys.exit(main(sys.argv[1:]))
