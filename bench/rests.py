#!/usr/bin/env python3
"""Random sets over random writes: the player, the player whose frames compute all anew, and a model of the rules.

    bench/rests.py [PLAYER [ROUNDS [SEED]]]

PLAYER is the built program; where it is not named it is found, or built. Each of ROUNDS rounds, 1,000 where they are not
named, draws a set and a trace, and for two in five of them a progress file to begin with, of this set or of one of which it is a
change, of any version and with any numbers in it. SEED, 1 where it is not named, is that of the first round, and each further
round takes the next one.

The player plays the trace as it is, and with a save to slot 0 and a restore of it before each frame. After a restore every node,
item and line is due, so such a frame is the linear step. The model (bench/model.py) reads the same set and computes each frame from the
images of the history, by docs/DEFINITIONS.md alone. All three have to say the same: status, lines, and the file that is put. Where
they do not, the first three times, the set and the trace are cut down as long as they differ, kept in a folder, and told. The
last line counts the rounds, those that the player refuses, and what was printed; the status is 1 where a round differs.
"""
import os
import random
import re
import subprocess
import sys
import tempfile
from itertools import zip_longest
from typing import NamedTuple, Optional

from model_files import played
from model_texts import read_set
from rests_sets import FileDrawing, SetDrawing, drawn_ground, set_bytes
from rests_traces import TraceDrawing

NO_SET = 3
NO_PROGRESS = 6
KEPT = 3


class Round(NamedTuple):
    """A set, as its items and the lines of its script, a trace of so much memory, a progress file to begin with, and whether one is put."""

    items: list[str]
    script: list[str]
    size: int
    records: list[bytes]
    start: Optional[bytes]
    saves: bool

    def text(self):
        return set_bytes(self.items, self.script)

    def trace(self, linear):
        before = b"S\0R\0F" if linear else b"F"
        records = (before if record == b"F" else record for record in self.records)
        return b"RATR\x01" + self.size.to_bytes(4, "little") + b"".join(records) + b"E"


class Said(NamedTuple):
    """The status of a run, what it printed, and the file that it put."""

    status: int
    text: bytes
    file: bytes


class Player:
    """The program, with a folder for its files."""

    def __init__(self, program, folder):
        self.program = program
        self.folder = folder

    def put(self, name, content):
        path = os.path.join(self.folder, name)
        with open(path, "wb") as file:
            file.write(content)
        return path

    def play(self, drawn, linear):
        end = self.put("end", b"")
        words = [self.program, "run", self.put("set", drawn.text()), self.put("trace", drawn.trace(linear))]
        words += ["--restore", self.put("start", drawn.start)] if drawn.start is not None else []
        words += ["--save", end] if drawn.saves else []
        run = subprocess.run(words, stdout=subprocess.PIPE, stderr=subprocess.STDOUT, timeout=60)
        with open(end, "rb") as file:
            return Said(run.returncode, run.stdout, file.read())

    def found(self, drawn, plain):
        """Where the runs of a round differ, of which the plain one is given, or nothing. A set that is refused does not count."""
        if plain.status == NO_SET:
            return None
        difference = where(plain, modelled(drawn), "the model")
        if difference or plain.status:
            return difference
        return where(plain, self.play(drawn, True), "the linear step")

    def difference(self, drawn):
        return self.found(drawn, self.play(drawn, False))


def modelled(drawn):
    """What the model says of a round."""
    run = played(read_set(drawn.text()), drawn.size, [*drawn.records, b"E"], drawn.start)
    return Said(run.status, run.text, run.file.spelled() if run.file and drawn.saves else b"")


def where(plain, other, name):
    """The first difference of two runs, or nothing."""
    pairs = zip_longest(plain.text.splitlines(), other.text.splitlines(), fillvalue=b"nothing")
    for number, (one, two) in enumerate(pairs, 1):
        if one != two:
            return f"line {number}: {one.decode('latin-1')}, and by {name} {two.decode('latin-1')}"
    if plain.status != other.status:
        return f"status {plain.status}, and by {name} {other.status}"
    for at, (one, two) in enumerate(zip_longest(plain.file, other.file)):
        if one != two:
            return f"byte {at} of the progress file: {one}, and by {name} {two}"
    return None


def without(row, differs):
    """What is left of a row when pieces are taken out, the whole first, as long as it differs."""
    step = max(1, len(row))
    while True:
        at, before = 0, len(row)
        while at < len(row):
            less = row[:at] + row[at + step :]
            if differs(less):
                row = less
            else:
                at += step
        if step == 1 and len(row) == before:
            return row
        step = max(1, step // 2)


def cut_down(player, drawn):
    """The least that is found of a round that differs."""
    for name in ("records", "items", "script", "records"):
        less = without(getattr(drawn, name), lambda row: player.difference(drawn._replace(**{name: row})))
        drawn = drawn._replace(**{name: less})
    for name in ("items", "script"):
        for place in range(len(getattr(drawn, name))):
            drawn = with_shorter_line(player, drawn, name, place)
    return drawn


def with_shorter_line(player, drawn, name, place):
    """A round that differs, without the conditions of a line that do not matter."""
    lines = getattr(drawn, name)
    of = lambda words: drawn._replace(**{name: [*lines[:place], "".join(words), *lines[place + 1 :]]})
    return of(without(re.split("(?=_|::|[$])", lines[place]), lambda words: player.difference(of(words))))


def keep(player, drawn, seed, difference):
    """Tells a round that differs, cuts it down, and keeps that."""
    print(f"seed {seed}: {difference}", flush=True)
    least = cut_down(player, drawn)
    folder = tempfile.mkdtemp(prefix=f"rests-{seed}-")
    contents = dict(set=least.text(), trace=least.trace(False), linear=least.trace(True), start=least.start, model=modelled(least).text)
    for name, content in contents.items():
        if content is not None:
            with open(os.path.join(folder, name), "wb") as file:
                file.write(content)
    print(f"cut down in {folder}: {player.difference(least)}", flush=True)


def drawn_round(seed):
    """A set, a trace, and now and then a progress file that a shorter trace left, with other numbers."""
    r = random.Random(seed)
    ground = drawn_ground(r)
    drawing = SetDrawing(r, ground)
    items, script = drawing.items(), drawing.script()
    trace = lambda: TraceDrawing(r, ground, drawing.places, drawing.pointers).drawn()
    drawn = Round(items, script, ground.size, trace(), None, r.random() < 0.8)
    k = r.random()
    if k < 0.2:
        start = FileDrawing(r, items, script).drawn(ground.size, trace()[:40], r.choice([3, 3, 2, 1]))
    elif k < 0.4:
        start = FileDrawing(r, *drawing.earlier(items, script)).drawn(ground.size, trace()[:40], r.choice([3, 3, 2]))
    else:
        return drawn
    return drawn._replace(start=start)


class Counts:
    """What the rounds had and printed, for the last line."""

    def __init__(self):
        self.figures = dict(rounds=0, refused=0, different=0, begun_with_files=0, without_a_save=0, frames=0)
        words = [b"unlock", b"primed", b"measured", b"start", b"track", b"cancel", b"submit", b"presence"]
        self.told = dict.fromkeys(words, 0)

    def note(self, drawn, plain):
        self.figures["rounds"] += 1
        self.figures["frames"] += drawn.records.count(b"F")
        self.figures["begun_with_files"] += drawn.start is not None
        self.figures["without_a_save"] += not drawn.saves
        self.figures["refused"] += plain.status in (NO_SET, NO_PROGRESS)
        for line in plain.text.splitlines():
            word = line.split(b" ")[0]
            if word in self.told:
                self.told[word] += 1

    def line(self):
        counts = ", ".join(f"{count} {name}" for name, count in self.figures.items())
        return f"{counts}; lines: " + ", ".join(f"{count} {word.decode()}" for word, count in self.told.items())


def main(program, rounds=1000, seed=1):
    counts = Counts()
    with tempfile.TemporaryDirectory() as folder:
        player = Player(program, folder)
        for number in range(seed, seed + rounds):
            drawn = drawn_round(number)
            plain = player.play(drawn, False)
            counts.note(drawn, plain)
            if plain.status == NO_SET:
                print(f"seed {number} is refused: {plain.text.splitlines()[-1].decode()}")
            difference = player.found(drawn, plain)
            if difference:
                counts.figures["different"] += 1
                if counts.figures["different"] <= KEPT:
                    keep(player, drawn, number, difference)
    print(counts.line())
    return 1 if counts.figures["different"] else 0


def found_player(name):
    """The player that player.sh finds."""
    script = '. "$(dirname "$0")/player.sh"; find_player "$1"; echo "$player"'
    run = subprocess.run(["sh", "-ec", script, os.path.abspath(__file__), name], stdout=subprocess.PIPE, check=True)
    return run.stdout.decode().strip()


if __name__ == "__main__":
    sys.exit(main(found_player("".join(sys.argv[1:2])), *map(int, sys.argv[2:4])))
