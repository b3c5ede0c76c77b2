"""Drawn traces for bench/rests.py: records of writes, frames, shows, saves and restores over a memory."""

BYTES = [0, 0, 0, 1, 1, 1, 2, 2, 3] * 2 + [4, 5, 15, 16, 0x12, 0x99, 255]
PAGE = 16
MOST = 65535


class Flood:
    """Frames from one on up to another before which much of the memory is written: each `period` frames, this share of it."""

    def __init__(self, r, first, length):
        self.first, self.end = first, first + length
        self.period, self.share = r.choice([(1, 1), (2, 1), (3, 1), (1, 0.8)])
        self.is_whole = r.random() < 0.5

    def is_at(self, frame):
        return self.first <= frame < self.end and not (frame - self.first) % self.period


class TraceDrawing:
    """Draws the records of a trace. Most frames have no write before them or one; numbers come back to what they were.

    In some traces a byte counts the frames, or two, as a game's frame counter and its timer do, in some each frame has
    many writes, and in some floods come and go, up to a frame or to the end."""

    def __init__(self, r, ground, places, pointers):
        self.r, self.ground = r, ground
        self.counters = r.sample(places, min(len(places), r.choice([0, 0, 1, 2])))
        self.dense = r.random() < 0.2
        self.floods = self.drawn_floods() if r.random() < 0.3 else []
        self.frame = 0
        self.places = places + pointers * 3
        self.image = bytearray(ground.size)
        self.earlier, self.records, self.slots = [], [], []

    def drawn_floods(self):
        r, floods, at = self.r, [], self.r.choice([0, 0, 1, 5, 20])
        lengths = [4, 9, 30, 70, 10_000] if self.ground.size < 1000 else [1, 2, 4, 9, 30]
        for _ in range(r.choice([1, 1, 2, 3])):
            floods.append(Flood(r, at, r.choice(lengths)))
            at = floods[-1].end + r.choice([1, 2, 6, 10, 70])
        return floods

    # ---- writes

    def write(self, at, written):
        """A write of at most as many bytes as a record may have, as far as the memory goes."""
        written = bytes(written)[: max(0, self.ground.size - at)]
        for start in range(0, max(1, len(written)), MOST):
            self.put(at + start, written[start : start + MOST])

    def put(self, at, written):
        if at > self.ground.size:
            return
        self.earlier.append((at, bytes(self.image[at : at + len(written)])))
        self.image[at : at + len(written)] = written
        self.records.append(b"W" + at.to_bytes(4, "little") + len(written).to_bytes(2, "little") + written)

    def fill(self, at, count):
        """Bytes to write from a place on: any, or those that are there but for one."""
        if self.r.random() < 0.3:
            written = bytearray(self.image[at : at + count])
            if written:
                written[self.r.randrange(len(written))] = self.r.choice(BYTES)
            return written
        few = bytes(self.r.choices(BYTES, k=min(count, 61)))
        return (few * (count // len(few) + 1))[:count] if few else few

    def write_one(self):
        self.write(self.r.choice(self.places), [self.r.choice(BYTES)])

    def write_some(self):
        at = self.r.choice(self.places)
        self.write(at, self.r.choices(BYTES, k=self.r.choice([2, 3, 4, 8, 20])))

    def write_back(self):
        if self.earlier:
            self.write(*self.earlier[-1] if self.r.random() < 0.7 else self.r.choice(self.earlier))

    def write_again(self):
        at = self.r.choice(self.places)
        self.write(at, self.image[at : at + self.r.choice([0, 1, 1, 4])])

    def write_many(self):
        for _ in range(self.r.choice([3, 8, 20])):
            self.write_one()

    def write_row(self):
        """Writes side by side: they rise, fall or come in any order, and overlap, touch or leave gaps."""
        size = self.ground.size
        length = self.r.choice([1, 2, 5, 16, 17, 31, size // 8 + 1, size // 8 + 1, size // 4 + 1, size // 2 + 1])
        step = max(1, length + self.r.choice([0, 0, 0, -1, 1, 3, 16, -(length // 2)]))
        count = self.r.choice([1, 2, 2, 3, 4])
        start = self.row_start(step * (count - 1) + length)
        row = [start + step * k for k in range(count)]
        order = self.r.choice(["rises", "rises", "falls", "falls", "any"])
        if order == "falls":
            row.reverse()
        elif order == "any":
            self.r.shuffle(row)
        for at in row:
            if 0 <= at < size:
                self.write(at, self.fill(at, length))

    def row_start(self, length):
        """Where a row of so many bytes starts: at the border after a place or before it, or at it, so that it ends there, or at an end."""
        place = self.r.choice(self.places)
        border = place // PAGE * PAGE
        starts = [border + PAGE, border, place, place + 1, place - length, self.ground.size - length, 0]
        return max(0, self.r.choice(starts))

    def write_all(self, start, end):
        """All bytes of a range, by one write or by two."""
        cut = start + self.r.choice([0, 0, 0, 5, (end - start) // 2])
        pieces = [(start, min(cut, end)), (min(cut, end), end)]
        if self.r.random() < 0.2:
            pieces.reverse()
        for first, last in pieces:
            if first < last:
                self.write(first, self.fill(first, last - first))

    def write_most(self, start, end, share):
        block = max(1, (end - start) // 64)
        for at in range(start, end, block):
            if self.r.random() < share:
                self.write(at, self.r.choices(BYTES, k=1) * min(block, end - at))

    def write_flood(self, flood):
        start, end = (0, self.ground.size) if flood.is_whole else self.ground[1:]
        if flood.share == 1:
            self.write_all(start, end)
        else:
            self.write_most(start, end, flood.share)

    # ---- frames

    def count_frame(self):
        for number, at in enumerate(self.counters):
            if number == 0 or self.r.random() < 0.1:
                self.write(at, [(self.image[at] + 1) % self.r.choice([256, 256, 8])])
        for flood in self.floods:
            if flood.is_at(self.frame):
                self.write_flood(flood)
        if self.dense:
            for _ in range(self.r.choice([1, 2, 6])):
                self.write_one()

    def frames(self, count, shown, quiet=False):
        for _ in range(count):
            if not quiet:
                self.count_frame()
            self.frame += 1
            self.records.append(b"F")
            if self.r.random() < shown:
                self.records.append(b"P")

    def slot(self):
        if self.slots and self.r.random() < 0.5:
            self.records.append(b"R" + bytes([self.r.choice(self.slots)]))
        else:
            self.slots.append(self.r.randrange(1, 16))
            self.records.append(b"S" + bytes([self.slots[-1]]))
        if self.r.random() < 0.3:
            self.records.append(b"P")

    def drawn(self):
        r = self.r
        still, shown, slots = r.choice([0.3, 0.5, 0.8]), r.choice([0, 0.2, 1, 1, 1]), r.choice([0, 0.05, 0.15])
        writes = [self.write_one] * 10 + [self.write_back] * 6 + [self.write_row] * r.choice([1, 1, 10])
        writes += [self.write_again, self.write_some, self.write_many]
        steps = r.choice([1, 3, 10, 30, 30, 30, 60, 60, 120])
        quiet = r.randrange(steps) if r.random() < 0.08 else None
        if r.random() < 0.1:
            self.records.append(b"P")
        for step in range(steps):
            if r.random() > still:
                r.choice(writes)()
            if r.random() < 0.04:
                self.write_one()
                self.write_back()
            self.frames(r.choice([1] * 30 + [0, 2, 3, 5, 20, 50]), shown)
            if step == quiet:
                self.frames(r.choice([100, 200, 300]), 0.05, quiet=True)
            if r.random() < slots:
                self.slot()
        if self.slots and r.random() < 0.3:
            self.slot()
        return self.records
