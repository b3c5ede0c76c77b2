#!/usr/bin/env python3
"""Makes the sets and traces that bench/run.sh plays: bench/workloads.py FOLDER FRAMES.

large.set    4 MiB with 8,192 achievements of 8 conditions
many.set     4,000 achievements of 8 conditions, over many.trace: FRAMES frames, each behind 4 writes of one byte
             and over still.trace: FRAMES frames and no write
none.set     no items, over great.trace: one frame over an image of 128 MiB
             over some-writes.trace: FRAMES writes of one byte, and over ten-writes.trace: ten of them
             over frames.trace: 1,048,576 frames, and over writes.trace: 1,048,576 writes of one byte
             over long.trace: 16 MiB of frames; bench/long.sh plays a trace of 1 GiB

Those of bench/parts.sh:
real.set     120 achievements of 12 conditions with pointers, deltas and hits, 2 leaderboards, and a script of 30 lines,
             over real.trace: FRAMES frames, each after 30 writes of one byte; real-one.trace has one of these frames
             over real-S.trace, for S of 0.3, 1, 2 and 5: FRAMES frames, each after a write to S % of the bytes at places
             that the set names; real-S-one.trace has one of these frames
items.set    16,384 achievements of one condition, over one.trace: one frame
lines.set    an achievement that tells a measured number at each frame, over counts.trace: 65,536 frames
             quiet.set has the same achievement and tells nothing
many.set     over saves.trace and restores.trace: 100 of these records; over saved.trace: one save
             over restored.trace: 100 restores, each with a frame behind it
             over many-ten.trace: ten frames with such writes, and over still-ten.trace: ten frames and no write
             over due.trace: 12 frames, each behind another value of every byte; due-one.trace has two of these frames,
             and in due-still.trace each has a frame with no write behind it
flips.set    4,000 achievements of 8 conditions over 8 bytes of their own, half of which hold where a byte is 0 and half where it is 255
             over flips-D.trace: 121 frames, at which by D change: each byte at each frame (1), each second (2), each third (3); 80 % of
             the items' bytes at each frame (80); each byte takes a random value (random); flips-D-one.trace has one of these frames
spread.set   120 achievements of 3 conditions over a byte each, 512 bytes apart and in mixed order
             over spread.trace: a write of 4,000 bytes, which eight of these bytes are among, and 220 frames; spread-few.trace has 20
looks.set    4,000 achievements of 8 conditions that look at one byte, of which 7 count hits, and one of 40 other bytes
             over looked.trace: 41 frames, each behind another value of this byte; looked-one.trace has one of these frames
             over woken.trace: such a frame behind 40 frames with no write, three times, and one more; rested.trace ends before that
look-lines.set  a display of 4,000 lines of such conditions, over the same traces
due-N.set    N achievements of 8 conditions, for N of 1, 4, 10, 40 and 400: the first looks at this byte, the others at four that stay,
             and all but the last count hits, over the same traces
due-lines-N.set  a display of N lines of such conditions
few.set      40 achievements of 8 conditions, over still.trace and still-ten.trace
small.set    a script of one line with a lookup of 8 texts and a format, over shows.trace: 65,536 shows of one frame
             shown.trace has one of these shows
keys.set     a script whose lookup has 262,144 keys lines, none of which holds the value, over ten.trace: ten shows
names.set    a script with 131,072 lookups of one text each, the last of which is shown, over the same traces
texts.set    4 MiB of display lines `??x`
macros.set   4 MiB of macros in one display line, which are more than a line may have
"""

import random
import re
import sys

MIB_4 = 4_194_304


def achievement(number):
    conditions = "_".join(f"0xH{random.randrange(65536):04x}={random.randrange(256)}" for _ in range(8))
    return f"A {number} {conditions}\n"


def large_set():
    """The most bytes and conditions that a set may have: comments fill it up to the last byte."""
    lines = [achievement(i + 1) for i in range(8192)]
    room = (MIB_4 - sum(map(len, lines))) // 8192
    text = "".join("#" + "x" * (room - 2) + "\n" + line for line in lines)
    return text + "#" * (MIB_4 - len(text))


def header(size):
    return b"RATR\x01" + size.to_bytes(4, "little")


def write(place, byte):
    return b"W" + place.to_bytes(4, "little") + b"\x01\0" + bytes([byte])


def many_trace(frames):
    trace = bytearray(header(65536))
    for _ in range(frames):
        for _ in range(4):
            place, byte = random.randrange(65536), random.randrange(256)
            trace += write(place, byte)
        trace += b"F"
    return bytes(trace + b"E")


def due_trace(frames, behind=b"F"):
    """Every byte takes another value before each frame, in two writes."""
    trace = bytearray(header(65536))
    for frame in range(frames):
        half = bytes((frame * 7 + place) % 256 for place in range(32768))
        for start in (0, 32768):
            trace += b"W" + start.to_bytes(4, "little") + len(half).to_bytes(2, "little") + half
        trace += behind
    return bytes(trace + b"E")


def flipping(number):
    """An achievement whose 8 comparisons come out otherwise where its bytes change between 0 and 255, and never unlocks."""
    pairs = [f"0xH{number * 16 + 2 * k:04x}{'<' if k % 2 else '>='}128" for k in range(8)]
    return f"A {number + 1} " + "_".join(pairs) + "\n"


def spread(number):
    """An achievement over a byte of its own, whose neighbours in the set lie far from it; it never unlocks."""
    place = f"0xH{number * 37 % 120 * 512:04x}"
    return f"A {number + 1} {place}=255.9._{place}<250.7._{place}=77.3.\n"


def spread_trace(frames):
    """Frames after a large write that few of the cells lie in."""
    large = b"W" + (16).to_bytes(4, "little") + (4000).to_bytes(2, "little") + bytes(4000)
    return header(65536) + b"F" * 20 + large + b"F" * frames + b"E"


def flip_trace(frames, kind):
    """Bytes that change between 0 and 255, or take random values, before frames, in two writes."""
    trace = bytearray(header(65536))
    dice = random.Random(7)
    share = 52_428 if kind == "80" else 65_536
    period = int(kind) if kind in ("2", "3") else 1
    for frame in range(frames):
        if frame % period == 0:
            half = share // 2
            for start in (0, half):
                byte = b"\xff" if frame // period % 2 else b"\0"
                content = dice.randbytes(half) if kind == "random" else byte * half
                trace += b"W" + start.to_bytes(4, "little") + half.to_bytes(2, "little") + content
        trace += b"F"
    return bytes(trace + b"E")


def behind_pointer(number):
    """An achievement of 4 comparisons, each behind the pointer at 0."""
    pairs = [f"I:0xH0000_0xH{random.randrange(16, 60000):04x}={random.randrange(256)}" for _ in range(4)]
    return f"A {number} " + "_".join(pairs) + "\n"


def pointer_trace(frames):
    """The memory is filled but for the pointer, and each frame behind two others moves it."""
    trace = bytearray(header(65536))
    filled = bytes((place * 7 + place // 251) % 256 for place in range(32767))
    for start in (1, 32768):
        trace += b"W" + start.to_bytes(4, "little") + len(filled).to_bytes(2, "little") + filled
    trace += b"FF"
    for frame in range(frames):
        trace += write(0, frame % 2 + 1) + b"F"
    return bytes(trace + b"E")


def looking(number):
    """An achievement that looks at the byte 0x10 and at one that stays, and never unlocks."""
    pairs = [f"0xH0010>{random.randrange(90)}" for _ in range(7)]
    return f"A {number} " + "_".join(pairs) + "_0xH0011=7\n"


def others(number):
    """An achievement of 40 other bytes, so that few of all nodes change."""
    return f"A {number} " + "_".join(f"0xH{0x100 + 32 * i:04x}=1" for i in range(40)) + "\n"


def looks_set():
    return "".join(looking(i + 1) for i in range(4000)) + others(4001)


def display_of(tests):
    """A display of a line for each of these tests, and a last line without one."""
    return "P\nDisplay:\n" + "".join(f"?{test}?x\n" for test in tests) + "y\n"


def look_lines_set():
    return others(4001) + display_of(looking(0).split(" ")[2].strip() for _ in range(4000))


def due(number):
    """Eight conditions of which the first looks at the byte 0x10, and the others at four bytes that stay. The last one fails."""
    stays = [f"0xH{0x100 + (number + k) % 4:04x}={7 if k == 7 else 0}" for k in range(1, 8)]
    return "_".join([f"0xH0010>{random.randrange(90)}"] + stays)


def due_sets(count):
    """A set of so many achievements of such conditions, and one of a display of so many lines of them."""
    tests = [due(i) for i in range(count)]
    items = "".join(f"A {i + 1} {test}\n" for i, test in enumerate(tests))
    return {f"due-{count}.set": items.encode(), f"due-lines-{count}.set": display_of(tests).encode()}


def looked_trace(frames, behind=b"", last=b""):
    """The byte 0x10 takes another value before each of so many frames."""
    records = b"".join(write(0x10, 100 + frame % 50) + b"F" + behind for frame in range(frames))
    return header(65536) + records + last + b"E"


def real_condition(turn):
    """Every third condition is behind a pointer, every fourth looks at a delta, every fifth counts hits."""
    place = random.randrange(0x4000)
    kind = "d" if turn % 4 == 1 else ""
    target = f".{random.randrange(2, 60)}." if turn % 5 == 2 else ""
    value = random.randrange(64)
    if turn % 3 == 0:
        return f"I:0x {0x4000 + 4 * random.randrange(256):04x}&1023_{kind}0xH{place % 64:04x}={value}{target}"
    return f"{kind}0xH{place:04x}={value}{target}"


def real_achievement(number):
    conditions, turn = [], 0
    while len(conditions) < 12:
        conditions += real_condition(turn).split("_")
        turn += 1
    last = conditions[11]
    conditions[11] = "0xH0010=5" if last.startswith("I:") else last
    return f"A {number} " + "_".join(conditions[:12]) + "\n"


def real_set():
    items = "".join(real_achievement(i + 1) for i in range(120))
    boards = "".join(
        f"L {i} SECS STA:0xH{16 + i:04x}=1::CAN:0xH{32 + i:04x}=1::SUB:0xH{48 + i:04x}=1::VAL:0x {64 + i:04x}\n"
        for i in (1, 2)
    )
    lookup = "Lookup:Stage\n" + "".join(f"{i}=Stage {i}\n" for i in range(8)) + "*=Elsewhere\n"
    tests = "".join(f"?0xH{i:04x}={200 + i}?On @Stage(0xH{128 + i:04x}) with @Number(0x {256 + 2 * i:04x})\n" for i in range(19))
    return items + boards + "P\n" + lookup + "Display:\n" + tests + "In @Stage(0xH0080)\n"


def real_trace(frames):
    trace = bytearray(header(0x8000))
    for _ in range(frames):
        for _ in range(30):
            trace += write(random.randrange(0x4400), random.randrange(64))
        trace += b"F"
    return bytes(trace + b"E")


def named_bytes(text):
    """The bytes at the places that a set names, but those that it reads behind a pointer."""
    cells = re.findall(r"(I:)?0x([H ])([0-9a-f]{4})(?:&1023_d?0xH[0-9a-f]{4})?", text)
    return sorted({int(place, 16) + k for _, size, place in cells for k in range(1 if size == "H" else 2)})


def share_trace(places, percent, frames):
    """Another value of so many percent of these bytes before each frame."""
    count = round(len(places) * percent / 100)
    trace = bytearray(header(0x8000))
    for _ in range(frames):
        for place in random.sample(places, count):
            trace += write(place, random.randrange(64))
        trace += b"F"
    return bytes(trace + b"E")


def small_script():
    lookup = "Lookup:Stage\n" + "".join(f"{i}=Stage {i}\n" for i in range(8)) + "*=Elsewhere\n"
    return "P\n" + lookup + "Format:Score\nFormatType=SCORE\nDisplay:\nIn @Stage(0xH0010) with @Score(0xH0020)\n"


def keys_script():
    keys = "".join(f"{i + 1}=x\n" for i in range(262_144))
    return "P\nLookup:Stage\n" + keys + "Display:\n@Stage(0xH0010)\n"


def names_script():
    lookups = "".join(f"Lookup:S{i:06x}\n0=x\n" for i in range(131_072))
    return "P\n" + lookups + "Display:\n@S01ffff(0xH0010)\n"


def display_script(part, last):
    """A display of as many of these parts as a set file holds, with this end behind them."""
    return "P\nDisplay:\n" + part * ((MIB_4 - 16) // len(part)) + last


def few_set():
    return "".join(f"A {i + 1} " + "_".join(f"0xH{i * 1600 + k * 200:04x}={k}" for k in range(8)) + "\n" for i in range(40))


def main(folder, frames):
    random.seed(1)
    files = {
        "large.set": large_set().encode(),
        "many.set": "".join(achievement(i + 1) for i in range(4000)).encode(),
        "few.set": few_set().encode(),
        "many.trace": many_trace(frames),
        "many-ten.trace": many_trace(10),
        "still.trace": header(65536) + b"F" * frames + b"E",
        "still-ten.trace": header(65536) + b"F" * 10 + b"E",
        "due.trace": due_trace(12),
        "due-one.trace": due_trace(2),
        "due-still.trace": due_trace(12, b"FF"),
        "none.set": b"",
        "great.trace": header(134_217_728) + b"FE",
        "frames.trace": header(65536) + b"F" * 1_048_576 + b"E",
        "writes.trace": header(65536) + write(16, 5) * 1_048_576 + b"E",
        "some-writes.trace": header(65536) + write(16, 5) * frames + b"E",
        "ten-writes.trace": header(65536) + write(16, 5) * 10 + b"E",
        "long.trace": header(0) + b"F" * 16_777_216 + b"E",
        "real.set": real_set().encode(),
        "real.trace": real_trace(frames),
        "real-one.trace": real_trace(1),
        "items.set": "".join(f"A {i + 1} 0xH{i:04x}=1\n" for i in range(16384)).encode(),
        "one.trace": header(65536) + b"FE",
        "lines.set": b"A 1 M:0xH0000=0.4000000.\n",
        "quiet.set": b"A 1 0xH0000=0.4000000.\n",
        "counts.trace": header(65536) + b"F" * 65_536 + b"E",
        "saved.trace": header(65536) + b"FS\0E",
        "saves.trace": header(65536) + b"F" + b"S\0" * 101 + b"E",
        "restores.trace": header(65536) + b"FS\0" + b"R\0" * 100 + b"E",
        "restored.trace": header(65536) + b"FS\0" + b"R\0F" * 100 + b"E",
        "small.set": small_script().encode(),
        "shown.trace": header(65536) + b"FPE",
        "shows.trace": header(65536) + b"F" + b"P" * 65_537 + b"E",
        "ten.trace": header(65536) + b"F" + b"P" * 11 + b"E",
        "keys.set": keys_script().encode(),
        "names.set": names_script().encode(),
        "texts.set": display_script("??x\n", "x\n").encode(),
        "macros.set": display_script("@Number(0xH0010)", "\n").encode(),
        "pointers.set": "".join(behind_pointer(i + 1) for i in range(4000)).encode(),
        "pointers.trace": pointer_trace(21),
        "pointers-one.trace": pointer_trace(1),
        "flips.set": "".join(flipping(i) for i in range(4000)).encode(),
        "spread.set": "".join(spread(i) for i in range(120)).encode(),
        "spread.trace": spread_trace(220),
        "spread-few.trace": spread_trace(20),
        "looks.set": looks_set().encode(),
        "look-lines.set": look_lines_set().encode(),
        "looked.trace": looked_trace(41),
        "looked-one.trace": looked_trace(1),
        "woken.trace": looked_trace(3, b"F" * 40, write(0x10, 151) + b"F"),
        "rested.trace": looked_trace(3, b"F" * 40),
    }
    for kind in ("1", "2", "3", "80", "random"):
        files[f"flips-{kind}.trace"] = flip_trace(121, kind)
        files[f"flips-{kind}-one.trace"] = flip_trace(1, kind)
    for count in (1, 4, 10, 40, 400):
        files |= due_sets(count)
    places = named_bytes(files["real.set"].decode())
    for share in (0.3, 1, 2, 5):
        files[f"real-{share}.trace"] = share_trace(places, share, frames)
        files[f"real-{share}-one.trace"] = share_trace(places, share, 1)
    for name, content in files.items():
        with open(f"{folder}/{name}", "wb") as file:
            file.write(content)


if __name__ == "__main__":
    main(sys.argv[1], int(sys.argv[2]))
