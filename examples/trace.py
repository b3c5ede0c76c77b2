#!/usr/bin/env python3
"""Writes a trace from lines of text, and prints a trace as such lines.

    examples/trace.py write TEXT TRACE     writes the trace that the lines of TEXT say
    examples/trace.py show TRACE           prints TRACE as such lines

A line is one of these; what stands behind a '#', and an empty line, is passed over:

    size 64     the size of the memory in bytes, decimal; once, before all others; 65536 where it is left out
    W 10=05ff   a write of the bytes 05 and ff at the address 10, both hexadecimal
    F           a frame; F 60 is sixty frames
    S 0         a save to slot 0; slots are 0 to 15
    R 0         a restore of slot 0
    P           the presence line is shown
    E           the end; it is added where no line says it

A dash for TEXT or TRACE is the standard input or output.
"""

import sys

MARK = b"RATR\x01"
MOST_SIZE = 134_217_728


def write_of(at, written, size):
    """The bytes of a write, where it fits."""
    if at < 0 or at + len(written) > size:
        raise ValueError(f"the write passes the memory of {size} bytes")
    if len(written) > 65535:
        raise ValueError("a write has at most 65535 bytes")
    return b"W" + at.to_bytes(4, "little") + len(written).to_bytes(2, "little") + written


def record_of(letter, rest, size):
    """The bytes of the records of a line: its letter, and the words behind it."""
    if letter in ("F", "P", "E") and not rest:
        return letter.encode()
    if len(rest) == 1:
        word = rest[0]
        if letter == "F" and word.isdecimal():
            return b"F" * int(word)
        if letter in ("S", "R") and word.isdecimal() and int(word) < 16:
            return letter.encode() + bytes([int(word)])
        if letter == "W" and "=" in word:
            place, _, digits = word.partition("=")
            return write_of(int(place, 16), bytes.fromhex(digits), size)
    raise ValueError("no such line")


def trace_of(text):
    """The trace that the lines of a text say."""
    size, records = 65536, []
    for number, line in enumerate(text.splitlines(), 1):
        words = line.partition("#")[0].split()
        try:
            if words and words[0] == "size":
                if records or len(words) != 2 or not words[1].isdecimal() or int(words[1]) > MOST_SIZE:
                    raise ValueError(f"the size comes first, and is a number of at most {MOST_SIZE}")
                size = int(words[1])
            elif words:
                records.append(record_of(words[0], words[1:], size))
        except ValueError as why:
            sys.exit(f"line {number}: {line.strip()}: {why}")
    if not records or records[-1] != b"E":
        records.append(b"E")
    return MARK + size.to_bytes(4, "little") + b"".join(records)


def lines_of(trace):
    """The lines of a trace, up to its end record or to its first bad record, which the last line tells."""
    size = int.from_bytes(trace[5:9], "little")
    if len(trace) < 9 or trace[:5] != MARK or size > MOST_SIZE:
        yield "# refused at 0: header"
        return
    yield f"size {size}"
    at, filled = 9, set()
    while True:
        letter, slot = trace[at : at + 1], trace[at + 1 : at + 2]
        place = int.from_bytes(trace[at + 1 : at + 5], "little")
        count = int.from_bytes(trace[at + 5 : at + 7], "little")
        known = {b"W": 7, b"F": 1, b"S": 2, b"R": 2, b"P": 1, b"E": 1, b"": 1}
        length = known.get(letter, 0) + (count if letter == b"W" else 0)
        why = None
        if letter not in known:
            why = "kind"
        elif at + length > len(trace):
            why = "cut"
        elif letter == b"W" and place + count > size:
            why = "memory"
        elif letter in (b"S", b"R") and slot[0] > 15:
            why = "slot"
        elif letter == b"R" and slot not in filled:
            why = "empty"
        if why:
            yield f"# refused at {at}: {why}"
            return
        if letter == b"W":
            yield f"W {place:x}={trace[at + 7 : at + length].hex()}"
        elif letter in (b"S", b"R"):
            yield f"{letter.decode()} {slot[0]}"
        else:
            yield letter.decode()
        if letter == b"S":
            filled.add(slot)
        if letter == b"E":
            return
        at += length


def read(name):
    if name == "-":
        return sys.stdin.buffer.read()
    with open(name, "rb") as file:
        return file.read()


def main(words):
    if len(words) == 3 and words[0] == "write":
        made = trace_of(read(words[1]).decode())
        if words[2] == "-":
            sys.stdout.buffer.write(made)
        else:
            with open(words[2], "wb") as file:
                file.write(made)
    elif len(words) == 2 and words[0] == "show":
        print("\n".join(lines_of(read(words[1]))))
    else:
        sys.exit(__doc__.strip())


main(sys.argv[1:])
