#!/usr/bin/env python3
"""The C library beside the player.

compare PLAYER PLAY SAFE N    plays N generated sets and traces by the player and by examples/c's play, which is also
                              built with sanitizers as SAFE, over one bank and over three, and counts those
                              that print something else
sets FOLDER FRAMES            makes hundred.set: 100 achievements of 8 conditions, and hundred.trace: FRAMES frames over a
                              memory of 2 MiB, each behind 8 writes of one byte
"""
import os
import random
import subprocess
import sys
import tempfile

sys.dont_write_bytecode = True
from normal_texts import drawn_set, drawn_trace
from workloads import achievement, header, write


def printed(*words):
    run = subprocess.run(words, stdout=subprocess.PIPE, stderr=subprocess.PIPE, timeout=120)
    return run.returncode, run.stdout


def compare(player, play, safe, count):
    r = random.Random(47)
    figures = dict(sets=0, refused=0, other=0, lines=0)
    with tempfile.TemporaryDirectory() as folder:
        words = os.path.join(folder, "set"), os.path.join(folder, "trace")
        for _ in range(count):
            for name, content in zip(words, (drawn_set(r)[0], drawn_trace(r))):
                with open(name, "wb") as file:
                    file.write(content)
            wanted = printed(player, "run", *words)
            runs = [printed(play, *words), printed(play, *words, "3"), printed(safe, *words), printed(safe, *words, "3")]
            figures["sets"] += 1
            figures["refused"] += wanted[0] != 0
            figures["other"] += any(run != wanted for run in runs)
            figures["lines"] += wanted[1].count(b"\n")
    print(figures)
    return figures["other"]


def sets(folder, frames):
    random.seed(2)
    trace = bytearray(header(2_097_152))
    for _ in range(frames):
        for _ in range(8):
            trace += write(random.randrange(65536), random.randrange(256))
        trace += b"F"
    for name, content in (("hundred.set", "".join(achievement(i + 1) for i in range(100)).encode()), ("hundred.trace", bytes(trace + b"E"))):
        with open(os.path.join(folder, name), "wb") as file:
            file.write(content)


if __name__ == "__main__":
    if sys.argv[1] == "compare":
        sys.exit(1 if compare(sys.argv[2], sys.argv[3], sys.argv[4], int(sys.argv[5])) else 0)
    sets(sys.argv[2], int(sys.argv[3]))
