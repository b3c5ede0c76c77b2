#!/usr/bin/env python3
"""Tells what the player and rcheevos say of the items of a set, for each item that has a name in the comment above it.

    differences.py SET PLAYER RCHEEVOS

PLAYER and RCHEEVOS are files with the lines of the two; a value's place is told with its first line that differs. Ends with
status 1 where an item has the same lines in both, since then its name tells nothing.
"""

import sys

KINDS = {"A": ("unlock",), "L": ("start", "cancel", "submit"), "P": ("presence",)}


def named_items(path):
    """The name, the kind and the id of each item."""
    name = None
    with open(path, encoding="latin-1") as lines:
        for line in lines:
            words = line.split()
            if line.startswith("# "):
                name = line[2:].strip()
            elif words and words[0] in KINDS and name:
                yield name, words[0], words[1] if len(words) > 1 else None
                if words[0] == "P":
                    return


def lines_of(path, kind, item):
    """The lines of an item: at their frames, and of an achievement or leaderboard those of its id."""
    with open(path, encoding="latin-1") as lines:
        for line in lines:
            words = line.split()
            if words and words[0] in KINDS[kind] and (item is None or words[2] == item):
                yield line.rstrip("\n")


def main(words):
    if len(words) != 3:
        sys.exit(__doc__.strip())
    same = 0
    for name, kind, item in named_items(words[0]):
        here, there = (list(lines_of(path, kind, item)) for path in words[1:])
        print(name)
        pairs = [(a, b) for a, b in zip(here, there) if a != b]
        if len(here) != len(there):
            print(f"    here {len(here)} lines, rcheevos {len(there)}")
        if pairs:
            print(f"    here     |{pairs[0][0]}|\n    rcheevos |{pairs[0][1]}|")
        elif len(here) == len(there):
            print("    the same in both")
            same += 1
    sys.exit(1 if same else 0)


main(sys.argv[1:])
