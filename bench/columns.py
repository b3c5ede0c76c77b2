#!/usr/bin/env python3
"""Breaks lines of .antt files that are over 120 columns, and prints how many are left in which file.

usage: bench/columns.py FOLDER-OR-FILE..

A line is broken where `rt fmt` keeps the break: outside records and parentheses with a comma of their own. Pieces have at most 100
columns, since a proof line counts once for each 100 columns begun. A line that stays too long is opened after the bracket of its longest
record or of such parentheses, and `rt fmt` then puts each field on a line of its own. So run both by turns until nothing is printed, and
break a long string by hand.
"""

import os
import re
import sys

MOST, PIECE = 120, 100
OPENS, CLOSES = "([{⟨", ")]}⟩"
# a break goes before these words, the earlier ones rather
BEFORE = (("→", 7), ("∙", 7), ("≡", 7), ("≢", 7), ("×", 6), ("⊎", 6), ("then", 6), ("else", 6), ("++", 3), ("∷", 3), ("+", 3), ("≤", 3), ("<", 3), ("&&", 3), ("||", 3))
# and never after them
HOLDS = {"→", "∙", "×", ":", "⊎", "+", "≡", "∷", "++", "let", "≤", "<", "-", "*", "|", "≢", "&&", "||", "if", "then", "else", "where", "pub", "abbrev", "λ", "$"}
# the first line of a declaration, whose other lines are indented
DECLARES = re.compile(r"^\s*(pub |abbrev |unfoldable |opaque )*[^\s(){}=|]+( [^=:]*)?( : | =( |$))|^\s*(pub )*(module|record|data) ")


def characters(line):
    """Gives each place of a line that is in no string, with what stands there."""
    quoted = skips = False
    for at, character in enumerate(line):
        if skips:
            skips = False
        elif quoted:
            skips, quoted = character == "\\", character != '"'
        elif character == '"':
            quoted = True
        else:
            yield at, character


def groups(line):
    """Returns the first and the last place of what stays on one line: records, and parentheses with a comma of their own."""
    opened, found, whole = [], [], kept_whole(line)
    for at, character in characters(line):
        if character in OPENS:
            opened.append(at)
        elif character in CLOSES and opened:
            found.append((opened.pop(), at))
    found += [(at, len(line)) for at in opened]
    return [it for it in found if it[0] in whole]


def kept_whole(line):
    """Returns where such records and parentheses are opened."""
    opened, whole = [], set()
    for at, character in characters(line):
        if character in OPENS:
            opened.append(at)
        elif character in CLOSES and opened:
            opened.pop()
        elif opened and (character in ",;" or line[opened[-1]] == "{" and line[at - 1 : at + 2] == " = "):
            whole.add(opened[-1])
    return whole


def spaces(line):
    """Returns the spaces at which a line may be broken, each with how deep it stands."""
    whole, opened, found = kept_whole(line), [], []
    for at, character in characters(line):
        if character in OPENS:
            opened.append(at)
        elif character in CLOSES and opened:
            opened.pop()
        elif character == " " and not whole.intersection(opened):
            found.append((at, len(opened)))
    return found


def cost(line, at, depth):
    """Returns how bad a break at a space is."""
    before, after = line[:at], line[at + 1 :]
    last, first = before.rsplit(" ", 1)[-1], after.split(" ", 1)[0]
    bad = 12 * depth + 0.05 * (PIECE - at)
    if last == "=" or last == "in":
        bad -= 9
    elif first in dict(BEFORE):
        bad -= dict(BEFORE)[first]
    elif last == "↦" or last.endswith((";", ",")):
        bad -= 4
    else:
        bad += 5 if first.startswith("(") else 9
    if last in HOLDS or last.endswith("("):
        bad += 25
    if first in (":", "=", "-", "*", "in", "↦", "$", "|") or first.startswith("where"):
        bad += 12
    return bad + 30 if re.search(r"λ[^.]*$", before) else bad


def pieces(line):
    """Returns a long line in pieces, or as it is where it has to stay whole."""
    indent = len(line) - len(line.lstrip(" "))
    behind = indent + 4 if indent <= 2 or line[indent] == "|" or DECLARES.match(line) else indent
    done = []
    while len(line) > PIECE:
        start = len(line) - len(line.lstrip(" "))
        least = start + max(8, 45 * (PIECE - start) // 100)
        if len(line) - PIECE <= PIECE - behind:
            # two pieces suffice, and the second has to fit
            least = max(start + 8, len(line) - (PIECE - behind) - 1)
        found = [it for it in spaces(line) if start + 8 < it[0] <= PIECE]
        if not found:
            break
        at, _ = min([it for it in found if it[0] >= least] or found[-3:], key=lambda it: cost(line, *it))
        done.append(line[:at].rstrip())
        line = " " * behind + line[at + 1 :].lstrip(" ")
    return [*done, line]


def opened(line):
    """Returns a line in two, after the bracket that opens its longest record or parentheses, or as it is where it has none."""
    found = groups(line)
    if len(line) <= MOST or not found:
        return [line]
    at, _ = max(found, key=lambda it: it[1] - it[0])
    indent = len(line) - len(line.lstrip(" "))
    return [line[: at + 1], " " * (indent + 10) + line[at + 1 :].lstrip(" ")]


def comment(line):
    """Returns a long comment in lines."""
    front = " " * (len(line) - len(line.lstrip(" "))) + "--"
    done = [front]
    for word in line.strip()[2:].split():
        if len(done[-1]) + 1 + len(word) > MOST:
            done.append(front)
        done[-1] += " " + word
    return done


def imports(line):
    """Returns a long import in several of the same module."""
    head, brace, names = line.partition("{")
    done = []
    for name in names.rstrip("} ").split(", "):
        if not done or len(done[-1]) + len(name) + 3 > MOST:
            done.append(head + brace + name)
        else:
            done[-1] += ", " + name
    return [it + "}" for it in done]


def broken(line):
    """Returns a line of a file in lines of at most 120 columns, if it can be broken."""
    if len(line) <= MOST:
        return [line]
    if line.lstrip().startswith("--"):
        return comment(line)
    if re.match(r"(pub |unfoldable )*use [^{]*\{[^{}]*\}$", line):
        return imports(line)
    if any(line.startswith(" -- ", at) for at, _ in characters(line)):
        return [line]
    done = pieces(line)
    return done if len(done) > 1 else opened(line)


def main(places):
    files = [it for it in places if os.path.isfile(it)]
    for place in places:
        for at, folders, names in os.walk(place):
            folders[:] = sorted(it for it in folders if it != "out")
            files += [f"{at}/{it}" for it in sorted(names) if it.endswith(".antt")]
    for file in files:
        with open(file, encoding="utf-8") as it:
            old = it.read().split("\n")
        new = [it for line in old for it in broken(line)]
        if new != old:
            with open(file, "w", encoding="utf-8") as it:
                it.write("\n".join(new))
        left = sum(len(it) > MOST for it in new)
        if left:
            print(f"{file}: {left}")


if __name__ == "__main__":
    if len(sys.argv) < 2:
        sys.exit(__doc__.strip())
    main(sys.argv[1:])
