#!/usr/bin/env python3
"""What one has to believe for a clause: every definition that its meaning rests on, and no other.

usage: bench/believe.py CLAUSE [--run] [--views] [--counts | --names]
       bench/believe.py --meaning | --table [--check]
CLAUSE is a public function and its clause, as "play answers", "meerkat_frame played", "ra_author::author ends" or
"Runtime::frame taken", or a function alone, as a law, for all its clauses; in one word or two.

It prints the definitions in the order to read, each after those that it names, with their comments and the heading of
docs/DEFINITIONS.md that their file names; then how many definitions, lines and crates these are, which names of the
kit's specifications they use, and what the kit trusts. --counts prints the counts alone, --names the names alone. A line
counts where it is neither blank nor a comment. --meaning writes docs/MEANING.md, what `play answers --run` rests on, a
chapter a concept, by bench/meaning.txt, and the worked examples of bench/worked.txt; --table the numbers in the table of
docs/PROVED.md that says what each promise rests on. With --check both only compare, and --meaning compares both.

What is named is found by the `use` lines of each file and the binders of each term (bench/antt.py), and by the `use`
lines of .rt files for the types in them (bench/contracts.py); the status is 1 at a name that stands for nothing. With a
clause come the `requires` of its function. Of a struct with a model a clause sees the value, so its fields count only
where a definition takes it apart, and its `view` only with --views. A type parameter stands for what its bounds say: of
a trait all ghost members and clauses.

--run leaves out the other jobs of the player. A constructor of theirs is each of `Job` but `Run`, and each of `Ending`
that `run` has not (CUT below). Left out is such a constructor; a case with one on its left side; a definition with one
elsewhere in what is left of it; and whatever only these name."""
import argparse
import os
import pathlib
import signal
import sys

import antt
import promises
import worked
from library import ROOT, Library, Shown, claims

PAGE, PROVED = f"{ROOT}/docs/MEANING.md", f"{ROOT}/docs/PROVED.md"
CHAPTERS = f"{ROOT}/bench/meaning.txt"
HEADLINE = "play answers"
JOB, ENDING = "ra_args/specs/Words.antt Job", "ra_session/src/ending.rt Ending"
CUT = {antt.Target(JOB, name) for name in "Check Make Import Lint Normal Explain".split()}
CUT |= {antt.Target(ENDING, name) for name in "BadDocument LongNormal NoAchievement ManyRows".split()}
TRUSTED = """what the kit trusts, by the last lines of `rt check` of ra_player (START-HERE.md and rattle/REPOSITORY.md of the kit):
  axioms=39                  the contracts of 39 C functions, 29 of libc and 10 of os, that `main` reaches (of ra_c 3, of ra_calls none)
  target= cpu= linked        that the machine does what the compiled program says, with the kit's C code libos_c.a and liblibc_c.a
  sum=dac8208d650f15bf       the logic of rattle-kit-13f
  native=nat,char,string     the numbers, characters and texts of antt are computed natively, by GMP
  logic-built=trusted        the logic in which statements are made was checked when the kit was built
  libraries-built=trusted    so were std and the kit's crates
  statements=trusted         what a clause states of the code is written by the toolchain
without the word foreign= the repository calls no C function of its own"""


def without_other_jobs(shown):
    """What --run leaves of a definition, or none."""
    parts = [part for part in shown.parts if antt.Target(shown.key, part.constructor) not in CUT and not CUT.intersection(part.left)]
    if any(CUT.intersection(part.targets) for part in parts):
        return None
    return Shown(shown.key, shown.line, shown.comment, shown.around, parts)


def reached(library, claim, cut, views):
    """The definitions that a clause rests on, by key, and the names of the kit that they use."""
    found, kit, todo = {claim.key: claim.shown()}, set(), [claim.key]
    while todo:
        for key, _ in found[todo.pop()].targets():
            if key.startswith("kit "):
                kit.add(key[4:])
                continue
            for each in [key, f"{key} view"] if views and library.has_view(key) else [key]:
                if each not in found:
                    shown = library.shown(each)
                    found[each] = without_other_jobs(shown) if cut else shown
                    todo += [each] if found[each] else []
    return {key: shown for key, shown in found.items() if shown}, kit


def in_order(library, found):
    """The definitions in the order to read: each after those that it names, file by file where that can be."""
    waits = {key: {it for it, _ in shown.targets() if it in found and it != key} for key, shown in found.items()}
    rank = {key: (library.depth(shown.crate()), shown.path, shown.line) for key, shown in found.items()}
    path, order = None, []
    while waits:
        ready = [key for key in waits if not waits[key] & waits.keys()] or list(waits)
        key = min(ready, key=lambda it: (found[it].path != path, rank[it]))
        path = found[key].path
        order.append(found[key])
        del waits[key]
    return order


def print_definitions(library, order):
    path = None
    for shown in order:
        if shown.path != path:
            path = shown.path
            heading = library.heading(shown)
            print("=" * 100 + f"\ncrates/{path}" + (": " + ", ".join(f'"{it}"' for it in heading) if heading else ""))
        print("\n" + "\n".join(shown.comment + shown.text()))


def lines_of(order):
    return sum(shown.count() for shown in order)


def print_counts(order, kit):
    crates = sorted({shown.crate() for shown in order})
    print(f"definitions {len(order)} lines {lines_of(order)} crates {len(crates)}")
    for crate in crates:
        here = [shown for shown in order if shown.crate() == crate]
        print(f"  {crate:<18}{len(here):>4}{lines_of(here):>6}")
    print(f"names of the kit {len(kit)}")
    modules = {}
    for name in kit:
        module, _, word = name.rpartition(".")
        modules.setdefault(module, []).append(word)
    for module, words in sorted(modules.items()):
        print(f"  {module}: {' '.join(sorted(words))}")
    print(TRUSTED)


class Chapter:
    """A chapter of the page: its title, its introduction, and the files and folders whose definitions it has."""

    def __init__(self, title):
        self.title, self.words, self.places = title, [], []

    def has(self, path):
        """How closely the chapter names a path: 0 where it does not."""
        return max((len(place) for place in self.places if f"{path}/".startswith(f"{place}/")), default=0)


def chapters():
    """The chapters by bench/meaning.txt; what stands before the first is the head of the page."""
    found = [Chapter("")]
    with open(CHAPTERS, encoding="utf-8") as lines:
        for line in map(str.rstrip, lines):
            if line.startswith("## "):
                found.append(Chapter(line[3:]))
            elif line.startswith("files: "):
                found[-1].places += line[7:].split()
            else:
                found[-1].words.append(line)
    return found[0], found[1:]


def by_chapter(order, all_chapters):
    """The definitions of each chapter. It fails where a file is in no chapter, or a definition names one of a later chapter."""
    found, seen = {chapter.title: [] for chapter in all_chapters}, set()
    for shown in order:
        chapter = max(all_chapters, key=lambda it: it.has(shown.path))
        if not chapter.has(shown.path):
            raise antt.Unplaced(f"bench/meaning.txt: no chapter has {shown.path}")
        found[chapter.title].append(shown)
    keys = {shown.key for shown in order}
    for shown in (shown for here in found.values() for shown in here):
        seen.add(shown.key)
        for target in shown.targets():
            if target.key in keys - seen:
                raise antt.Unplaced(f"bench/meaning.txt: {shown.key} comes before {target.key}")
    return found


def page(library):
    """The text of docs/MEANING.md."""
    found, kit = reached(library, the_claim(library, HEADLINE), True, False)
    order = in_order(library, found)
    head, all_chapters = chapters()
    counts = {"definitions": len(order), "lines": lines_of(order), "crates": len({it.crate() for it in order}), "kit": len(kit)}
    parts, contents = ["\n".join(head.words).format(**counts).strip()], by_chapter(order, all_chapters)
    parts.append("\n".join(["| Chapter | Definitions | Lines |", "|---|---|---|", *map(row, contents.items())]))
    parts.append(f"[{worked.TITLE}](#{anchor(worked.TITLE)}) come last.")
    for chapter in all_chapters:
        parts += [f"## {chapter.title}", "\n".join(chapter.words).strip()]
        parts += section(library, contents[chapter.title])
    parts += worked.chapter(order)
    return "\n\n".join(parts) + "\n"


def row(chapter):
    title, order = chapter
    return f"| [{title}](#{anchor(title)}) | {len(order)} | {lines_of(order)} |"


def section(library, order):
    """The definitions of a chapter, a block for each run of one file."""
    path = None
    for shown in order + [None]:
        if path and (shown is None or shown.path != path):
            yield f"```{'antt' if path.endswith('.antt') else 'rust'}\n" + "\n\n".join(block) + "\n```"
        if shown and shown.path != path:
            path, block = shown.path, []
            heading = [f"[{it}](DEFINITIONS.md#{anchor(it)})" for it in library.heading(shown)]
            yield f"`{path}`" + (": " + ", ".join(heading) if heading else "")
        if shown:
            block.append("\n".join(shown.comment + shown.text()))


def anchor(heading):
    return "".join(it for it in heading.lower() if it.isalnum() or it in "-_ ").replace(" ", "-")


def the_claim(library, words):
    """The one clause that the words name."""
    found = list(claims(library, words.split()))
    if len(found) != 1:
        names = "".join(f"\n  {claim.key}" for claim in found)
        raise antt.Unplaced(f"{words}: {'several are so named' if found else 'no public function has such a clause'}{names}")
    return found[0]


def table(library):
    """The text of docs/PROVED.md with the numbers of its table."""
    def count(words, run):
        found, _ = reached(library, the_claim(library, words), run, False)
        return len(found), lines_of(found.values()), len({shown.crate() for shown in found.values()})

    return promises.counted(pathlib.Path(PROVED).read_text(encoding="utf-8"), count)


def write_pages(library, made, only_compare):
    """Writes pages, each by what makes its text, or compares them. The status is how many differ."""
    differ = 0
    for path, text_of in made:
        text = text_of(library)
        if only_compare:
            same = os.path.exists(path) and pathlib.Path(path).read_text(encoding="utf-8") == text
            differ += not same
            print(f"{os.path.relpath(path, ROOT)} {'is' if same else 'is not'} what the definitions say")
        else:
            pathlib.Path(path).write_text(text, encoding="utf-8")
    if differ:
        print("bench/believe.py --meaning and bench/believe.py --table write them")
    return differ


def read_words():
    words = argparse.ArgumentParser(usage=__doc__[__doc__.index("usage: ") + 7 :], add_help=False)
    words.add_argument("clause", nargs="*")
    for name in ("run", "views", "counts", "names", "meaning", "table", "check"):
        words.add_argument(f"--{name}", action="store_true")
    found = words.parse_args()
    if bool(found.clause) + found.meaning + found.table != 1:
        words.error("a clause, --meaning or --table")
    return found


def main():
    words, library = read_words(), Library()
    signal.signal(signal.SIGPIPE, signal.SIG_DFL)
    try:
        if words.meaning or words.table:
            made = [(PAGE, page)] * words.meaning + [(PROVED, table)] * (words.table or words.check)
            return write_pages(library, made, words.check)
        found, kit = reached(library, the_claim(library, " ".join(words.clause)), words.run, words.views)
    except (antt.Unplaced, antt.Unread) as why:
        print(f"{os.path.basename(sys.argv[0])}: {why}", file=sys.stderr)
        return 1
    order = in_order(library, found)
    if words.names:
        print("\n".join(f"{shown.path}: {shown.name}" for shown in order))
        return 0
    if not words.counts:
        print_definitions(library, order)
        print("=" * 100)
    print_counts(order, kit)
    return 0


if __name__ == "__main__":
    sys.exit(main())
