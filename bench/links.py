#!/usr/bin/env python3
"""Checks that what documents, comments and scripts point at is there.

usage: bench/links.py
A link [..](FILE) and a heading after its # stand in the file that is named; a path in backquotes, such as
`ra_text/specs/Place.antt`, `bench/run.sh` or `docs/SETS.md`, is a file or folder; and a heading that is
cited in quotes after the name of a document is one of that document, also in the sources. The status is 0 where all are
there."""
import os
import re
import sys

ROOT = os.path.dirname(os.path.dirname(os.path.abspath(__file__)))
LINK = re.compile(r"\[[^]]*\]\(([^)\s]+)\)")
PATH = re.compile(r"`((?:[\w.-]+/)+[\w.-]*)`")
# What is there only after a build or an installation.
BUILT = re.compile(r"(^|/)out(/|$)|^(bin|lib|share|include)/")
DOCUMENT = r"(?:docs/)?\b(README|ARCHITECTURE|CONTRIBUTING|COSTS|DECISIONS|DEFINITIONS|EMBEDDING|GLOSSARY|INTERNALS|MEANING|PROVED|SETS)\b(?:\.md)?"
CITED = re.compile(DOCUMENT + r"(?:\]\([^)]*\))?[,:]?\s+(?://+!?\s*|--\s*)?\"([^\"]+)\"")


def text(path):
    with open(path, encoding="utf-8") as it:
        return it.read()


def files(*endings):
    for top in ("README.md", "docs", "crates", "bench", "examples", ".ci"):
        for at, folders, names in [(os.path.dirname(top), [], [top])] if top.endswith(".md") else os.walk(f"{ROOT}/{top}"):
            folders[:] = [it for it in folders if it not in ("out", "data")]
            yield from (os.path.join(ROOT, at, name) for name in names if name.endswith(endings))


def anchor(heading):
    return re.sub(r"[^\w\- ]", "", heading.lower()).replace(" ", "-")


def headings(path):
    return [line.lstrip("#").strip() for line in text(path).splitlines() if line.startswith("#")]


def is_there(path, near):
    """Whether a path is a file or folder: from the top, from the document's folder, or of some crate."""
    folders = [ROOT, near, f"{ROOT}/crates", *(f"{ROOT}/crates/{name}" for name in os.listdir(f"{ROOT}/crates"))]
    return any(os.path.exists(f"{at}/{path}") for at in folders)


def main():
    wrong = []
    for path in files(".md"):
        near, here = os.path.dirname(path), os.path.relpath(path, ROOT)
        prose = re.sub(r"(?ms)^```.*?^```", "", text(path))
        for target in LINK.findall(prose):
            file, _, part = target.partition("#")
            if "://" in target:
                continue
            to = os.path.normpath(f"{near}/{file}") if file else path
            if not os.path.exists(to):
                wrong.append(f"{here}: no file {target}")
            elif part and part not in map(anchor, headings(to)):
                wrong.append(f"{here}: no heading {target}")
        for found in PATH.findall(prose):
            if not BUILT.search(found) and not is_there(found.rstrip("/"), near):
                wrong.append(f"{here}: no path {found}")
    known = {name[:-3]: headings(f"{ROOT}/docs/{name}") for name in os.listdir(f"{ROOT}/docs") if name.endswith(".md")}
    known["README"] = headings(f"{ROOT}/README.md")
    for path in files(".md", ".rt", ".antt", ".h", ".c", ".py", ".sh"):
        for document, heading in CITED.findall(re.sub(r"\n\s*(?:///?!?|--|\*|#)?\s*", " ", text(path))):
            if heading not in known.get(document, []):
                wrong.append(f"{os.path.relpath(path, ROOT)}: no heading \"{heading}\" in {document}.md")
    print("\n".join(sorted(set(wrong))) if wrong else "links, paths and headings are there")
    return 1 if wrong else 0


if __name__ == "__main__":
    sys.exit(main())
