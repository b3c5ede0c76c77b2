#!/usr/bin/env python3
"""What each must-fail edit guards, as its first line says it: `# guards: ...`.

    bench/edits.py          prints the table by crate, and how many there are
    bench/edits.py --check  fails where an edit has no such line, where two of a crate guard the same, or where there are too many

Run at the top of the repository.
"""

import glob
import os
import sys

MOST = 180
SAYS = "# guards: "


def edits():
    """Each edit as its crate, its name and what it guards, or None where it does not say so."""
    for path in sorted(glob.glob("crates/*/must-fail/*.edit")):
        with open(path, encoding="utf-8") as file:
            first = file.readline().rstrip("\n")
        crate, name = path.split("/")[1], os.path.basename(path).removesuffix(".edit")
        yield crate, name, first.removeprefix(SAYS) if first.startswith(SAYS) else None


def faults(found):
    """What is wrong with these edits, a line each."""
    seen = set()
    for crate, name, guards in found:
        if not guards:
            yield f"crates/{crate}/must-fail/{name}.edit: the first line is not '{SAYS}..'"
        elif (crate, guards) in seen:
            yield f"crates/{crate}/must-fail/{name}.edit: another edit of the crate guards the same"
        seen.add((crate, guards))
    if len(found) > MOST:
        yield f"{len(found)} edits, and at most {MOST} are wanted"


def main(words):
    found = list(edits())
    if words == ["--check"]:
        wrong = list(faults(found))
        print("\n".join(wrong or [f"{len(found)} edits say what they guard"]))
        return len(wrong) > 0
    print("| Crate | Edit | What it guards |")
    print("|---|---|---|")
    for crate, name, guards in found:
        print(f"| `{crate}` | `{name}` | {guards} |")
    print(f"\n{len(found)} edits in {len({crate for crate, _, _ in found})} crates.")
    return 0


if __name__ == "__main__":
    sys.exit(main(sys.argv[1:]))
