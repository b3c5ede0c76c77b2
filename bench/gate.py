#!/usr/bin/env python3
"""Processor minutes of a run of `rt ci`, by crate and kind of work, user and system time together.

    bench/gate.py             runs `rt ci` from nothing with one job and prints the table
    bench/gate.py NAME..      the same for these crates and those below them, where the kit's `rt ci` takes names
    bench/gate.py --watch PID prints the table of a run that goes on already, from now on until it ends or this is interrupted
    bench/gate.py --join FILE.. prints one table of those that these files hold, the oldest first

A kit that keeps what a run has passed needs several runs for one table: where a later one proves a crate anew its row takes
the place of the older one, and else it is added to that, since a run may end before it has tried every edit.

Proofs are those of the crates, tests those of the crates with their tests; a seed is the check that the edits of a
crate begin with, and the floor is the seconds of the cheapest check behind it, in which next to nothing is left to
prove. RT_JOBS=N runs it with N jobs. The times of processes are read four times a second, so the last moment of each is
missing.
"""

import os
import re
import signal
import subprocess
import sys
import time
from collections import defaultdict

TICKS = os.sysconf("SC_CLK_TCK")
KINDS = ["proofs", "tests", "seeds", "edits"]


def words_of(pid):
    with open(f"/proc/{pid}/cmdline", "rb") as file:
        return file.read().decode(errors="replace").split("\0")


def kind_of(words):
    """The crate and the kind of work of a command of the prover, or None."""
    if "--crate-name" not in words:
        return None
    crate = words[words.index("--crate-name") + 1]
    if "build" in words[:3]:
        return crate, "tests" if "--test" in words else "proofs"
    if "check" not in words[:3]:
        return None
    if "--incremental" not in words:
        return crate, "proofs"
    over = words[words.index("--incremental") + 1]
    return crate, "seeds" if over.endswith("/seed") else "edits"


def numbers_of(pid):
    """The parent of a process, its processor seconds, and when it began."""
    with open(f"/proc/{pid}/stat", encoding="utf-8", errors="replace") as file:
        fields = re.sub(r"^.*\) ", "", file.read()).split()
    return int(fields[1]), (int(fields[11]) + int(fields[12])) / TICKS, fields[19]


def look(top, seen):
    """Notes the processor seconds of each command of the prover below the process `top`; its copies count with it."""
    parents, found = {}, {}
    for pid in map(int, filter(str.isdigit, os.listdir("/proc"))):
        try:
            parents[pid], seconds, begun = numbers_of(pid)
            found[pid] = seconds, begun
        except (OSError, IndexError, ValueError):
            continue
    for pid, (seconds, begun) in found.items():
        above = [pid]
        while above[-1] in parents and above[-1] != top:
            above.append(parents[above[-1]])
        if above[-1] != top:
            continue
        key = pid, begun
        if key not in seen:
            try:
                works = [(it, kind_of(words_of(it))) for it in above[:-1]]
            except OSError:
                continue
            commands = [it for it in works if it[1]]
            if not commands or commands[0][0] != pid:
                continue
            first = commands[-1]
            seen[key] = [(first[0], found[first[0]][1]), first[1], 0.0]
        seen[key][2] = max(seen[key][2], seconds)


def figures(seen):
    """The processor minutes of each crate and kind, and the floor of each crate, of what was seen of a run."""
    commands = defaultdict(float)
    for command, work, seconds in seen.values():
        commands[command, work] += seconds
    seeded, minutes, floors = {crate for _, (crate, kind) in commands if kind == "seeds"}, defaultdict(float), {}
    for ((_, begun), (crate, kind)), seconds in sorted(commands.items(), key=lambda it: int(it[0][0][1])):
        # a kit whose seeds have no folder of their own: the first edit of a crate is its seed
        if kind == "edits" and crate not in seeded:
            seeded.add(crate)
            kind = "seeds"
        elif kind in ("seeds", "edits") and seconds > 1:
            floors[crate] = min(seconds, floors.get(crate, seconds))
        minutes[crate, kind] += seconds / 60
    return minutes, floors


def figures_in(text):
    """The same of a table that was printed."""
    minutes, floors = defaultdict(float), {}
    for cells in (re.split(r" *\| *", line.strip())[1:-1] for line in text.splitlines() if line.startswith("| ra_")):
        for kind, cell in zip(KINDS, cells[1:]):
            minutes[cells[0], kind] += float(cell or 0)
        if cells[6]:
            floors[cells[0]] = float(cells[6])
    return minutes, floors


def joined(tables):
    """One of several tables, the oldest first."""
    minutes, floors = defaultdict(float), {}
    for newer, newer_floors in tables:
        anew = {crate for (crate, kind), it in newer.items() if kind == "proofs" and it > 0}
        for key in [it for it in minutes if it[0] in anew]:
            del minutes[key]
        for key, it in newer.items():
            # a run that ended before its edits were through makes their seed again
            minutes[key] = max(minutes[key], it) if key[1] == "seeds" else minutes[key] + it
        for crate, it in newer_floors.items():
            floors[crate] = min(it, floors.get(crate, it))
    return minutes, floors


def table(minutes, floors):
    crates = sorted({crate for crate, _ in minutes})
    print("| Crate | " + " | ".join(kind.capitalize() for kind in KINDS) + " | All | Floor, s |")
    print("|---|" + "---|" * (len(KINDS) + 2))
    for crate in crates + ["all"]:
        row = [sum(minutes[it, kind] for it in (crates if crate == "all" else [crate])) for kind in KINDS]
        floor = f"{floors[crate]:.0f}" if crate in floors else ""
        print(f"| {crate} | " + " | ".join(f"{it:.1f}" for it in row) + f" | {sum(row):.1f} | {floor} |")


def main(words):
    seen = {}
    if words[:1] == ["--watch"]:
        top = int(words[1])
        # in the background a shell has it ignored
        signal.signal(signal.SIGINT, signal.default_int_handler)
        try:
            while os.path.exists(f"/proc/{top}"):
                look(top, seen)
                time.sleep(0.25)
        except KeyboardInterrupt:
            pass
        table(*figures(seen))
        return 0
    if words[:1] == ["--join"]:
        texts = []
        for name in words[1:]:
            with open(name, encoding="utf-8") as file:
                texts.append(file.read())
        table(*joined(map(figures_in, texts)))
        return 0
    environment = dict(os.environ, RT_JOBS=os.environ.get("RT_JOBS", "1"))
    # a kit that keeps what a run has passed has a word that leaves it aside
    keeps = "--anew" in subprocess.run(["rt", "help"], capture_output=True, text=True, check=False).stderr
    with subprocess.Popen(["rt", "ci", *["--anew"] * keeps, *words], env=environment, stdout=subprocess.DEVNULL) as run:
        while run.poll() is None:
            look(run.pid, seen)
            time.sleep(0.25)
        table(*figures(seen))
        return run.returncode


if __name__ == "__main__":
    sys.exit(main(sys.argv[1:]))
