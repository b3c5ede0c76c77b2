#!/bin/sh
# Refuses each allocation of a job in turn: the n-th call of malloc or realloc answers none, for each n until a run makes
# no such call. Prints for each job how many runs there were, and how many ended so:
#   1      status 1, and what was printed is a front of the whole text
#   13     status 13: the system did not give the program its words
#   same   the status and the text of the job without a refusal: it did without the memory
#   other  anything else, or a file that changed though the status is not 0: there has to be none
# usage: bench/refused_allocations.sh [PLAYER [AUTHOR]], where PLAYER is the built program; where it is not named it is found, or
# built. AUTHOR is the built ra_author, whose jobs are tried too; where it is not named it is the one in crates/ra_author/out, if it
# is there.
set -eu
. "$(dirname "$0")/player.sh"
need cc python3
find_player "${1:-}"
folder=$(mktemp -d)
trap 'rm -rf "$folder"' EXIT
cat >"$folder/refuse.c" <<'C'
#define _GNU_SOURCE
#include <dlfcn.h>
#include <stdlib.h>
#include <unistd.h>
static int refused(void) {
    static long left = -1;
    if (left < 0) {
        const char *words = getenv("REFUSE");
        left = words ? atol(words) : 0;
    }
    if (left == 0 || --left > 0) return 0;
    return write(2, "refused", 7) == 7;
}
void *malloc(size_t size) {
    static void *(*next)(size_t);
    if (!next) next = (void *(*)(size_t))dlsym(RTLD_NEXT, "malloc");
    return refused() ? 0 : next(size);
}
void *realloc(void *old, size_t size) {
    static void *(*next)(void *, size_t);
    if (!next) next = (void *(*)(void *, size_t))dlsym(RTLD_NEXT, "realloc");
    return refused() ? 0 : next(old, size);
}
C
cc -O2 -shared -fPIC -o "$folder/refuse.so" "$folder/refuse.c" -ldl
author=${2:-$here/crates/ra_author/out/ra_author}
python3 -u - "$player" "$author" "$folder" "$here/examples" <<'P'
import os, shutil, subprocess, sys
player, author, folder, examples = sys.argv[1:]

def place(name):
    return os.path.join(folder, name)

def content(name):
    try:
        return open(place(name), "rb").read()
    except FileNotFoundError:
        return None

def run(program, words, refuse):
    environment = dict(os.environ, REFUSE=str(refuse), LD_PRELOAD=place("refuse.so"))
    done = subprocess.run([program] + words, cwd=folder, env=environment, capture_output=True, timeout=60)
    return done.returncode, done.stdout, done.stderr

shutil.copy(os.path.join(examples, "small.set"), place("s"))
shutil.copy(os.path.join(examples, "small.trace"), place("t"))
subprocess.run([player, "run", "s", "t", "--save", "p"], cwd=folder, stdout=subprocess.DEVNULL, check=True)
document = """{"PatchData":{"Achievements":[{"ID":7,"MemAddr":"0xH0010=5.3."}],
"Leaderboards":[{"ID":9,"Mem":"STA:0=1::CAN:0=1::SUB:0=1::VAL:0xH0001","Format":"VALUE"}],"RichPresencePatch":"Display:\\r\\nHi\\r\\n"}}"""
open(place("j"), "w").write(document)
shutil.copy(place("p"), place("old"))
shutil.copy(place("p"), place("kept"))
print("job, runs: 1, 13, same, other")
wrong = 0
bad = b"A 1 0xH0010=5_\nA 1 0=1\nA 1 R:1=1_0xH0010=0x05\nL 5 MINUTE STA:P:0=0::CAN:::SUB:::VAL:0\nP\nDisplay:\n?0=1?@Foo(1)\n@Bar(1)\n"
open(place("b"), "wb").write(bad)
left = """{"PatchData":{"Achievements":[{"ID":7,"MemAddr":"0xH0010=5.3."},{"ID":8,"MemAddr":"fF0010=5"},{"ID":7,"MemAddr":"0=1"}],
"Leaderboards":[{"ID":9,"Mem":"STA:0=1","Format":"VALUE"}],"RichPresencePatch":"Display:\\r\\nHi\\r\\n"}}"""
open(place("l"), "w").write(left)
jobs = [(player, words) for words in
        ["run s t --save p", "run s t --restore old", "run s t --restore old --save p", "check s", "import j p", "lint s"]]
if os.path.exists(author):
    jobs += [(author, words) for words in ["review s", "review b", "why s t 1", "import l p", "help"]]
else:
    print("ra_author is not built: its jobs are left out")
for program, words in jobs:
    whole = run(program, words.split(), 0)
    counts = {"1": 0, "13": 0, "same": 0, "other": 0}
    for refuse in range(1, 100000):
        shutil.copy(place("kept"), place("p"))
        status, text, told = run(program, words.split(), refuse)
        if told != b"refused":
            break
        kept = status == 0 or content("p") == content("kept")
        if (status, text) == whole[:2]:
            counts["same"] += 1
        elif status == 1 and whole[1].startswith(text) and kept:
            counts["1"] += 1
        elif status == 13 and text == b"" and kept:
            counts["13"] += 1
        else:
            counts["other"] += 1
            print("other:", words, "refused", refuse, "status", status)
    wrong += counts["other"]
    print(f'{os.path.basename(program)} {words}, {refuse - 1}: {counts["1"]}, {counts["13"]}, {counts["same"]}, {counts["other"]}')
sys.exit(1 if wrong else 0)
P
