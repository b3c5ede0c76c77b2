#!/usr/bin/env bash
# What no proof sees, over the built programs. The status is how many of these checks failed; the last line counts and names those,
# and the parts of some, that were skipped.
# usage: .ci/checks.sh PLAYER [AUTHOR], where AUTHOR is the built program ra_author. The C programs run over the archive that
# examples/c/archive.sh builds of the libraries that `rt ci` has left in crates/*/out.
cd "$(dirname "$0")/.." || exit 1
player=$(realpath "$1")
author=$(realpath "${2:-crates/ra_author/out/ra_author}")
archive=crates/ra_c/out/libra_c.a
room=$(mktemp -d) || exit 1
trap 'rm -rf "$room"' EXIT
failed=0
skipped=()

# check NAME COMMAND..: whether the command passes, with the last line that it prints, or, where it fails, the last twenty. Status 77
# is that of a command that is skipped for what its last line says, and a line 'skipped PART: WHY' is a part that it leaves out.
check() {
    local name=$1 part why status
    shift
    "$@" >"$room/said" 2>&1
    status=$?
    if [ "$status" -eq 77 ]; then
        skip "$name" "$(tail -n 1 "$room/said")"
    elif [ "$status" -ne 0 ]; then
        failed=$((failed + 1))
        echo "$name: FAILED"
        tail -n 20 "$room/said"
    else
        echo "$name: passed$(grep -v '^skipped ' "$room/said" | tail -n 1 | sed 's/^/: /')"
        while IFS=': ' read -r part why; do
            skip "$part" "$why"
        done < <(sed -n 's/^skipped //p' "$room/said")
    fi
}

# skip NAME WHY: notes that something is not checked.
skip() {
    skipped+=("$1")
    echo "$1: skipped, since $2"
}

# has NAME TOOL..: whether the tools are there; the check of that name is skipped where one is missing.
has() {
    local name=$1 tool
    shift
    for tool in "$@"; do
        if ! command -v "$tool" >/dev/null; then
            skip "$name" "$tool is missing"
            return 1
        fi
    done
}

# -- the programs

# The player prints what an example's .out has.
prints() {
    local out=$1
    shift
    "$player" "$@" >"$room/out" && cmp "$room/out" "$out"
}

# A run goes on from the progress of another one over a set that was changed since.
changed_set() {
    local at=examples/changed
    prints $at/first.out run $at/old.set $at/first.trace --save "$room/progress" &&
        prints $at/later.out run $at/new.set $at/later.trace --restore "$room/progress"
}

# A line that cannot be printed has status 5, of both programs.
cannot_print() {
    "$player" check examples/small.set >/dev/full
    [ $? -eq 5 ] || return 1
    "$author" help >/dev/full
    [ $? -eq 5 ]
}

# The text of a trace gives its bytes, and its bytes give a text of the same trace.
both_ways() {
    examples/trace.py write "$1.txt" "$room/written" && cmp "$room/written" "$1.trace" &&
        examples/trace.py show "$1.trace" >"$room/shown" && examples/trace.py write "$room/shown" "$room/again" &&
        cmp "$room/again" "$1.trace"
}

check_programs() {
    local name
    for name in small forest; do
        check "example-$name" prints examples/$name.out run examples/$name.set examples/$name.trace
    done
    check example-changed changed_set
    check cannot-print cannot_print
    has cases python3 && check cases bench/cases.py "$player" "$author"
    for name in small forest changed/first changed/later; do
        has "trace-${name//\//-}" python3 && check "trace-${name//\//-}" both_ways "examples/$name"
    done
    has rounds python3 && check rounds python3 bench/rests.py "$player" 300
    has accounts python3 && check accounts python3 bench/why_rounds.py "$author" 100
}

# -- the documents and the edits

check_documents() {
    local name
    for name in links claims; do
        has $name python3 git && check $name bench/$name.py
    done
    has meaning python3 && check meaning bench/believe.py --meaning --check
    has words python3 && check words bench/words.py check "$player" "$author"
    has edits python3 && check edits bench/edits.py --check
}

# -- the C library

# Header and programs compile without a warning, the header as C89 and as C++98.
compiles() {
    local warnings="-Wall -Wextra -Wpedantic -Werror -Icrates/ra_c/include -fsyntax-only" program
    local header='#include "meerkat.h"'
    echo "$header" | cc -std=c89 $warnings -x c - || return 1
    if command -v c++ >/dev/null; then
        echo "$header" | c++ -std=c++98 $warnings -x c++ - || return 1
    else
        echo "skipped c++-header: c++ is missing"
    fi
    for program in examples/c/*.c; do
        cc -std=c11 $warnings "$program" || return 1
    done
}

# No call of malloc, realloc or free in frames, and as many frees as allocations over a game's life.
c_allocations() {
    make -s -C examples/c OUT="$room/c" ARCHIVE="$PWD/$archive" "$room/c/allocations" && "$room/c/allocations"
}

# The functions of memory for processors that the kit has none for meet their contract.
c_memory() {
    local flags="-std=c11 -O2 -Wall -Wextra -Wpedantic -Werror"
    cc $flags examples/c/memory.c examples/c/memory_test.c -Wl,--wrap=malloc,--wrap=realloc,--wrap=free -o "$room/memory" && "$room/memory"
}

# What is installed has one version everywhere, also where its libraries lie in another folder.
c_versions() {
    crates/ra_c/install.sh "$room/prefix" "$archive" && examples/c/versions.sh "$room/prefix" &&
        LIBDIR=lib/deeper crates/ra_c/install.sh "$room/deeper" "$archive" && examples/c/versions.sh "$room/deeper" &&
        examples/c/installed.sh "$room/deeper"
}

check_c() {
    has c-compiled cc && check c-compiled compiles
    has c-programs cc make || return
    check c-memory c_memory
    check c-archive examples/c/archive.sh
    if [ -f "$archive" ]; then
        check c-programs examples/c/run.sh "$archive"
        check c-allocations c_allocations
        has c-versions ld objcopy ar readelf nm && check c-versions c_versions
    else
        skip c-programs "there is no archive"
        skip c-allocations "there is no archive"
        skip c-versions "there is no archive"
    fi
}

check_programs
check_documents
check_c
check libretro examples/libretro/check.sh "$player"
names=$(printf ', %s' "${skipped[@]}")
echo "${#skipped[@]} skipped${skipped[0]:+: ${names#, }}"
exit "$failed"
