#!/bin/sh
# Tries the recorder, and records the game again: the trace, the player's lines and rcheevos' lines have to be the committed ones.
# usage: examples/libretro/check.sh [PLAYER], where PLAYER is the built program; where it is not named it is the one in crates/ra_player/out
# What needs a package that is missing is skipped, with a line that says so: libretro-nestopia, librcheevos-dev and cc65 of Debian. So is the
# library itself, unless an archive of exactly these files lies in crates/ra_c/out, as examples/c/check.sh leaves it there.
set -eu
root=$(cd "$(dirname "$0")/../.." && pwd)
player=${1:-$root/crates/ra_player/out/ra_player}
case $player in /*) ;; *) player=$PWD/$player ;; esac
folder=$(mktemp -d)
trap 'rm -rf "$folder"' EXIT
cd "$root/examples/libretro"

has() { command -v "$1" >/dev/null; }
# skip PART WHY: tells that a part is not tried
skip() { echo "skipped $1: $2"; }

# The file, of the package, wherever the system has its libraries.
library() {
    for file in /usr/lib/*/"$1" /usr/lib64/"$1" /usr/lib/"$1"; do
        if [ -f "$file" ]; then
            echo "$file"
            return
        fi
    done
}

# same WHAT FOUND WANTED: the two files are one
same() {
    if ! cmp "$2" "$3"; then
        echo "differs: $1" >&2
        diff "$2" "$3" | head -10 >&2
        exit 1
    fi
    echo "same: $1"
}

# The programs, by each compiler, with warnings as errors; the last one's are kept.
build() {
    "$1" -std=c89 $flags writer_test.c -o "$folder/writer_test"
    "$1" -std=c99 $flags frontend.c -o "$folder/frontend" -ldl
    "$1" -std=c99 $flags -shared -fPIC stub_core.c -o "$folder/stub_core.so"
    if [ -n "$rcheevos" ]; then
        "$1" -std=c99 $flags -DWITH_RCHEEVOS frontend.c -o "$folder/frontend_rc" "$rcheevos" -ldl
        "$1" -std=c99 $flags -DWITH_RCHEEVOS rc_trace.c -o "$folder/rc_trace" "$rcheevos"
    fi
    echo "built: by $1"
}

for tool in cc python3; do
    if ! has "$tool"; then
        echo "$tool is missing"
        exit 77
    fi
done
flags="-O2 -Wall -Wextra -Wpedantic -Werror"
rcheevos=$(library rcheevoslib.a)
[ -f /usr/include/rcheevos/rcheevos.h ] || rcheevos=
for compiler in clang gcc; do
    if has "$compiler"; then build "$compiler"; fi
done
[ -x "$folder/frontend" ] || build cc
echo 'int main(void) { return 0; }' >"$folder/empty.c"
if cc -fsanitize=address,undefined "$folder/empty.c" -o "$folder/empty" 2>/dev/null && "$folder/empty" 2>/dev/null; then
    safe="-g -fsanitize=address,undefined -fno-sanitize-recover=all"
    cc -std=c89 $flags $safe writer_test.c -o "$folder/writer_test"
    cc -std=c99 $flags $safe frontend.c -o "$folder/frontend_safe" -ldl
else
    skip libretro-sanitizers "cc has no sanitizers"
    cp "$folder/frontend" "$folder/frontend_safe"
fi

"$folder/writer_test"
"$folder/frontend_safe" "$folder/stub_core.so" stub.txt stub.txt "$folder/stub.trace" stub_step=A
python3 ../trace.py show "$folder/stub.trace" >"$folder/stub.lines"
same "a memory map with pieces that overlap, saves, restores and a reset" "$folder/stub.lines" stub.lines

if has ca65 && has ld65; then
    ca65 game/lantern.s -o "$folder/lantern.o"
    ld65 -C game/nrom.cfg "$folder/lantern.o" -o "$folder/lantern.nes"
    same "the game, put together again" "$folder/lantern.nes" game/lantern.nes
else
    skip libretro-game "cc65 is missing"
fi

core=$(library libretro/nestopia_libretro.so)
if [ -n "$core" ]; then
    ./record.sh "$core" game/lantern.nes lantern.txt "$folder/lantern.trace"
    same "the trace, recorded again" "$folder/lantern.trace" lantern.trace
else
    skip libretro-core "libretro-nestopia is missing"
fi

archive=$root/crates/ra_c/out/libra_c
if [ -f "$archive.a" ] && [ -f "$archive.sum" ] && [ "$(cat "$archive.sum")" = "$(../c/sum.sh)" ]; then
    cc -std=c99 $flags -DWITH_MEERKAT -I"$root/crates/ra_c/include" frontend.c "$archive.a" "${KIT:-/opt/rattle}/c/liblibc_c.a" -o "$folder/frontend_meerkat" -ldl
    "$folder/frontend_meerkat" "$folder/stub_core.so" stub.txt stub.txt "$folder/stub.trace" --play stub.set stub_step=A >"$folder/stub.out" 2>"$folder/items.txt"
    if [ -x "$player" ]; then
        "$player" run stub.set "$folder/stub.trace" >"$folder/wanted"
        same "the library's lines over a memory map with pieces, saves, restores and a reset" "$folder/stub.out" "$folder/wanted"
    fi
    if [ -n "$core" ]; then
        "$folder/frontend_meerkat" "$core" game/lantern.nes lantern.txt "$folder/lantern.trace" --play lantern.set >"$folder/lantern.out" 2>"$folder/items.txt"
        same "the library's lines beside the core, which are the player's" "$folder/lantern.out" lantern.out
        same "its trace" "$folder/lantern.trace" lantern.trace
        same "how its items stand at the end" "$folder/items.txt" lantern.items
    fi
else
    skip libretro-library "there is no archive of these files in crates/ra_c/out"
fi

if [ -x "$player" ]; then
    "$player" run lantern.set lantern.trace >"$folder/lantern.out"
    same "the player's lines" "$folder/lantern.out" lantern.out
    "$player" run differences.set lantern.trace >"$folder/differences.out"
    same "the player's lines for what rcheevos does otherwise" "$folder/differences.out" differences.out
else
    skip libretro-player "$player is not built"
fi

if [ -n "$rcheevos" ]; then
    grep -v -E '^(measured|track) ' lantern.out >"$folder/wanted"
    "$folder/rc_trace" lantern.set lantern.trace >"$folder/rc.out"
    same "rcheevos' unlocks, starts, submits and presence over the trace" "$folder/rc.out" "$folder/wanted"
    if [ -n "$core" ]; then
        "$folder/frontend_rc" "$core" game/lantern.nes lantern.txt "$folder/lantern.trace" --set lantern.set >"$folder/rc.out"
        same "the same beside the core" "$folder/rc.out" "$folder/wanted"
        same "its trace" "$folder/lantern.trace" lantern.trace
    fi
    "$folder/rc_trace" differences.set lantern.trace >"$folder/rc.out"
    python3 differences.py differences.set differences.out "$folder/rc.out" >"$folder/differences.txt"
    same "what rcheevos does otherwise, which is:" "$folder/differences.txt" differences.txt
    cat differences.txt
    if [ -x "$player" ]; then
        for kind in calm busy; do
            python3 "$root/bench/game_sets.py" make $kind lantern.set lantern.trace "$folder/made.set" >/dev/null
            "$player" run "$folder/made.set" lantern.trace | grep -v -E '^(measured|track) ' >"$folder/wanted"
            "$folder/rc_trace" "$folder/made.set" lantern.trace >"$folder/rc.out"
            same "rcheevos over the $kind set of bench/game.sh" "$folder/rc.out" "$folder/wanted"
        done
    fi
else
    skip libretro-rcheevos "librcheevos-dev is missing"
fi
