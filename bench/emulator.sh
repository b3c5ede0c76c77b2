#!/bin/sh
# Counts the instructions of a frame of a game through the C library and by rcheevos, for memories of four sizes and the three sets
# of bench/game.sh.
# usage: bench/emulator.sh [ARCHIVE], where ARCHIVE is the libra_c.a that `rt lib` made; where it is not named it is that of crates/ra_c/out
# Both play the recording of examples/libretro by examples/c/play.c and examples/libretro/rc_trace.c, with the same writes into a memory of the
# size, whatever it is. Counted by callgrind are meerkat_frame and meerkat_lines, and rc_runtime_do_frame with its peeks and its
# events, and nothing of the programs around them. rcheevos is left out where librcheevos-dev is missing.
set -eu
here=$(cd "$(dirname "$0")/.." && pwd)
archive=${1:-$here/crates/ra_c/out/libra_c.a}
kit=${KIT:-/opt/rattle}
for tool in cc python3 valgrind; do
    if ! command -v "$tool" >/dev/null; then
        echo "$tool is missing" >&2
        exit 1
    fi
done
folder=$(mktemp -d)
trap 'rm -rf "$folder"' EXIT
game=$here/examples/libretro
cp "$game/lantern.set" "$folder/own.set"
for kind in calm busy; do
    python3 "$here/bench/game_sets.py" make $kind "$game/lantern.set" "$game/lantern.trace" "$folder/$kind.set" >/dev/null
done
for size in 2048 65536 2097152 33554432; do
    python3 - "$game/lantern.trace" "$folder/$size.trace" $size <<'TRACE'
import sys

trace = open(sys.argv[1], "rb").read()
open(sys.argv[2], "wb").write(trace[:5] + int(sys.argv[3]).to_bytes(4, "little") + trace[9:])
TRACE
done
frames=$(python3 "$here/examples/trace.py" show "$game/lantern.trace" | grep -c '^F')
cc -std=c11 -O2 -I"$here/crates/ra_c/include" "$here/examples/c/play.c" "$archive" "$kit/c/liblibc_c.a" -o "$folder/play"
rcheevos=$(ls /usr/lib/*/rcheevoslib.a 2>/dev/null | head -1)
[ -f /usr/include/rcheevos/rcheevos.h ] || rcheevos=
if [ -n "$rcheevos" ]; then
    cc -std=c99 -O2 -DWITH_RCHEEVOS "$game/rc_trace.c" -o "$folder/rc_trace" "$rcheevos"
fi

# a_frame PROGRAM SET TRACE CALLS..: the instructions of these calls, a frame
a_frame() {
    program=$1 set=$2 trace=$3
    shift 3
    toggles=
    for call in "$@"; do toggles="$toggles --toggle-collect=$call"; done
    valgrind --tool=callgrind --callgrind-out-file=/dev/null --collect-atstart=no $toggles "$program" "$set" "$trace" 2>&1 >/dev/null |
        awk -v frames="$frames" '/Collected/ { printf "%d\n", $NF / frames }'
}

echo "| Set | Memory | The library | rcheevos |"
echo "|---|---|---|---|"
for set in own calm busy; do
    for size in 2048 65536 2097152 33554432; do
        row="| $set | $((size / 1024)) KiB | $(a_frame "$folder/play" "$folder/$set.set" "$folder/$size.trace" meerkat_frame meerkat_lines)"
        if [ -n "$rcheevos" ]; then
            echo "$row | $(a_frame "$folder/rc_trace" "$folder/$set.set" "$folder/$size.trace" rc_runtime_do_frame) |"
        else
            echo "$row | |"
        fi
    done
done
