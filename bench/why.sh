#!/bin/sh
# What a frame of `ra_author why` takes beside a frame of the player in which that achievement is stepped, and the memory of a
# long trace beside a short one.
# usage: bench/why.sh [AUTHOR [PLAYER]], where AUTHOR is the built program ra_author and PLAYER the built ra_player; where they
# are not named those that lie in crates/*/out are taken, or they are proved and built first.
# The trace flips one of the achievement's truths at every frame, so that the player steps it at every frame. Each row: what the
# achievement is, its conditions, the frames, instructions a frame of `why` and of the player's `run`, and how many times as
# many the former are. Both are the difference of two traces of the same kind, one of half as many frames, so what is read once
# falls out. The last rows are the most memory of `why` over a trace of a mebibyte and over one of 16, as GNU time tells it.
set -eu
. "$(dirname "$0")/player.sh"
need valgrind python3 /usr/bin/time
find_author "${1:-}"
author=$player
find_player "${2:-}"
runner=$player
folder=$(mktemp -d)
trap 'rm -rf "$folder"' EXIT

# trace FRAMES: a write that flips a truth, and a frame, as often as said
trace() {
    python3 -c 'import sys
frames, out = int(sys.argv[1]), sys.stdout.buffer
out.write(b"RATR\x01\x00\x08\x00\x00")
for at in range(frames):
    out.write(b"W\x10\x00\x00\x00\x01\x00" + bytes([at & 1]) + b"F")
out.write(b"E")' "$1"
}

# conditions COUNT KIND: the conditions of an achievement that never unlocks
conditions() {
    awk -v count="$1" -v kind="$2" 'BEGIN {
        line = "0xH0010=1"
        for (k = 1; k < count; k++) {
            if (kind == "hits") line = line sprintf("_0xH%04x=%d.%d.", 32 + k, k % 3, 1000000 + k)
            else if (kind == "alts") line = line sprintf("S0xH%04x=1_0xH0010=0", 32 + k)
            else if (kind == "chains") line = line sprintf("_%s:0xH%04x=0", k % 2 ? "N" : "C", 32 + k)
            else line = line sprintf("_0xH%04x=1", 32 + k)
        }
        print line "_0=1"
    }'
}

# each PROGRAM JOB [ID]: instructions a frame
each() {
    player=$1
    long=$(instructions "$folder/out" "$2" "$folder/set" "$folder/long" ${3:+"$3"})
    short=$(instructions "$folder/out" "$2" "$folder/set" "$folder/short" ${3:+"$3"})
    echo $(((long - short) / (count / 2)))
}

count=2000
trace $count >"$folder/long"
trace $((count / 2)) >"$folder/short"
for kind in plain hits chains alts; do
    for number in 1 8 40 100 200 400; do
        echo "A 1 $(conditions $number $kind)" >"$folder/set"
        why=$(each "$author" why 1)
        run=$(each "$runner" run)
        echo "$kind $number $count $why $run $(awk -v a="$why" -v b="$run" 'BEGIN { printf "%.2f", a / b }')"
    done
done
echo "A 1 $(conditions 1 plain)" >"$folder/set"
for bytes in 1 16; do
    trace $((bytes * 1048576 / 9)) >"$folder/long"
    /usr/bin/time -f "$bytes MiB, status %x, %M KB" "$author" why "$folder/set" "$folder/long" 1 2>&1 >"$folder/out" | tail -n 1
done
