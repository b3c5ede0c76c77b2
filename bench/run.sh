#!/bin/sh
# What the player costs: prints the table of docs/COSTS.md, "Whole runs".
# usage: bench/run.sh [PLAYER [FRAMES]]
# PLAYER is the built program; where it is not named it is found, or built. FRAMES are those of the 4,000 achievements,
# 1,000 where they are not named. Instructions are counted by callgrind, so they are the same on every machine.
set -eu
. "$(dirname "$0")/player.sh"
need valgrind python3 /usr/bin/time
find_player "${1:-}"
frames=${2:-1000}
folder=$(mktemp -d)
trap 'rm -rf "$folder"' EXIT
python3 "$here/bench/workloads.py" "$folder" "$frames"

# The most memory that a program held resident, in kB. The system counts what stood before the program was loaded too,
# so nothing below the floor is told apart from it.
memory() {
    python3 -c 'import resource, subprocess, sys
subprocess.run(sys.argv[1:], stdout=subprocess.DEVNULL)
print(resource.getrusage(resource.RUSAGE_CHILDREN).ru_maxrss * 1024 // 1000)' "$@"
}
floor=$(memory true)

# row WHAT WORDS..: a row of the table for a run with these words
row() {
    what=$1
    shift
    count=$(instructions /dev/null "$@")
    kilobytes=$(memory "$player" "$@")
    awk -v what="$what" -v count="$count" -v most="$kilobytes" -v floor="$floor" 'BEGIN {
        memory = most > 1.05 * floor ? sprintf("%.0f MB", most / 1e3) : sprintf("below %.0f MB", 1.05 * floor / 1e3)
        printf "| %s | %.0f million | %s |\n", what, count / 1e6, memory
    }'
}

echo "| What | Instructions | Most memory |"
echo "|---|---|---|"
row '`make 0`: 257 items and a display over 4,096 frames with 8 writes of one byte each' make 0
row '`check` of a set file of 4 MiB with 65,536 conditions' check "$folder/large.set"
row '`lint` of the same file' lint "$folder/large.set"
row "4,000 achievements of 8 conditions over $frames frames with 4 writes of one byte each" \
    run "$folder/many.set" "$folder/many.trace"
row "the same set over $frames frames with no write" run "$folder/many.set" "$folder/still.trace"
row 'no items over 1,048,576 frames' run "$folder/none.set" "$folder/frames.trace"
row 'no items over 1,048,576 writes of one byte' run "$folder/none.set" "$folder/writes.trace"
row 'no items over a trace of 16 MiB of frames' run "$folder/none.set" "$folder/long.trace"
row 'one frame of no items over an image of 128 MiB' run "$folder/none.set" "$folder/great.trace"
row '`check` of 4 MiB of display lines `??x`' check "$folder/texts.set"
row '`check` of 4 MiB of macros in one display line, which are too many' check "$folder/macros.set"

# What a condition takes: the memory that was resident over the 4,000 achievements of 8 conditions, less that over a set of no items, by
# 32,000, as GNU time tells it. It has the set, its nodes, cells and comparisons, and the states.
resident() {
    /usr/bin/time -f %M "$player" run "$folder/$1" "$folder/still.trace" 2>&1 >/dev/null
}
echo "a condition: $((($(resident many.set) - $(resident none.set)) * 1024 / 32000)) bytes of resident memory"
