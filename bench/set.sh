#!/bin/sh
# How many instructions a byte of a set file costs: files of short lines, of one, two and four mebibytes.
# usage: bench/set.sh [PLAYER], where PLAYER is the built program; where it is not named it is found, or built
# Each row: what the lines are, the bytes of the file, instructions in all, for each byte, and what `check` printed. A
# reading that is linear has about one number in the fourth column for each kind of lines; the ids of items add the
# logarithm of their number. A last line that would be cut is left out, so that each file is whole lines.
set -eu
. "$(dirname "$0")/player.sh"
need valgrind
find_player "${1:-}"
folder=$(mktemp -d)
trap 'rm -rf "$folder"' EXIT

# lines KIND BYTES: as many whole short lines of this kind as these bytes hold
lines() {
    awk -v kind="$1" -v bytes="$2" 'BEGIN {
        for (id = 0; ; id++) {
            line = kind == "items" ? "A " id " " : kind == "comments" ? "#" : ""
            bytes -= length(line) + 1
            if (bytes < 0) exit
            print line
        }
    }'
}

for kind in items comments empty; do
    for mebibytes in 1 2 4; do
        lines "$kind" $((mebibytes * 1048576)) >"$folder/set"
        bytes=$(wc -c <"$folder/set")
        all=$(instructions "$folder/out" check "$folder/set")
        echo "$kind $bytes $all $((all / bytes)) ($(cat "$folder/out"))"
    done
done
