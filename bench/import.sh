#!/bin/sh
# How many instructions `ra_author import` takes: documents of 4, 8 and 16 MiB of short achievements, of which all but
# 12,000 are left out.
# usage: bench/import.sh [AUTHOR], where AUTHOR is the built program ra_author; where it is not named the one that lies in
# crates/ra_author/out is taken, or it is proved and built first.
# Each row: the bytes of the document, instructions in all, for each byte, and the last line of the import. An import that is linear
# has about one number in the third column.
set -eu
. "$(dirname "$0")/player.sh"
need valgrind python3
find_author "${1:-}"
folder=$(mktemp -d)
trap 'rm -rf "$folder"' EXIT

for mebibytes in 4 8 16; do
    python3 - "$folder/document" $((mebibytes * 1048576)) <<'P'
import sys
name, most = sys.argv[1], int(sys.argv[2])
count = most // 72
with open(name, "w") as out:
    out.write('{"PatchData":{"Achievements":[')
    for at in range(count):
        kept = at * 12000 // count != (at - 1) * 12000 // count
        text = ("0xH%04x=%03d" if kept else "fF%05x=%03d") % (at * 7 % 65536, at % 256)
        out.write('%s{"ID":%07d,"MemAddr":"%s","Title":"item number %07d"}' % ("," if at else "", 1000000 + at, text, at))
    out.write("]}}")
P
    bytes=$(wc -c <"$folder/document")
    all=$(instructions "$folder/out" import "$folder/document" "$folder/set")
    echo "$bytes $all $((all / bytes)) ($(tail -n 1 "$folder/out"))"
done
