#!/bin/sh
# Builds the programs of this folder over an archive, runs them, and compares what they print; model and fuzz make 10,000 calls, and
# fuzz as many with allocations that fail.
# usage: examples/c/run.sh ARCHIVE, the libra_c.a of crates/ra_c
set -eu
archive=$(realpath -e "$1")
folder=$(mktemp -d)
trap 'rm -rf "$folder"' EXIT
cd "$(dirname "$0")"
make -s OUT="$folder" ARCHIVE="$archive"
for program in codes row1 loop; do
    "$folder/$program" >"$folder/$program.out"
done
printf 'unlock 4 1\nlast 4 since 0 waited 1\n0 1:1\n0 2:2\n0 4:3\n' | cmp - "$folder/row1.out"
cmp loop.out "$folder/loop.out"
cat "$folder/codes.out"
for name in small forest; do
    "$folder/play" "../$name.set" "../$name.trace" >"$folder/play.out"
    cmp "../$name.out" "$folder/play.out"
done
"$folder/allocations"
"$folder/model" 10000
"$folder/fuzz" 10000
"$folder/fuzz" 10000 1 1
