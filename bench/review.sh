#!/bin/sh
# How many instructions a review of a set file takes: good lines and bad ones, files of two and of four mebibytes.
# usage: bench/review.sh [AUTHOR], where AUTHOR is the built program ra_author; where it is not named the one that
# lies in crates/ra_author/out is taken, or it is proved and built first.
# Each row: what the lines are, the bytes of the file, how many lines, instructions in all, for each byte, and the last
# line of the review. A review that is linear has about one number in the fifth column for each kind of lines; the ids
# of items add the logarithm of their number.
set -eu
. "$(dirname "$0")/player.sh"
need valgrind
find_author "${1:-}"
folder=$(mktemp -d)
trap 'rm -rf "$folder"' EXIT

# lines KIND BYTES: as many whole lines of this kind as these bytes hold
lines() {
    awk -v kind="$1" -v bytes="$2" 'BEGIN {
        for (id = 1; ; id++) {
            if (kind == "one") line = sprintf("A %d 0xH%04x=%d", id, id * 7 % 65536, id % 256)
            else if (kind == "short") line = "A " id " 0=1"
            else if (kind == "none") line = "A " id " "
            else if (kind == "high") line = "A " (id + 2000000) " "
            else if (kind == "eight") {
                line = "A " id " "
                for (k = 0; k < 8; k++)
                    line = line sprintf("%s0xH%04x>d0xH%04x", k ? "_" : "", (id * 8 + k) % 65536, (id * 5 + k) % 65536)
            }
            else if (kind == "boards") line = "L " id " VALUE STA:0xH0001=1::CAN:0xH0002=1::SUB:0xH0003=1::VAL:0xH0004"
            else if (kind == "comments") line = "#"
            else line = "A x"
            bytes -= length(line) + 1
            if (bytes < 0) exit
            print line
        }
    }'
}

for kind in short none high one eight boards comments bad; do
    for mebibytes in 2 4; do
        lines "$kind" $((mebibytes * 1048576)) >"$folder/set"
        bytes=$(wc -c <"$folder/set")
        all=$(instructions "$folder/out" review "$folder/set")
        echo "$kind $bytes $(wc -l <"$folder/set") $all $((all / bytes)) ($(tail -n 1 "$folder/out"))"
    done
done
