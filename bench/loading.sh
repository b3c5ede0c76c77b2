#!/bin/sh
# What loading a set costs: instructions for each condition, at 100, 1,000 and 4,000 achievements of 8 conditions.
# usage: bench/loading.sh [PLAYER]
# PLAYER is the built program; where it is not named it is found, or built. Callgrind counts what reads the bytes of the file
# (`read_unnamed`, or `parse_set` where names are made), and `Player::new`, from the set to a run at rest, each with all that it calls.
# The sets are the first lines of one file (bench/workloads.py), and each is played over one frame, which is not counted, nor is what is
# dropped at the end. The second table is of runs that save into a file, and so make the names of the file's lines. rcheevos reads the same
# sets by examples/libretro/rc_trace.c where librcheevos-dev is there: `rc_runtime_activate_achievement`, which makes the MD5 of each line too.
set -eu
. "$(dirname "$0")/player.sh"
need valgrind python3
find_player "${1:-}"
folder=$(mktemp -d)
trap 'rm -rf "$folder"' EXIT
python3 "$here/bench/workloads.py" "$folder" 1

rc_trace=
archive=$(ls /usr/lib/*/rcheevoslib.a 2>/dev/null | head -1)
if [ -n "$archive" ] && [ -f /usr/include/rcheevos/rcheevos.h ] && command -v cc >/dev/null; then
    rc_trace=$folder/rc_trace
    cc -std=c99 -O2 -DWITH_RCHEEVOS "$here/examples/libretro/rc_trace.c" -o "$rc_trace" "$archive"
fi

# beside COUNT: what rcheevos takes of the same set; nothing where it is missing
beside() {
    [ -n "$rc_trace" ] || return 0
    valgrind --tool=callgrind --callgrind-out-file="$folder/loaded" "$rc_trace" "$folder/some.set" "$folder/one.trace" >/dev/null 2>&1
    callgrind_annotate --inclusive=yes --threshold=100 "$folder/loaded" | awk -v count="$1" '{ gsub(",", "", $1) }
        /rc_runtime_activate_achievement/ { printf "%.0f", $1 / count / 8; exit }'
}

# row COUNT WORDS..: loading of the first achievements of the file, for a run with these words
row() {
    count=$1
    shift
    head -n "$count" "$folder/many.set" >"$folder/some.set"
    valgrind --tool=callgrind --callgrind-out-file="$folder/loaded" "$player" run "$folder/some.set" "$folder/one.trace" "$@" >/dev/null 2>&1
    callgrind_annotate --inclusive=yes --threshold=100 "$folder/loaded" | awk -v count="$count" '{ gsub(",", "", $1) }
        /parse::(parse_set|read_unnamed)/ && !read { read = $1 } /Player::new/ && !made { made = $1 }
        END { if (!read || !made) exit 1
            printf "| %d | %.0f | %.0f | %.0f |", count, read / count / 8, made / count / 8, (read + made) / count / 8 }'
    echo " $(beside "$count") |"
}

# table TITLE WORDS..
table() {
    echo "| $1 | Reading | Making a run | Together | rcheevos |"
    echo "|---|---|---|---|---|"
    shift
    for count in 100 1000 4000; do
        row "$count" "$@"
    done
}

table "Achievements of 8 conditions"
echo
table "With --save" --save "$folder/saved"
