#!/bin/sh
# What the parts of a run cost: instructions for each frame, save, restore, line, show and item, by the difference of two runs.
# usage: bench/parts.sh [PLAYER [FRAMES]]
# PLAYER is the built program; where it is not named it is found, or built. FRAMES are those of the real-sized set, 1,000
# where they are not named. Instructions are counted by callgrind, so they are the same on every machine.
set -eu
. "$(dirname "$0")/player.sh"
need valgrind python3
find_player "${1:-}"
frames=${2:-1000}
folder=$(mktemp -d)
trap 'rm -rf "$folder"' EXIT
python3 "$here/bench/workloads.py" "$folder" "$frames"

# row WHAT TIMES SET TRACE SET TRACE: what the first run costs more than the other, each of so many times
row() {
    more=$(instructions /dev/null run "$folder/$3" "$folder/$4")
    less=$(instructions /dev/null run "$folder/$5" "$folder/$6")
    awk -v what="$1" -v times="$2" -v more="$more" -v less="$less" \
        'BEGIN { printf "| %s | %.0f |\n", what, (more - less) / times }'
}

# made: what a frame of `make 0` costs with its writes: the play without its saves and restores, over 4,096 frames
made() {
    valgrind --tool=callgrind --callgrind-out-file="$folder/made" "$player" make 0 >/dev/null 2>&1
    callgrind_annotate --inclusive=yes --threshold=100 "$folder/made" | awk '{ gsub(",", "", $1) }
        /play_records/ { play = $1 } /Player::save/ { save = $1 } /Player::restore/ { restore = $1 }
        END { printf "| a frame of `make 0` with its 8 writes | %.0f |\n", (play - save - restore) / 4096 }'
}

echo "| What | Instructions |"
echo "|---|---|"
made
row 'a frame of 4,000 achievements of 8 conditions with 4 writes' $((frames - 10)) many.set many.trace many.set many-ten.trace
row 'a frame of them with no write' $((frames - 10)) many.set still.trace many.set still-ten.trace
row 'a frame of 40 such achievements with no write' $((frames - 10)) few.set still.trace few.set still-ten.trace
row 'a frame of the 4,000 in which every byte changes' 10 many.set due.trace many.set due-one.trace
row 'a frame with no write after each of those' 12 many.set due-still.trace many.set due.trace
row 'a frame with no write after a restore' 100 many.set restored.trace many.set restores.trace
row 'a frame of 4,000 achievements of 4 comparisons behind one pointer, which moves' 20 pointers.set pointers.trace pointers.set pointers-one.trace
for what in '1 at each frame' '2 at each second frame' '3 at each third frame' '80 in 80 % of the items at each frame'; do
    row "a frame of 4,000 achievements of 8 conditions of which each comes out otherwise ${what#* }" 120 flips.set "flips-${what%% *}.trace" \
        flips.set "flips-${what%% *}-one.trace"
done
row 'a frame of them before which every byte takes a random value' 120 flips.set flips-random.trace flips.set flips-random-one.trace
row 'a frame with no write after one of 4,000 bytes, of 120 achievements over bytes far apart' 200 spread.set spread.trace spread.set spread-few.trace
row 'a frame of 4,000 achievements of 8 conditions that look at one byte, which changes' 40 looks.set looked.trace looks.set looked-one.trace
row 'such a frame after 40 with no write, so that all were at rest' 1 looks.set woken.trace looks.set rested.trace
row 'a frame of a display of 4,000 lines of 8 conditions that look at one byte, which changes' 40 look-lines.set looked.trace look-lines.set looked-one.trace
row 'such a frame after 40 with no write, so that all were at rest' 1 look-lines.set woken.trace look-lines.set rested.trace
for count in 1 4 10 40 400; do
    for what in "achievements due-$count" "lines due-lines-$count"; do
        file=${what#* }.set
        row "a frame of $count ${what% *} of 8 conditions, all due" 40 "$file" looked.trace "$file" looked-one.trace
        row "such a frame after 40 with no write, so that all were at rest" 1 "$file" woken.trace "$file" rested.trace
    done
done
row 'a frame of no items' $((frames - 10)) none.set still.trace none.set still-ten.trace
row 'a write of one byte, with no items' $((frames - 10)) none.set some-writes.trace none.set ten-writes.trace
row 'a frame of a real-sized set' $((frames - 1)) real.set real.trace real.set real-one.trace
for share in 0.3 1 2 5; do
    row "a frame of it at which $share % of the bytes that it names are written" $((frames - 1)) real.set "real-$share.trace" real.set "real-$share-one.trace"
done
row 'a save of 4,000 achievements of 8 conditions' 100 many.set saves.trace many.set saved.trace
row 'a restore of them' 100 many.set restores.trace many.set saved.trace
row 'loading and making an item, of 16,384' 16384 items.set one.trace none.set one.trace
row 'a line of a measured number' 65536 lines.set counts.trace quiet.set counts.trace
row 'a show of a small script' 65536 small.set shows.trace small.set shown.trace
row 'a show by a lookup of 262,144 keys lines' 10 keys.set ten.trace keys.set shown.trace
row 'a show of a script of 131,072 lookups' 10 names.set ten.trace names.set shown.trace
