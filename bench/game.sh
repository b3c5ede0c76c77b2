#!/bin/sh
# What a frame of a game costs: prints the figures of docs/COSTS.md, "A recorded game".
# usage: bench/game.sh [PLAYER], where PLAYER is the built program; where it is not named it is found, or built
# The trace is the recording of examples/libretro. Instructions are counted by callgrind: those of a run, without those of a run over
# a trace without frames, a frame. So the player's have its writes in them, the printed lines and the saves and restores of the
# recording. rcheevos plays the same trace by examples/libretro/rc_trace.c where librcheevos-dev is there.
set -eu
. "$(dirname "$0")/player.sh"
need valgrind python3
find_player "${1:-}"
folder=$(mktemp -d)
trap 'rm -rf "$folder"' EXIT
game=$here/examples/libretro
sets() { python3 "$here/bench/game_sets.py" "$@"; }

cp "$game/lantern.set" "$folder/own.set"
: >"$folder/none.set"
echo "own:  $(sets count "$game/lantern.set" "$game/lantern.trace")"
echo "calm: $(sets make calm "$game/lantern.set" "$game/lantern.trace" "$folder/calm.set")"
echo "busy: $(sets make busy "$game/lantern.set" "$game/lantern.trace" "$folder/busy.set")"
cp "$game/lantern.trace" "$folder/1.trace"
for places in 8 64; do
    sets copies $places "$game/lantern.trace" "$folder/$places.trace"
done
for places in 1 8 64; do
    sets empty "$folder/$places.trace" "$folder/$places.empty"
done
frames=$(python3 "$here/examples/trace.py" show "$game/lantern.trace" | grep -c '^F')

rc_trace=
archive=$(ls /usr/lib/*/rcheevoslib.a 2>/dev/null | head -1)
if [ -n "$archive" ] && [ -f /usr/include/rcheevos/rcheevos.h ] && command -v cc >/dev/null; then
    rc_trace=$folder/rc_trace
    cc -std=c99 -O2 -DWITH_RCHEEVOS "$game/rc_trace.c" -o "$rc_trace" "$archive"
fi

# a_frame PROGRAM WORDS..: the instructions a frame of PROGRAM WORDS.. SET TRACE, for the set and the trace of these names
a_frame() {
    set=$1 trace=$2
    player=$3
    shift 3
    whole=$(instructions /dev/null "$@" "$folder/$set.set" "$folder/$trace.trace")
    empty=$(instructions /dev/null "$@" "$folder/$set.set" "$folder/$trace.empty")
    echo $(((whole - empty) / frames))
}

echo
echo "| Set | The player | 8 copies over 2 MiB | 64 copies | rcheevos |"
echo "|---|---|---|---|---|"
program=$player
for set in none own calm busy; do
    case $set in
    none) row="| no items" ;;
    own) row="| the game's own" ;;
    *) row="| $set: 100 achievements of 8" ;;
    esac
    for trace in 1 8 64; do
        row="$row | $(a_frame $set $trace "$program" run)"
    done
    if [ -n "$rc_trace" ]; then
        echo "$row | $(a_frame $set 1 "$rc_trace") |"
    else
        echo "$row | |"
    fi
done
