#!/bin/sh
# Builds the archive and the programs of this folder, and runs them: plainly, under the sanitizers and under valgrind.
# Then it installs the library, builds the programs against what was installed, and calls it in random sequences.
# Then compares play with the program ra_player over generated sets and traces, over one bank and over three.
# usage: examples/c/check.sh [SETS [PLAYER]], where SETS is 200 and PLAYER the built program; where it is not named it is
# the one in crates/ra_player/out, or built first, with every proof below it
set -eu
root=$(cd "$(dirname "$0")/../.." && pwd)
sets=${1:-200}
player=${2:-$root/crates/ra_player/out/ra_player}
if [ $# -ge 2 ] && [ ! -x "$2" ]; then
    echo "there is no $2" >&2
    exit 1
fi
folder=$(mktemp -d)
trap 'rm -rf "$folder"' EXIT
cd "$root/examples/c"
for tool in cc make python3 valgrind; do
    if ! command -v "$tool" >/dev/null; then
        echo "$tool is missing: nothing was tried"
        exit 0
    fi
done
archive=$root/crates/ra_c/out/libra_c
sum=$(./sum.sh)
# an archive of other files is made anew
if [ ! -f "$archive.sum" ] || [ "$(cat "$archive.sum")" != "$sum" ]; then
    rm -f "$archive.a"
fi
make OUT="$folder/plain"
echo "$sum" >"$archive.sum"
./run.sh "$archive.a"
make OUT="$folder/safe" CFLAGS="-O1 -g -fsanitize=address,undefined -fno-sanitize-recover=all"
for program in codes row1 loop; do
    "$folder/plain/$program" >"$folder/$program.out"
    "$folder/safe/$program" >"$folder/safe.out"
    cmp "$folder/safe.out" "$folder/$program.out"
    valgrind -q --error-exitcode=9 --leak-check=full --errors-for-leak-kinds=all "$folder/plain/$program" >"$folder/valgrind.out"
    cmp "$folder/valgrind.out" "$folder/$program.out"
done
"$root/crates/ra_c/install.sh" "$folder/prefix" "$archive.a"
./installed.sh "$folder/prefix"
./fuzz.sh "$folder/prefix"
if [ ! -x "$player" ]; then
    echo "the player is proved and built first" >&2
    (cd "$root/crates/ra_player" && rt run -- check ../../examples/small.set) >&2
fi
python3 "$root/bench/c_library.py" compare "$player" "$folder/plain/play" "$folder/safe/play" "$sets"
