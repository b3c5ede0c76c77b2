#!/bin/sh
# Tries a released archive in an empty folder with no kit: its sums, the programs over the examples, and the C examples
# by pkg-config, by CMake and by CMake's FetchContent; what they print is compared with the outputs of the repository.
# usage: bench/unpacked.sh ARCHIVE [REPOSITORY], where REPOSITORY has the outputs; where it is not named it is this one
set -eu
archive=$(realpath "$1")
root=$(cd "${2:-$(dirname "$0")/..}" && pwd)
room=$(mktemp -d)
trap 'rm -rf "$room"' EXIT
cd "$room"
tar -xf "$archive"
top=$room/$(ls)
sum=$(sha256sum "$archive" | cut -d' ' -f1)

# bare WORDS: the words with nothing of this machine but the system's own programs
bare() {
    env -i PATH="${SYSTEM_PATH:-/usr/bin:/bin}" HOME="$room" "$@"
}

if bare sh -c 'command -v rt' >/dev/null; then
    echo "rt is on the system's own path: set SYSTEM_PATH to one without the kit" >&2
    exit 1
fi
(cd "$top" && bare sha256sum --quiet -c SHA256SUMS)
examples=$top/share/meerkatalloy/examples
for example in small forest; do
    bare "$top/bin/ra_player" run "$examples/$example.set" "$examples/$example.trace" >out
    cmp out "$root/examples/$example.out"
done
bare "$top/bin/ra_player" run "$examples/changed/old.set" "$examples/changed/first.trace" --save progress >out
cmp out "$root/examples/changed/first.out"
bare "$top/bin/ra_player" run "$examples/changed/new.set" "$examples/changed/later.trace" --restore progress >out
cmp out "$root/examples/changed/later.out"
bare "$top/bin/ra_player" run "$examples/libretro/lantern.set" "$examples/libretro/lantern.trace" >out
cmp out "$root/examples/libretro/lantern.out"
bare "$top/bin/ra_author" review "$examples/small.set" >out
bare python3 "$examples/trace.py" write "$examples/small.txt" written
cmp written "$root/examples/small.trace"
echo "the programs over the examples: passed"
bare "$examples/c/installed.sh" "$top"
if bare sh -c 'command -v cmake' >/dev/null; then
    mkdir fetched
    cp "$examples/c/row1.c" fetched/
    cat >fetched/CMakeLists.txt <<CMAKE
cmake_minimum_required(VERSION 3.14)
project(fetched C)
if(POLICY CMP0135)
  cmake_policy(SET CMP0135 NEW)
endif()
include(FetchContent)
FetchContent_Declare(meerkat URL "file://$archive" URL_HASH SHA256=$sum)
FetchContent_MakeAvailable(meerkat)
find_package(meerkat REQUIRED PATHS "\${meerkat_SOURCE_DIR}" NO_DEFAULT_PATH)
add_executable(row1 row1.c)
target_link_libraries(row1 meerkat::static)
CMAKE
    bare cmake -S fetched -B fetched/out >said
    bare cmake --build fetched/out >>said
    printf 'unlock 4 1\nlast 4 since 0 waited 1\n0 1:1\n0 2:2\n0 4:3\n' >wanted
    bare fetched/out/row1 | cmp - wanted
    echo "fetched: passed"
else
    echo "cmake is missing: not tried"
fi
