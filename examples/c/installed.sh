#!/bin/sh
# Builds the programs of this folder against the installed library, by pkg-config and by CMake where they are there, over
# the shared library and over the static one, runs them, and compares what they print.
# It does so in a copy of what was installed, where no file may name the place that it was installed to.
# usage: examples/c/installed.sh PREFIX, where crates/ra_c/install.sh installed
set -eu
installed=$(cd "$1" && pwd)
folder=$(mktemp -d)
trap 'rm -rf "$folder"' EXIT
cd "$(dirname "$0")"
# (an archive that was unpacked has more files than are tried)
prefix=$folder/moved
libraries=$(cd "$installed" && dirname "$(find . -name libmeerkat.so | head -n 1)")
mkdir -p "$prefix/$libraries"
cp -a "$installed/include" "$prefix/"
cp -a "$installed/$libraries/." "$prefix/$libraries/"
if grep -r "$installed" "$prefix"; then
    echo "a file names the place that it was installed to"
    exit 1
fi
libraries=$prefix/$libraries

version=$(sed -n 's/^#define MEERKAT_VERSION \([0-9]*\)u$/\1/p' "$prefix/include/meerkat.h")

# judge HOW: what the programs of a folder print is what they have to
judge() {
    for program in codes row1 loop; do
        "$folder/$1/$program" >"$folder/$program.out"
    done
    printf 'unlock 4 1\nlast 4 since 0 waited 1\n0 1:1\n0 2:2\n0 4:3\n' | cmp - "$folder/row1.out"
    cmp loop.out "$folder/loop.out"
    echo "$1: passed"
}

for symbol in $(nm -D --defined-only "$libraries/libmeerkat.so" | awk '$2 != "A" { print $3 }'); do
    case $symbol in
    meerkat_*) ;;
    *) echo "libmeerkat.so shows $symbol"; exit 1 ;;
    esac
done
export LD_LIBRARY_PATH="$libraries"
if command -v pkg-config >/dev/null; then
    export PKG_CONFIG_PATH="$libraries/pkgconfig"
    mkdir -p "$folder/shared" "$folder/static"
    for program in codes row1 loop; do
        # shellcheck disable=SC2046
        cc -std=c11 -Wall -Wextra -Wpedantic -Werror "$program.c" $(pkg-config --cflags --libs meerkat) -o "$folder/shared/$program"
        # shellcheck disable=SC2046
        cc -std=c11 $(pkg-config --cflags meerkat) "$program.c" "$libraries/libmeerkat.a" -o "$folder/static/$program"
    done
    judge shared
    judge static
else
    echo "pkg-config is missing: not tried"
fi
if command -v cmake >/dev/null; then
    mkdir -p "$folder/source" "$folder/cmake"
    cp codes.c row1.c loop.c "$folder/source/"
    cat >"$folder/source/CMakeLists.txt" <<'CMAKE'
cmake_minimum_required(VERSION 3.10)
project(programs C)
find_package(meerkat ${WANTED} EXACT REQUIRED)
foreach(program codes row1)
  add_executable(${program} ${program}.c)
  target_link_libraries(${program} meerkat::meerkat)
endforeach()
add_executable(loop loop.c)
target_link_libraries(loop meerkat::static)
CMAKE
    cmake -S "$folder/source" -B "$folder/cmake" -DCMAKE_PREFIX_PATH="$prefix" \
        -Dmeerkat_DIR="$libraries/cmake/meerkat" -DWANTED="$version" >"$folder/said"
    cmake --build "$folder/cmake" >>"$folder/said"
    judge cmake
else
    echo "cmake is missing: not tried"
fi
