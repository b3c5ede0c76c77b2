#!/bin/sh
# Calls the installed library in seeded sequences: 100,000 calls against a model, 100,000 at random, as many with allocations that fail, and fewer under the
# sanitizers and under valgrind. It fails at the first violation.
# usage: examples/c/fuzz.sh PREFIX [SEED], where crates/ra_c/install.sh installed
set -eu
prefix=$(cd "$1" && pwd)
seed=${2:-1}
folder=$(mktemp -d)
trap 'rm -rf "$folder"' EXIT
cd "$(dirname "$0")"
wraps=-Wl,--wrap=malloc,--wrap=realloc
# build PROGRAM SOURCE FLAG..: a program over the installed library
build() {
    program=$1
    source=$2
    shift 2
    cc -std=c11 -Wall -Wextra -Wpedantic -Werror -I"$prefix/include" "$source" "$prefix/lib/libmeerkat.a" "$@" -o "$folder/$program"
}
build model model.c -O2
build plain fuzz.c -O2 "$wraps"
build safe fuzz.c -O1 -g -fsanitize=address,undefined -fno-sanitize-recover=all "$wraps"
"$folder/model" 100000 "$seed"
"$folder/plain" 100000 "$seed"
"$folder/plain" 100000 "$seed" 1
"$folder/safe" 10000 "$seed"
"$folder/safe" 10000 "$seed" 1
if command -v valgrind >/dev/null; then
    valgrind -q --error-exitcode=9 "$folder/plain" 1000 "$seed"
else
    echo "valgrind is missing: not tried"
fi
