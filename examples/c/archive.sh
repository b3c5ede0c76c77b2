#!/bin/sh
# Builds the archive crates/ra_c/out/libra_c.a and its sum over the libraries that `rt ci` has left in crates/*/out/rlib, without
# a second proof of them: Rattle's compiler checks ra_c alone, and compiles it with what it calls of them. Nothing is built where
# the archive of these files is there.
# usage: examples/c/archive.sh
# A library that `rt check` or `rt lib` has left may be of other files: then, as where one is missing, the script ends with
# status 77, and `rt lib` in crates/ra_c makes the archive. KIT is the folder of Rattle's kit.
set -eu
root=$(cd "$(dirname "$0")/../.." && pwd)
kit=${KIT:-/opt/rattle}
archive=$root/crates/ra_c/out/libra_c
sum=$("$root/examples/c/sum.sh")
if [ -f "$archive.a" ] && [ "$(cat "$archive.sum" 2>/dev/null)" = "$sum" ]; then
    echo "an archive of these files was there"
    exit 0
fi

# crates_below CRATE: the libraries of crates.txt that it names, and those that these name
crates_below() {
    for name in $(sed -n "s/^$1\( staticlib\)\{0,1\}://p" "$root/crates.txt"); do
        if [ -d "$root/crates/$name" ]; then
            echo "$name"
            crates_below "$name"
        fi
    done
}

set -- --crate-name ra_c src/lib.rt --crate-type staticlib --extern "std=$kit/rlibs/std.rlib" -L "dependency=$kit/rlibs"
for name in $(sed -n 's/^ra_c staticlib://p' "$root/crates.txt"); do
    set -- "$@" --extern "$name=$root/crates/$name/out/rlib/$name.rlib"
done
for name in $(crates_below ra_c | sort -u); do
    library=$root/crates/$name/out/rlib
    if [ ! -d "$library/$name.rlib" ] || [ -f "$library/stamp" ]; then
        echo "crates/$name/out has no library of rt ci, and crates/ra_c/out no archive of these files"
        exit 77
    fi
    set -- "$@" -L "dependency=$library"
done
mkdir -p "$root/crates/ra_c/out"
rm -f "$archive.a" "$archive.sum"
cd "$root/crates/ra_c"
"$kit/bin/rattle" build "$@" --links ra_c= --antt-project "$kit/rattle/logic/antt-project.json" --logic-built "$kit/logic_built" \
    --toolchain "$kit/toolchain" --backend llvm -o "$archive.a"
echo "$sum" >"$archive.sum"
echo "an archive was built over the libraries that rt ci proved, without a second proof of them"
