#!/bin/sh
# Compares the version of the installed header with those of the archive, the shared library, its symbols, pkg-config and CMake.
# usage: examples/c/versions.sh PREFIX, where crates/ra_c/install.sh installed
set -eu
prefix=$(cd "$1" && pwd)
folder=$(mktemp -d)
trap 'rm -rf "$folder"' EXIT
libraries=$(dirname "$(find "$prefix" -name libmeerkat.so | head -n 1)")
version=$(sed -n 's/^#define MEERKAT_VERSION \([0-9]*\)u$/\1/p' "$prefix/include/meerkat.h")

# same WHAT FOUND: what was found is the version of the header
same() {
    if [ "$2" != "$version" ]; then
        echo "$1 has the version '$2', and the header $version"
        exit 1
    fi
}

printf '#include "meerkat.h"\n#include <stdio.h>\nint main(void) { printf("%%u", meerkat_version()); return 0; }\n' >"$folder/version.c"
cc -I"$prefix/include" "$folder/version.c" "$libraries/libmeerkat.a" -o "$folder/version"
same "the archive" "$("$folder/version")"
same "the soname" "$(readelf -d "$libraries/libmeerkat.so" | sed -n 's/.*soname: \[libmeerkat\.so\.\(.*\)\]$/\1/p')"
same "the node of the symbols" "$(nm -D --defined-only "$libraries/libmeerkat.so" | sed -n 's/.* A MEERKAT_\([0-9]*\).*/\1/p')"
same "the file of pkg-config" "$(sed -n 's/^Version: //p' "$libraries/pkgconfig/meerkat.pc")"
same "the file of CMake" "$(sed -n 's/^set(PACKAGE_VERSION "\(.*\)")$/\1/p' "$libraries/cmake/meerkat/meerkat-config-version.cmake")"
echo "all have the version $version"
