#!/bin/sh
# Installs the C library below a folder: the header, a static and a shared library that need nothing else to link, a
# file for pkg-config and one for CMake. All have the version of the header: the libraries' soname, the symbols and both files.
# usage: crates/ra_c/install.sh PREFIX [ARCHIVE], where ARCHIVE is the libra_c.a that `rt lib` made; where it is not named
# it is the one in crates/ra_c/out, and is made first where it is missing or of other files, with every proof below it.
# LIBDIR is the folder of the libraries below PREFIX, as lib/x86_64-linux-gnu; lib where it is not set. The files of pkg-config and CMake
# find PREFIX from where they lie, so what is installed may be moved. DESTDIR stands before PREFIX in what is written. CC, AR, LD, OBJCOPY and KIT, the folder of Rattle's kit, may be set.
set -eu
if [ $# -lt 1 ] || [ $# -gt 2 ]; then
    echo "usage: crates/ra_c/install.sh PREFIX [ARCHIVE]" >&2
    exit 2
fi
crate=$(cd "$(dirname "$0")" && pwd)
root=$(cd "$crate/../.." && pwd)
kit=${KIT:-/opt/rattle}
case $1 in
/*) prefix=$1 ;;
*) prefix=$(pwd)/$1 ;;
esac
to=${DESTDIR:-}$prefix
libdir=${LIBDIR:-lib}
case $libdir in
/* | *..*)
    echo "LIBDIR is a folder below PREFIX, and $libdir is none" >&2
    exit 2
    ;;
esac
# the way from LIBDIR up to PREFIX
up=$(echo "$libdir" | sed 's|[^/][^/]*|..|g')
room=$(mktemp -d)
trap 'rm -rf "$room"' EXIT

if [ $# -eq 2 ]; then
    archive=$2
else
    archive=$crate/out/libra_c.a
    sum=$("$root/examples/c/sum.sh")
    if [ ! -f "$archive" ] || [ "$(cat "$crate/out/libra_c.sum" 2>/dev/null)" != "$sum" ]; then
        (cd "$crate" && rt lib) >&2
        echo "$sum" >"$crate/out/libra_c.sum"
    fi
fi
header=$crate/include/meerkat.h
version=$(sed -n 's/^#define MEERKAT_VERSION \([0-9]*\)u$/\1/p' "$header")

# one object of the library and of the kit's functions of memory, of which the names that begin with meerkat_ alone are seen
"${LD:-ld}" -r -o "$room/all.o" --whole-archive "$archive" --no-whole-archive "$kit/c/liblibc_c.a"
"${OBJCOPY:-objcopy}" -w --keep-global-symbol='meerkat_*' "$room/all.o" "$room/meerkat.o"
"${AR:-ar}" rcsD "$room/libmeerkat.a" "$room/meerkat.o"
printf 'MEERKAT_%s {\n    global:\n        meerkat_*;\n    local:\n        *;\n};\n' "$version" >"$room/names"
"${CC:-cc}" -shared -o "$room/libmeerkat.so.$version" "$room/meerkat.o" -Wl,-soname,"libmeerkat.so.$version" \
    -Wl,--version-script="$room/names" -Wl,--build-id=none -Wl,-z,relro -Wl,-z,now -Wl,-z,noexecstack -Wl,--no-undefined

mkdir -p "$to/include" "$to/$libdir/pkgconfig" "$to/$libdir/cmake/meerkat"
install -m 644 "$header" "$to/include/meerkat.h"
install -m 644 "$room/libmeerkat.a" "$to/$libdir/libmeerkat.a"
install -m 755 "$room/libmeerkat.so.$version" "$to/$libdir/libmeerkat.so.$version"
ln -sf "libmeerkat.so.$version" "$to/$libdir/libmeerkat.so"
cat >"$to/$libdir/pkgconfig/meerkat.pc" <<PC
prefix=\${pcfiledir}/../$up
includedir=\${prefix}/include
libdir=\${prefix}/$libdir

Name: meerkat
Description: RetroAchievements triggers, leaderboards and rich presence for emulators
Version: $version
Cflags: -I\${includedir}
Libs: -L\${libdir} -lmeerkat
PC
cat >"$to/$libdir/cmake/meerkat/meerkat-config.cmake" <<'CMAKE'
# meerkat::meerkat is the shared library, meerkat::static the static one; neither needs another.
get_filename_component(meerkat_root "${CMAKE_CURRENT_LIST_DIR}/../../@UP@" ABSOLUTE)
if(NOT TARGET meerkat::meerkat)
  add_library(meerkat::meerkat SHARED IMPORTED)
  set_target_properties(meerkat::meerkat PROPERTIES
    IMPORTED_LOCATION "${meerkat_root}/@LIBDIR@/libmeerkat.so.@ABI@"
    IMPORTED_SONAME "libmeerkat.so.@ABI@"
    INTERFACE_INCLUDE_DIRECTORIES "${meerkat_root}/include")
  add_library(meerkat::static STATIC IMPORTED)
  set_target_properties(meerkat::static PROPERTIES
    IMPORTED_LOCATION "${meerkat_root}/@LIBDIR@/libmeerkat.a"
    INTERFACE_INCLUDE_DIRECTORIES "${meerkat_root}/include")
endif()
CMAKE
sed -i "s|@ABI@|$version|; s|@UP@|$up|; s|@LIBDIR@|$libdir|" "$to/$libdir/cmake/meerkat/meerkat-config.cmake"
cat >"$to/$libdir/cmake/meerkat/meerkat-config-version.cmake" <<CMAKE
set(PACKAGE_VERSION "$version")
if(PACKAGE_FIND_VERSION VERSION_EQUAL PACKAGE_VERSION)
  set(PACKAGE_VERSION_COMPATIBLE TRUE)
  set(PACKAGE_VERSION_EXACT TRUE)
else()
  set(PACKAGE_VERSION_COMPATIBLE FALSE)
endif()
CMAKE
