#!/bin/sh
# Records a game: runs it on a libretro core without a screen, presses what SCRIPT says, and writes its memory to TRACE.
# usage: examples/libretro/record.sh CORE GAME SCRIPT TRACE [--ram] [--set SET] [KEY=VALUE ..]
# CORE is the file of a core, or its name, as nestopia of Debian's libretro-nestopia. The head of frontend.c has the lines of a script.
set -eu
here=$(dirname "$0")
if [ $# -lt 4 ]; then
    sed -n '2,4s/^# //p' "$0" >&2
    exit 2
fi
core=$1
shift
if [ ! -f "$core" ]; then
    core=$(ls /usr/lib/*/libretro/"${core}_libretro.so" /usr/lib/libretro/"${core}_libretro.so" 2>/dev/null | head -1)
fi
if [ -z "$core" ]; then
    echo "there is no such core: on Debian, apt-get install libretro-nestopia has nestopia" >&2
    exit 1
fi
folder=$(mktemp -d)
trap 'rm -rf "$folder"' EXIT
rcheevos=$(ls /usr/lib/*/rcheevoslib.a 2>/dev/null | head -1)
[ -f /usr/include/rcheevos/rcheevos.h ] || rcheevos=
"${CC:-cc}" -std=c99 -O2 ${rcheevos:+-DWITH_RCHEEVOS} "$here/frontend.c" -o "$folder/frontend" $rcheevos -ldl
"$folder/frontend" "$core" "$@"
