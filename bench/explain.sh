#!/bin/sh
# What an explanation costs: `explain` of an achievement of 65,536 conditions over 1,000 frames, each of which counts at
# every frame, so that no explanation of so many rows and conditions has more events.
# usage: bench/explain.sh [PLAYER], where PLAYER is the built program; where it is not named it is found, or built.
# Prints the most memory that was resident, the instructions and the MD5 of what was printed. Callgrind takes some minutes.
set -eu
. "$(dirname "$0")/player.sh"
need valgrind python3 md5sum
find_player "${1:-}"
folder=$(mktemp -d)
trap 'rm -rf "$folder"' EXIT

python3 - "$folder" "$here/bench" <<'MAKE'
import sys

folder, bench = sys.argv[1:]
sys.path.insert(0, bench)
from workloads import header, write

with open(f"{folder}/full.set", "w") as file:
    file.write("A 1 " + "_".join(["0xH0010=0"] * 65535 + ["0xH0011=1"]) + "\n")
with open(f"{folder}/full.trace", "wb") as file:
    file.write(header(65536) + b"F" * 999 + write(0x11, 1) + b"FE")
MAKE

python3 -c 'import resource, subprocess, sys
with open(sys.argv[1], "wb") as out:
    subprocess.run(sys.argv[2:], stdout=out, check=True)
kilobytes = resource.getrusage(resource.RUSAGE_CHILDREN).ru_maxrss * 1024 // 1000
print(f"most memory: {kilobytes / 1e3:.0f} MB")' \
    "$folder/lines" "$player" explain "$folder/full.set" "$folder/full.trace" 1
count=$(instructions /dev/null explain "$folder/full.set" "$folder/full.trace" 1)
echo "instructions: $((count / 1000000)) million"
echo "lines: $(md5sum <"$folder/lines" | cut -d ' ' -f 1)"
