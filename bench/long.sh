#!/bin/sh
# A trace of 1 GiB of frames through a pipe, over no items: the status, the seconds and the most memory.
# usage: bench/long.sh [PLAYER], where PLAYER is the built program; where it is not named it is found, or built
set -eu
. "$(dirname "$0")/player.sh"
need python3
find_player "${1:-}"
folder=$(mktemp -d)
trap 'rm -rf "$folder"' EXIT
: >"$folder/none.set"
python3 -c 'import resource, subprocess, sys, time
begun = time.time()
run = subprocess.Popen(sys.argv[1:], stdin=subprocess.PIPE)
run.stdin.write(b"RATR\x01" + bytes(4))
for _ in range(1024):
    run.stdin.write(b"F" * 1048576)
run.stdin.write(b"E")
run.stdin.close()
status = run.wait()
most = resource.getrusage(resource.RUSAGE_CHILDREN).ru_maxrss
print(f"status {status}, {time.time() - begun:.0f} s, {most / 1000:.0f} MB")' "$player" run "$folder/none.set" /dev/stdin
