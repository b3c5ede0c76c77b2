# What the scripts of this folder share, which read this file.

# The built player, as $player: the program that is named, else the one that lies in crates/ra_player/out, else it is built first,
# with every proof below it.
find_player() {
    find_program ra_player "${1:-}" check ../../examples/small.set
}

# The same of the program for authors, as $player, for `instructions`.
find_author() {
    find_program ra_author "${1:-}" version
}

# find_program NAME NAMED WORDS..: the words are those of a first run of what is built. A program that is named and is not there ends
# the script.
find_program() {
    name=$1 named=$2
    shift 2
    here=$(cd "$(dirname "$0")/.." && pwd)
    player=${named:-$here/crates/$name/out/$name}
    if [ -f "$player" ] && [ -x "$player" ]; then
        return
    fi
    need_named "$named"
    echo "$name is proved and built first" >&2
    (cd "$here/crates/$name" && rt run -- "$@") >&2
}

# Ends the script where a file is named that is not there.
need_named() {
    if [ -n "$1" ]; then
        echo "there is no $1" >&2
        exit 1
    fi
}

# Ends the script where one of these programs is missing.
need() {
    for tool in "$@"; do
        if ! command -v "$tool" >/dev/null; then
            echo "$tool is missing: nothing was measured"
            exit 0
        fi
    done
}

# The instructions of a run of the player with these words; what it prints goes to the file that is named first.
instructions() {
    out=$1
    shift
    valgrind --tool=callgrind --callgrind-out-file=/dev/null "$player" "$@" 2>&1 >"$out" | awk '/Collected/ { print $NF }'
}

# Proves and builds a program of a script's own, prove_program FOLDER NAME CRATE.., of these crates: FOLDER/crates/NAME/out/NAME. Its source lies
# in FOLDER/crates/NAME, and the crates are copied beside it, without their edits. `rt ci` takes of them what earlier runs on this
# machine proved, and proves the rest, with its tests. Without words the program has to end with status 1.
prove_program() {
    python3 - "$here" "$@" <<'COPY'
import shutil
import sys

here, folder, name, *uses = sys.argv[1:]
with open(f"{here}/crates.txt", encoding="utf-8") as file:
    lines = {line.split()[0].rstrip(":"): line for line in file if ":" in line and not line.startswith("#")}
below, found = list(uses), []
while below:
    crate = below.pop()
    if crate in lines and crate not in found:
        found.append(crate)
        below += lines[crate].split(":")[1].split()
for crate in found:
    shutil.copytree(f"{here}/crates/{crate}", f"{folder}/crates/{crate}", ignore=shutil.ignore_patterns("out", "must-fail"))
with open(f"{folder}/crates.txt", "w", encoding="utf-8") as file:
    file.writelines([*(lines[crate] for crate in found), f"{name}: {' '.join(uses)}\n"])
shutil.copy(f"{here}/HANDLES", folder)
with open(f"{folder}/crates/{name}/status", "w", encoding="utf-8") as file:
    file.write("1\n")
COPY
    (cd "$1" && rt ci) >&2
}
