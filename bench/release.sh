#!/bin/sh
# Makes the archive that a user downloads, of exactly the commit that is checked out, after a whole gate of it.
# usage: bench/release.sh [FOLDER [CLONE]]
# FOLDER gets meerkatalloy-VERSION-linux-x86_64.tar.xz and its SHA-256 sum; where it is not named it is the present one.
# The gate runs in a clean clone of the commit, which is made in a room of its own. Where CLONE is named it is made there
# and stays, with the archive of the C library in it, so that a second run of this script can begin with what it has.
# VERSION is the version of meerkat.h and how many commits there are. Twice from one commit gives the same bytes.
# The programs and the library are built for x86-64-v2. The script refuses where the tree is not clean, where a check of
# the gate fails, and where what was packed does not do what the repository's outputs say.
set -eu
root=$(cd "$(dirname "$0")/.." && pwd)
to=$(mkdir -p "${1:-.}" && cd "${1:-.}" && pwd)
room=$(mktemp -d)
trap 'rm -rf "$room"' EXIT
clone=${2:-$room/clone}

refuse() {
    echo "release: $*" >&2
    exit 1
}

for tool in git cc ld objcopy ar nm tar xz sha256sum python3; do
    command -v "$tool" >/dev/null || refuse "$tool is missing"
done
[ -z "$(git -C "$root" status --porcelain)" ] || refuse "the tree is not clean: commit first"
commit=$(git -C "$root" rev-parse HEAD)
date=$(git -C "$root" log -1 --format=%ct)
count=$(git -C "$root" rev-list --count HEAD)
header=$(sed -n 's/^#define MEERKAT_VERSION \([0-9]*\)u$/\1/p' "$root/crates/ra_c/include/meerkat.h")
name=meerkatalloy-$header.$count-linux-x86_64

# the gate, in a clean clone of the commit
if [ ! -d "$clone" ]; then
    git clone -q --no-hardlinks "$root" "$clone"
fi
[ "$(git -C "$clone" rev-parse HEAD)" = "$commit" ] || refuse "$clone is of another commit"
[ -z "$(git -C "$clone" status --porcelain)" ] || refuse "$clone is not clean"
(cd "$clone" && bash .ci/run </dev/null) >"$room/log" 2>&1 || {
    tail -n 20 "$room/log" >&2
    refuse "the gate failed"
}
gate=$(tail -n 1 "$room/log")
case $gate in
*" passed, 0 failed"*) ;;
*) refuse "the gate ended with: $gate" ;;
esac
for program in ra_player ra_author; do
    [ -x "$clone/crates/$program/out/$program" ] || refuse "the gate left no $program"
done
cp "$clone/crates/ra_player/out/ra_player" "$clone/crates/ra_author/out/ra_author" "$room/"
archive=$clone/crates/ra_c/out/libra_c.a
if [ ! -f "$archive" ]; then
    (cd "$clone/crates/ra_c" && rt lib) >"$room/log" 2>&1 || refuse "the C library was not built: $(tail -n 5 "$room/log")"
fi

# what is packed
top=$room/$name
mkdir -p "$top/bin" "$top/share/doc/meerkatalloy/docs" "$top/share/meerkatalloy"
install -m 755 "$room/ra_player" "$room/ra_author" "$top/bin/"
"$root/crates/ra_c/install.sh" "$top" "$archive"
"$root/bench/words.py" install "$top"
"$root/bench/words.py" check "$room/ra_player" "$room/ra_author"
# (all documents, in their folders, so that their links lead somewhere)
install -m 644 "$root/README.md" "$top/share/doc/meerkatalloy/"
install -m 644 "$root/docs/"*.md "$top/share/doc/meerkatalloy/docs/"
git -C "$root" archive --format=tar "$commit" examples | tar -x -C "$top/share/meerkatalloy"
{
    echo "commit $commit"
    echo "kit $(rt version)"
    echo "gate $gate"
    echo "handles $(cat "$root/HANDLES")"
    echo "processor x86-64-v2"
    for program in ra_player ra_author; do
        echo
        echo "undefined symbols of $program, by nm -D:"
        nm -D --undefined-only "$top/bin/$program" | awk '{ print $NF }' | LC_ALL=C sort
    done
} >"$top/EVIDENCE"
(cd "$top" && find . -type f ! -name SHA256SUMS | sed 's|^\./||' | LC_ALL=C sort | xargs -d '\n' sha256sum >"$room/sums" && mv "$room/sums" SHA256SUMS)
find "$top" -type d -exec chmod 755 {} +
find "$top" -type f -perm -100 -exec chmod 755 {} +
find "$top" -type f ! -perm -100 -exec chmod 644 {} +
tar -C "$room" --sort=name --mtime="@$date" --owner=0 --group=0 --numeric-owner --format=gnu -cf "$room/$name.tar" "$name"
xz -9e --threads=1 "$room/$name.tar"

# what was packed is tried where there is no kit and no repository, and compared with the repository's outputs
"$root/bench/unpacked.sh" "$room/$name.tar.xz" "$root"
mv "$room/$name.tar.xz" "$to/"
(cd "$to" && sha256sum "$name.tar.xz" >"$name.tar.xz.sha256")
echo "$to/$name.tar.xz"
cat "$to/$name.tar.xz.sha256"
