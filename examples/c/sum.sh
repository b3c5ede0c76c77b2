#!/bin/sh
# A sum of all that the archive of crates/ra_c is made from.
cd "$(dirname "$0")/../.." || exit 1
find crates.txt crates/*/src crates/*/specs crates/*/proofs -type f | LC_ALL=C sort | xargs sha256sum | sha256sum
