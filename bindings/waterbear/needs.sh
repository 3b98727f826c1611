#!/bin/sh
# usage: needs.sh [--registry]
# Says what is missing for a build of waterbear from its published sources, and how to get it; status 3 if something is. With --registry:
# where Debian keeps its crates (DEBIAN_CRATES, if it is set).
set -eu
here=$(cd "$(dirname "$0")" && pwd)
registry=${DEBIAN_CRATES:-/usr/share/cargo/registry}
[ "${1:-}" != --registry ] || { echo "$registry"; exit 0; }
crates="regex aho-corasick thread-local lazy-static serde serde-json unicode-segmentation uuid sha2 data-encoding image clap clap-derive
    atty termcolor chrono"
status=0
for program in rustc cargo python3; do
    command -v "$program" >/dev/null || { echo "needs.sh: no $program" >&2; status=3; }
done
if command -v rustc >/dev/null && ! "$here/../../tools/newer.sh" rustc 1.88; then
    echo "needs.sh: rustc 1.88 or newer is needed, and here is $(rustc --version)" >&2
    status=3
fi
missing=
for crate in $crates; do
    found=
    for folder in "$registry/$crate"-[0-9]* "$registry/$(echo "$crate" | tr - _)"-[0-9]*; do
        [ ! -d "$folder" ] || found=yes
    done
    [ -n "$found" ] || missing="$missing librust-$crate-dev"
done
if [ -n "$missing" ]; then
    echo "needs.sh: Debian's crates are missing in $registry: apt-get install --no-install-recommends$missing" >&2
    status=3
fi
exit $status
