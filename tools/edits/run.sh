#!/usr/bin/env bash
# tools/edits/run.sh [CRATE..]: lays the edits of tools/edits/CRATE into a copy of the repository and calls `rt must-fail` there, which has
# to see each refused. Without names: all of them. It begins with what `rt check` kept here, so that only what changed is proved again.
set -eu
top=$(cd "$(dirname "$0")/../.." && pwd -P)
cd "$top/tools/edits"
if [ $# -eq 0 ]; then
    for folder in */; do set -- "$@" "${folder%/}"; done
fi
for crate in "$@"; do
    [ -d "$crate" ] || { echo "tools/edits has no folder $crate" >&2; exit 2; }
done
copy=$(mktemp -d)
trap 'rm -rf "$copy"' EXIT
trap 'exit 1' HUP INT TERM
tar -C "$top" -cf - --exclude='crates/*/out' crates crates.txt | tar -C "$copy" -xf -
# the gate has tried its own
rm -rf "$copy"/crates/*/must-fail
for crate in "$@"; do
    cp -R "$crate" "$copy/crates/$crate/must-fail"
done
cd "$copy"
rt must-fail "$@"
