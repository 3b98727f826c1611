#!/bin/sh
# usage: archive.sh border|border_core
# Proves and writes an archive for C and Rust into target/staticlib: libborder.a has every entry, libborder_core.a those of the main job. `rt lib`
# proves the crates below first, and only what changed since it, or rt check, was last run.
set -eu
top=$(cd "$(dirname -- "$0")/.." && pwd)
case ${1-} in
    border) crate=border ;;
    border_core) crate=border_core_c ;;
    *) echo "usage: archive.sh border|border_core" >&2; exit 2 ;;
esac
made=$top/target/staticlib/lib$1.a
cd "$top/crates/$crate"
rt lib
mkdir -p "$top/target/staticlib"
cp "out/lib$crate.a" "$made.new"
mv -f "$made.new" "$made"
