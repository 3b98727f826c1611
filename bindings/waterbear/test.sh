#!/bin/sh
# usage: test.sh [--long] [SOURCES [ARCHIVE]]
# The tables against docs/FORMAT.md, the crate's own tests, and the drop-in against waterbear: programs by hand and 300 random ones at each
# level; with --long wrong copies of it too. The last needs SOURCES (or WATERBEAR_SOURCES), the folder with waterbear's published files, and
# Debian's crates. ARCHIVE is the folder of libborder.a (target/staticlib). What is not run is named. The last line is `N passed, M failed`.
set -eu
here=$(cd "$(dirname "$0")" && pwd); target=$(cd "$here/../.." && pwd)/target
long=
[ "${1:-}" != --long ] || { long=yes; shift; }
sources=${1:-${WATERBEAR_SOURCES:-}}; archive=${2:-$target/staticlib}; out=$target/waterbear
passed=0; failed=0; mkdir -p "$out"

count() { # what, its status
    if [ "$2" = 0 ]; then passed=$((passed + 1)); else failed=$((failed + 1)); echo "failed: $1"; fi
}
leave_out() { echo "left out: $1"; }
sum() { # a log whose last line is `N passed, M failed`; a run that did not come to it is one failure
    line=$(tail -n 1 "$1"); cat "$1"
    case $line in
    *" passed, "*" failed") passed=$((passed + ${line%% *})); line=${line#*, }; failed=$((failed + ${line%% *})) ;;
    *) failed=$((failed + 1)) ;;
    esac
}
crate() {
    [ -f "$archive/libborder.a" ] || { leave_out "the crate's own tests: no $archive/libborder.a (bindings/archive.sh border)"; return 0; }
    command -v cargo >/dev/null && [ "$(uname -m)" = x86_64 ] || { leave_out "the crate's own tests: no cargo for x86-64 here"; return 0; }
    status=0
    (cd "$here" && MORTARBEE_ARCHIVE="$archive" CARGO_TARGET_DIR="$out/crate" cargo test --offline --quiet) || status=$?
    count "the crate's own tests" "$status"
}
against_waterbear() {
    [ -f "$archive/libborder.a" ] || { leave_out "the drop-in against waterbear: no $archive/libborder.a"; return 0; }
    [ -n "$sources" ] || { leave_out "the drop-in against waterbear: no SOURCES, the folder with its published files"; return 0; }
    "$here/needs.sh" || { leave_out "the drop-in against waterbear: what is missing is said above"; return 0; }
    OPT=${OPT:-1} "$here/build.sh" "$sources" "$archive" "$out"
    python3 "$here/tests/compare.py" "$out/bin" --programs "$here/tests/programs" --count 300 --seed 1 > "$out/compare.log" 2>&1 || true
    sum "$out/compare.log"
    python3 "$here/tests/example.py" "$out/bin" > "$out/example.log" 2>&1 || true
    sum "$out/example.log"
    [ -n "$long" ] || { leave_out "wrong copies of the drop-in (--long)"; return 0; }
    python3 "$here/tests/mutants.py" "$out" "$archive" > "$out/mutants.log" 2>&1 || true
    sum "$out/mutants.log"
}

status=0
python3 "$here/tables.py" compare || status=$?
count "tables of docs/FORMAT.md" "$status"
crate
against_waterbear
echo "$passed passed, $failed failed"
[ $failed = 0 ]
