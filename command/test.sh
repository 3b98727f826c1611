#!/bin/sh
# usage: test.sh [ARCHIVES]
# Builds bindings/rust and the command over the archives of a folder (target/staticlib) and runs their tests; the last line is `N passed,
# M failed`. A test that is left out is told by name, and is none that passed: on another processor than x86-64, for which the archives
# are, all are. Needs cargo, rustc and a linker.
set -u
here=$(cd "$(dirname -- "$0")" && pwd)
top=$(cd "$here/.." && pwd)
MORTARBEE_ARCHIVE=${1:-$top/target/staticlib}
case $MORTARBEE_ARCHIVE in /*) ;; *) MORTARBEE_ARCHIVE=$PWD/$MORTARBEE_ARCHIVE ;; esac
MORTARBEE_LEFT_OUT=$(mktemp) || exit 2
export MORTARBEE_ARCHIVE MORTARBEE_LEFT_OUT
trap 'rm -f "$MORTARBEE_LEFT_OUT"' EXIT
passed=0 failed=0

# What cargo's tests say is shown, but for those that are as they should be; their results are added.
count() {
    while read -r line; do
        case $line in
            'test result: '*)
                set -- $line
                passed=$((passed + $4)) failed=$((failed + $6))
                ;;
            'test '*' ... ok' | '' | 'running '* | Running* | Compiling* | Finished* | Doc-tests*) ;;
            *) printf '%s\n' "$line" ;;
        esac
    done <"$1"
}

# try NAME FOLDER WORDS..: the tests of a package. One that cannot be built is a failed one.
try() {
    name=$1 folder=$2
    shift 2
    log=$(mktemp)
    echo "test.sh: $name"
    before=$((passed + failed))
    (cd "$folder" && exec cargo test --offline --no-fail-fast "$@") >"$log" 2>&1
    status=$?
    count "$log"
    rm -f "$log"
    if [ "$status" != 0 ] && { [ "$failed" = 0 ] || [ "$before" = $((passed + failed)) ]; }; then failed=$((failed + 1)); fi
}

if [ "$(uname -m)" != x86_64 ]; then
    echo "test.sh: the archives are for x86-64, and this is $(uname -m); left out:"
    for file in "$top"/bindings/rust/tests/*.rs "$here"/tests/*.rs "$here"/tests/data/*.txt; do echo "  ${file#"$top/"}"; done
elif [ ! -f "$MORTARBEE_ARCHIVE/libborder.a" ]; then
    echo "test.sh: no $MORTARBEE_ARCHIVE/libborder.a: run 'bindings/archive.sh border' first" >&2
    exit 2
else
    try "bindings/rust over libborder.a" "$top/bindings/rust"
    try "the command over libborder.a" "$here" --release
    if [ -f "$MORTARBEE_ARCHIVE/libborder_core.a" ]; then
        try "the command over libborder_core.a" "$here" --release --no-default-features --features core --test core
    fi
fi
sort -u "$MORTARBEE_LEFT_OUT"
# Cargo counts a test that leaves itself out as one that passed.
passed=$((passed - $(wc -l <"$MORTARBEE_LEFT_OUT")))
echo "$passed passed, $failed failed"
[ "$failed" = 0 ]
