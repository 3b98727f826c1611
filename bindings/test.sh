#!/bin/sh
# usage: test.sh [SECONDS]
# Links the C programs over target/staticlib/libborder.a and runs them: `batch` on the stored vectors, `lines`, `where`, and the fuzz program for so many
# seconds (10). The last line is `N passed, M failed`. The tests of bindings/rust are among those of command/test.sh. Where x86-64 programs can be neither
# linked nor run, these are left out by name.
set -u
here=$(cd "$(dirname "$0")" && pwd)
top=$(cd "$here/.." && pwd)
made=$top/target/bindings
seconds=${1:-10}
passed=0 failed=0
scratch=$(mktemp -d) || exit 2
trap 'rm -rf "$scratch"' EXIT

end() {
    echo "$passed passed, $failed failed"
    [ "$failed" -eq 0 ]
    exit
}

leave_out() {
    echo "test.sh: $1; left out: bindings/c batch, lines, where; bindings/fuzz"
    end
}

# try NAME WORDS..: one test.
try() {
    name=$1
    shift
    if "$@"; then passed=$((passed + 1)); else failed=$((failed + 1)) && echo "test.sh: FAILED: $name"; fi
}

# The answers to listings whose answers the Rust gave, comments kept; the stored ones write an image another way.
replays() {
    "$here/run.sh" "$made/batch" <"$top/crates/vectors/stdin" | sed '/^IMAGE /d' >"$scratch/answers" || return 1
    sed '/^IMAGE /d' "$top/crates/vectors/stdout" | cmp - "$scratch/answers"
}

reads_lines() {
    [ "$(printf 'nop\n nop\n' | "$here/run.sh" "$made/lines")" = "$(printf '0143\n15 0')" ]
}

fuzzes() {
    (cd "$made" && exec "$here/run.sh" ./fuzz --seconds "$seconds")
}

"$here/build.sh"
case $? in
    0) passed=1 ;;
    3) leave_out "x86-64 programs cannot be linked here" ;;
    *) failed=1 && end ;;
esac
"$here/run.sh" "$made/batch" --assemble </dev/null >/dev/null || leave_out "x86-64 programs cannot be run here"
try "bindings/c/batch on the vectors" replays
try "bindings/c/lines" reads_lines
try "bindings/c/where" "$here/run.sh" "$made/where" 200
try "bindings/fuzz" fuzzes
end
