#!/bin/sh
# usage: build.sh texts|core|all [again]
# Builds the command into target/command/SIZE: with its texts alone, over libborder_core.a, or over libborder.a. An archive that is not
# there, or older than a source of a crate, is proved and built before. One build at a time: who comes later waits, and finds it built.
# `again` builds also what is there. Needs cargo, flock, setsid and awk, and rt where an archive is built.
set -u
here=$(cd "$(dirname -- "$0")" && pwd)
top=$(cd "$here/.." && pwd)
target=$top/target
size=${1-} again=${2-}
case $size in
    texts) archive='' crate='' ;;
    core) archive=border_core crate=border_core_c ;;
    all) archive=border crate=border ;;
    *) echo "usage: build.sh texts|core|all [again]" >&2; exit 2 ;;
esac
made=$target/command/$size/mortarbee
builder=''

say() {
    printf 'mortarbee: %s\n' "$1" >&2
}

stop() {
    say "$1"
    exit 2
}

is_there() {
    [ -x "$made" ] && [ -z "$again" ]
}

# A signal ends what was started, and then this script as it ends others.
end_by() {
    trap - HUP INT TERM
    [ -z "$builder" ] || kill -- "-$builder" 2>/dev/null
    kill -s "$1" $$
}

# ---- the archive

# The crates that the archive's crate stands on: those on its line of crates.txt, those on theirs, and so on, bottom to top.
crates() {
    awk -v crate="$crate" '
        /^[a-z]/ { name = $1; sub(/:$/, "", name); sub(/^[^:]*:/, ""); below[name] = $0; order[++all] = name }
        END {
            reached[1] = crate; count = 1
            for (i = 1; i <= count; i++) {
                n = split(below[reached[i]], names, " ")
                for (j = 1; j <= n; j++) if (!seen[names[j]]++) reached[++count] = names[j]
            }
            for (i = 1; i <= all; i++) if (seen[order[i]]) print order[i]
        }' "$top/crates.txt"
}

# show LOG SHOWN: what rt says, each crate as it is proved, of how many, and for how long; prints how many were shown.
show() {
    awk -v all="$count" -v shown="$2" -v seconds="$(($(date +%s) - began))" '
        /^crate [a-z0-9_]+:/ { name = $2; sub(/:$/, "", name) }
        /^logic=proved/ && name != "" && !seen[name]++ && ++n > shown {
            printf "mortarbee: crate %d of %d: %s (%d s)\n", n, all, name, seconds > "/dev/stderr"
        }
        END { print n + 0 }' "$1"
}

is_newer() {
    [ -f "$target/staticlib/lib$archive.a" ] || return 0
    [ -n "$(find "$top"/crates/*/src -newer "$target/staticlib/lib$archive.a" -type f -print -quit)" ]
}

prove() {
    command -v rt >/dev/null || stop "$1 is not built yet, and the command rt (the Rattle toolchain) is not on the PATH"
    count=$(($(crates | wc -w) + 1)) began=$(date +%s) shown=0
    say "$1 is proved and built: $count crates; this takes some minutes and is done once"
    log=$target/command/$archive.log
    : >"$log" || stop "$log cannot be written"
    (exec setsid "$top/bindings/archive.sh" "$archive" >"$log" 2>&1 </dev/null) &
    builder=$!
    while kill -0 "$builder" 2>/dev/null; do
        sleep 1
        shown=$(show "$log" "$shown")
    done
    wait "$builder" || {
        builder=''
        tail -n 3 "$log" >&2
        stop "the proof failed; $log has what rt said"
    }
    builder=''
    [ -f "$target/staticlib/lib$archive.a" ] || stop "bindings/archive.sh $archive made no archive; $log has what it said"
    say "proved in $(($(date +%s) - began)) s"
}

# ---- the command

link() {
    command -v cargo >/dev/null || stop "the command is not built yet, and cargo (Rust 1.89 or newer) is not on the PATH"
    log=$target/command/cargo-$size.log
    say "the command is compiled (some seconds)"
    # The texts are there sooner without the compiler's best.
    case $size in texts) profile=dev folder=debug ;; *) profile=release folder=release ;; esac
    (cd "$here" && exec cargo build --profile "$profile" --offline --quiet --no-default-features --features "${size#texts}" \
        --target-dir "$target/command/cargo-$size") >"$log" 2>&1 </dev/null || {
        tail -n 20 "$log" >&2
        stop "the command could not be built; $log has what cargo said"
    }
    mkdir -p "$target/command/$size"
    cp "$target/command/cargo-$size/$folder/mortarbee" "$made.new" && mv -f "$made.new" "$made" || stop "$made cannot be written"
}

is_there && exit 0
mkdir -p "$target/command" || stop "$target cannot be written"
trap 'end_by HUP' HUP
trap 'end_by INT' INT
trap 'end_by TERM' TERM
exec 9>"$target/command/lock" || stop "$target/command/lock cannot be written"
flock -n 9 || { say "another build is under way: it is waited for" && flock 9; } || stop "$target/command/lock cannot be locked"
is_there && exit 0
if [ -n "$archive" ]; then
    [ "$(uname -m)" = x86_64 ] ||
        stop "the archive is for x86-64, and this is $(uname -m): bindings/run.sh runs document 01's program (rt run in crates/mortarbee)"
    case $size in core) what='the main job' ;; *) what='what this word needs' ;; esac
    ! is_newer || prove "$what"
    export MORTARBEE_ARCHIVE="$target/staticlib"
fi
link
