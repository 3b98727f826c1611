# Part of the scripts that need the Rattle kit or run x86-64 programs. $target is the repository's folder target.

# The kit's folder: RATTLE_HOME, where rt stands, as it was remembered, or where rt has its guide. What is found is remembered.
find_kit() {
    kit=${RATTLE_HOME-}
    [ -n "$kit" ] || kit=$(dirname -- "$(dirname -- "$(readlink -f -- "$(command -v rt || echo /none)")")")
    [ -f "$kit/KIT-ID" ] || kit=$(cat "$target/kit" 2>/dev/null || echo /none)
    [ -f "$kit/KIT-ID" ] || kit=$(dirname -- "$(rt doc 2>/dev/null || echo /none/none)")
    [ -f "$kit/KIT-ID" ] || return 1
    [ ! -d "$target" ] || [ "$kit" = "$(cat "$target/kit" 2>/dev/null)" ] || { printf '%s\n' "$kit" >"$target/kit"; } 2>/dev/null || :
}

# What runs x86-64 programs on another processor: the kit's emulator, or one on the PATH; and the kit's C library. Nothing on x86-64.
find_emulator() {
    emulator='' loader=''
    [ "$(uname -m)" != x86_64 ] || return 0
    if find_kit; then emulator=$kit/on/$(uname -m)/toolchain/bin/qemu-x86_64 loader=$kit/toolchain/lib; fi
    [ -x "$emulator" ] || emulator=$(command -v qemu-x86_64)
}

# start PROGRAM WORDS..: becomes the program.
start() {
    if [ -z "$emulator" ]; then exec "$@"; fi
    if [ -z "$loader" ]; then exec "$emulator" "$@"; fi
    exec "$emulator" "$loader/ld-linux-x86-64.so.2" --library-path "$loader" "$@"
}
