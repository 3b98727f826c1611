#!/bin/sh
# usage: build.sh
# Links the C programs of this folder with target/staticlib/libborder.a (bindings/archive.sh border) into target/bindings. Status 3: no compiler.
# On another processor than x86-64 it takes x86_64-linux-gnu-gcc, or clang with the linker and the C library of the Rattle kit.
set -eu
here=$(cd "$(dirname "$0")" && pwd)
target=$(cd "$here/.." && pwd)/target
archive=$target/staticlib/libborder.a
[ -f "$archive" ] || { echo "build.sh: no $archive: run 'bindings/archive.sh border' first" >&2; exit 2; }
flags="-std=c11 -D_GNU_SOURCE -O2 -Wall -Wextra"
cc=${CC:-cc}
[ "$(uname -m)" = x86_64 ] || cc=x86_64-linux-gnu-gcc
. "$here/kit.sh"
find_kit || kit=/none
linker=$kit/on/$(uname -m)/toolchain/bin/ld.lld

# The headers are those of this machine: what the programs take from them is the same for each processor.
with_kit() {
    clang --target=x86_64-linux-gnu $flags -nostdinc -isystem "$(clang -print-resource-dir)/include" -isystem /usr/include \
        -isystem "/usr/include/$(uname -m)-linux-gnu" -c -o "$2.o" "$1"
    lib=$kit/toolchain/lib
    "$linker" -pie -dynamic-linker /lib64/ld-linux-x86-64.so.2 -o "$2" "$lib/Scrt1.o" "$lib/crti.o" "$lib/crtbeginS.o" "$2.o" "$archive" \
        "$lib/libc.so.6" "$lib/ld-linux-x86-64.so.2" "$lib/libc_nonshared.a" "$lib/libgcc.a" "$lib/crtendS.o" "$lib/crtn.o"
}

mkdir -p "$target/bindings"
for program in c/batch c/where c/lines fuzz/fuzz; do
    out=$target/bindings/${program#*/}
    if command -v "$cc" >/dev/null; then
        "$cc" $flags -o "$out" "$here/$program.c" "$archive"
    elif command -v clang >/dev/null && [ -x "$linker" ]; then
        with_kit "$here/$program.c" "$out"
    else
        echo "build.sh: no compiler for x86-64: neither $cc (C11; Debian: gcc-x86-64-linux-gnu) nor clang with the kit's linker" >&2
        exit 3
    fi
done
