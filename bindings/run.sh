#!/bin/sh
# usage: run.sh PROGRAM ARGUMENTS..
# Runs an x86-64 program: by itself on x86-64, elsewhere under the emulator of the Rattle kit that `rt` belongs to, or that was found before.
set -eu
[ $# -ge 1 ] || { echo "usage: run.sh PROGRAM ARGUMENTS.." >&2; exit 2; }
[ "$(uname -m)" != x86_64 ] || exec "$@"
here=$(cd "$(dirname "$0")" && pwd)
target=$here/../target
. "$here/kit.sh"
find_emulator || { echo "run.sh: no emulator for x86-64 programs: put rt or qemu-x86_64 on the PATH, or set RATTLE_HOME" >&2; exit 3; }
start "$@"
