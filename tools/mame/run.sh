#!/bin/sh
# usage: run.sh [--long] [--part NAME] [--seeds S ..] [--count N] [--listing FILE [WORD ..]]
# Holds the program against the emulated controller of MAME (tools/README.md).
# Status 0 without a difference, 1 with one, 2 where something fails, 3 without MAME.
here=$(cd "$(dirname "$0")" && pwd)
command -v mame >/dev/null || [ -x /usr/games/mame ] || {
    echo "run.sh: MAME is not installed (Debian: apt-get install --no-install-recommends mame); nothing was compared" >&2
    exit 3
}
command -v python3 >/dev/null || { echo "run.sh: python3 is not on the PATH" >&2; exit 2; }
program=${MORTARBEE:-$(cd "$here/../.." && pwd)/mortarbee}
"$program" judge </dev/null >/dev/null || { echo "run.sh: $program does not run" >&2; exit 2; }
exec python3 "$here/run.py" "$@"
