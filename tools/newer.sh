#!/bin/sh
# usage: newer.sh PROGRAM VERSION
# Whether a program says, with --version, this version or a newer one.
[ $# = 2 ] || { echo "usage: newer.sh PROGRAM VERSION" >&2; exit 2; }
"$1" --version 2>/dev/null | awk -v wanted="$2" '
    NR == 1 {
        split($2, here, "."); split(wanted, there, ".")
        for (i = 1; i <= 3; i++) if (here[i] + 0 != there[i] + 0) { newer = here[i] + 0 > there[i] + 0; exit }
        newer = 1
    }
    END { exit !newer }'
