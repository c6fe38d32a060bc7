#!/usr/bin/env bash
# below.sh CRATE: the repository's crates below CRATE, by crates.txt, one on a line, each after those that it needs.
set -euo pipefail
cd "$(dirname "$0")/.."

below=
find_below() {
    local name
    for name in $(sed -n "s/^$1\( [^:]*\)\{0,1\}: *//p" crates.txt); do
        case " $below " in *" $name "*) continue ;; esac
        grep -q "^$name[ :]" crates.txt || continue # the toolchain's own
        find_below "$name"
        below="$below $name"
        echo "$name"
    done
}
find_below "$1"
