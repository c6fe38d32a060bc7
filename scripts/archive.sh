#!/usr/bin/env bash
# archive.sh NAME: proves a static library with the crates below it and writes target/staticlib/libNAME.a, for any x86-64 processor; names
# each crate once it is proved. rt's output is in target/log/staticlib-NAME.log, and is shown if rt fails.
set -euo pipefail
cd "$(dirname "$0")/.."
name=$1

mkdir -p target/log target/staticlib
log=target/log/staticlib-$name.log
echo "zolbine: proving $name and the $(scripts/below.sh "$name" | wc -l) crates below it, where they changed. $(scripts/times.sh "$name")" >&2
status=0
(cd "crates/$name" && rt lib --cpu=x86-64) 2>&1 | tee "$log" | {
    crate=
    while IFS= read -r line; do
        case $line in
        "crate "*": modules loaded"*) crate=${line#crate } crate=${crate%%:*} ;;
        "logic=proved "*) echo "  $crate proved ($SECONDS s from the start)" >&2 ;;
        esac
    done
} || status=$?
if [ "$status" -ne 0 ]; then
    grep -v ': proved$\|: warning: \|^note: \|^statements \|^library \|^crate \|^logic \|^logic=proved \|^rt: chose ' "$log" >&2 || true
    echo "zolbine: rt lib of $name failed ($status); all that it said stands in $log" >&2
    exit "$status"
fi
cp "crates/$name/out/lib$name.a" "target/staticlib/lib$name.a"
