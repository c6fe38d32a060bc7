#!/usr/bin/env bash
# The gate: `rt ci` over every crate, with each must-fail edit refused; then edits of definitions that must break the claims, the static
# libraries and the yard's program against the harness, and the harness against faults planted in its second implementation. The last
# line is rt ci's own. Logs: target/log/gate-*.log.
set -euo pipefail
cd "$(dirname "$0")/.."

echo "zolbine: the gate. First rt ci proves every crate, tries its must-fail edits and runs the programs; then come the edits of" \
    "definitions (mutations/), the archives and the harness. $(scripts/times.sh test)" >&2

mkdir -p target/log
log=target/log/gate-rt-ci.log
rt ci | tee "$log"
verdict=$(tail -n 1 "$log")
ok=$(grep '^rt: ok; ' "$log" || true)
refused=$(sed 's/.*; must-fail edits: \([0-9]*\) refused.*/\1/' <<<"$ok")
edits=$(find crates/*/must-fail -name '*.edit' | wc -l)
if grep -q ', [1-9][0-9]* bad' <<<"$ok" || [ "$refused" != "$edits" ]; then
    grep 'BAD EDIT' "$log" >&2 || true
    echo "zolbine: of $edits must-fail edits not all were refused: $ok" >&2
    exit 1
fi

scripts/statements.sh
scripts/mutations.sh | tee target/log/gate-mutations.log
make --no-print-directory archives
(cd harness && cargo test --quiet --release --offline --workspace --features zolbine,probes,yard)

printf '%s\n' "$verdict"
