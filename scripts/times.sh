#!/usr/bin/env bash
# times.sh TARGET: duration of `make TARGET` in README.md's table; nothing if it has none.
set -euo pipefail
sed -n "s/^| \`make $1\` |.*| \([^|]*\) |\$/\1/p" "$(dirname "$0")/../README.md"
