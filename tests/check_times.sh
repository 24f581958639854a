#!/usr/bin/env bash
# How long each crate takes to check, alone and from nothing, over the libraries that `rt ci` left, and with the word "gate" how long
# the gate takes after it: the table of docs/PERFORMANCE.md, and the "before" and "after" of a change's note. Run it on a quiet
# machine, in a clean clone, after `rt ci`. (`rt check` itself begins with what checks in other copies on the machine kept.) The gate
# takes what `rt ci` keeps outside the checkout: how much it did anew is said in its line `rt: ok`.
set -euo pipefail
cd "$(dirname "$0")/.."
. tests/kit.sh

took() { awk 'END { printf "%.0f %.0f\n", $1 + $2, $3 }'; } # processor seconds and wall seconds, of what `time` prints
TIMEFORMAT='%U %S %R'

echo "| Crate | check, s of processor |"
echo "|---|---|"
total=0
log=$(mktemp)
trap 'rm -f "$log"' EXIT
while read -r crate; do
  mapfile -t words < <(words "$crate" proved)
  read -r processor _ < <({ time (cd "crates/$crate" && "$kit/bin/rattle" check "${words[@]}" --jobs 1 > "$log" 2>&1); } 2>&1 | took)
  grep -q '^logic=proved' "$log" || { cat "$log" >&2; exit 1; }
  echo "| \`$crate\` | $processor |"
  total=$((total + processor))
done < <(sed -n -E 's/^([a-z0-9_]+)[^:#]*:.*/\1/p' crates.txt)
echo "| all | $total |"

if [ "${1:-}" = gate ]; then
  gate=$(mktemp)
  read -r processor wall < <({ time .ci/run > "$gate" 2>&1; } 2>&1 | took)
  echo
  grep -a '^rt: ok' "$gate" || true
  tail -n 1 "$gate"
  echo "The gate took $((processor / 60)) min $((processor % 60)) s of processor, $((wall / 60)) min $((wall % 60)) s of wall."
fi
