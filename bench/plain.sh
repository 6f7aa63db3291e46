#!/usr/bin/env bash
# Times the proved program on the largest instance that the limits allow: 1,000 nodes, 5,000 arcs, 64 of them toll arcs,
# and 100 commodities; then on a file of 4 MiB, nearly all of it comments.
# The instance is a grid of 25 rows and 40 columns with arcs to the right, down and back, drawn by a fixed rule.
set -euo pipefail
top="$(cd "$(dirname "$0")/.." && pwd)"
folder="$(mktemp -d)"
trap 'rm -rf "$folder"' EXIT

awk 'BEGIN {
  print "npp 1"
  for (v = 0; v < 1000; v++) print "node v" v
  state = 12345
  for (k = 0; k < 5000; k++) {
    state = (state * 1103515 + 12345) % 2147483648
    tail = k % 1000
    step = (k < 1000) ? 1 : (k < 2000) ? 40 : (k < 3000) ? 999 : (k < 4000) ? 960 : 1 + state % 998
    head = (tail + step) % 1000
    cost = 1 + state % 1000
    word = (k >= 4000 && k % 15 == 0 && tolls < 64) ? "toll" : "free"
    if (word == "toll") { tolls++; cost = 1 }
    print word, "v" tail, "v" head, cost
  }
  for (k = 0; k < 100; k++) print "pair", "v" (7 * k) % 1000, "v" (7 * k + 500) % 1000, 1 + k
}' > "$folder/largest"

{
  cat "$folder/largest"
  awk 'BEGIN { for (i = 0; i < 65000; i++) print "# a comment of sixty-four bytes, its line feed counted, no more." }'
} > "$folder/longer"
head -c 4194304 "$folder/longer" > "$folder/long"

"$top/npp" solve "$folder/largest" > "$folder/report" || true
head -n 6 "$folder/report"
for file in largest long; do
  echo "solve $file ($(stat -c %s "$folder/$file") bytes):"
  for _ in 1 2 3; do
    bash -c 'TIMEFORMAT="  %R s"; time "$1" solve "$2" > /dev/null' -- "$top/crates/npp/out/npp" "$folder/$file" || true
  done
done
