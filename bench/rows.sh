#!/usr/bin/env bash
# Times the relaxation over all useful paths of networks at the limits, at 64 bits, and derived rows over it. The network `apart` has 100
# commodities, 128 toll arcs and 2,000 useful paths, of which one in twenty is toll-free; each other path uses one toll arc, and a commodity
# has the choice of 19 of them. In the network `chains`, of as many paths and toll arcs, a path uses six or seven, and the paths of each
# commodity all 128. The network `tenth` has a tenth of the commodities of `apart`, with as many toll arcs.
# Each line has how large the relaxation or the derived row is, and the milliseconds of user time for one: those of so many repeats less
# those of none, divided by how many they are, the least of some runs, 5 where no argument says otherwise.
set -euo pipefail
runs="${1:-5}"
top="$(cd "$(dirname "$0")/.." && pwd)"
folder="$(mktemp -d)"
trap 'rm -rf "$folder"' EXIT

apart() { # COMMODITIES
  awk -v commodities="$1" 'BEGIN {
    print "npp 1"
    for (j = 0; j < 128; j++) print "node s" j "\nnode e" j
    for (k = 0; k < commodities; k++) print "node o" k "\nnode d" k
    for (j = 0; j < 128; j++) print "toll s" j " e" j " 1"
    for (k = 0; k < commodities; k++) {
      print "free o" k " d" k " 1000"
      for (i = 0; i < 19; i++) {
        j = (7 * k + i) % 128
        print "free o" k " s" j " " i
        print "free e" j " d" k " 1"
      }
    }
    for (k = 0; k < commodities; k++) print "pair o" k " d" k " " (1 + k)
  }'
}

apart 100 > "$folder/apart"
apart 10 > "$folder/tenth"

awk 'BEGIN {
  print "npp 1"
  print "node a\nnode b"
  for (j = 0; j < 19; j++) for (i = 1; i < 7; i++) print "node c" j "_" i
  for (k = 0; k < 100; k++) print "node o" k "\nnode d" k
  for (j = 0; j < 19; j++) {
    links = (j < 14) ? 7 : 6
    for (i = 0; i < links; i++) {
      tail = (i == 0) ? "a" : "c" j "_" i
      head = (i == links - 1) ? "b" : "c" j "_" (i + 1)
      print "toll " tail " " head " " (1 + j)
    }
  }
  for (k = 0; k < 100; k++) {
    print "free o" k " d" k " 1000"
    print "free o" k " a " k
    print "free b d" k " 1"
  }
  for (k = 0; k < 100; k++) print "pair o" k " d" k " " (1 + k)
}' > "$folder/chains"

(cd "$top/crates/npp_bench_nodes" && rt run < stdin) > "$folder/log" 2>&1 || { cat "$folder/log" >&2; exit 1; }
cd "$folder"

# The least user time of the proved program, in milliseconds, where it does a stage on a network so often.
least() { # STAGE NETWORK REPEAT
  local run TIMEFORMAT="%U"
  { echo "$1 64 $3"; cat "$2"; } > input
  for ((run = 0; run < runs; run++)); do
    { time "$top/crates/npp_bench_nodes/out/npp_bench_nodes" < input > answer; } 2>&1
  done | sort -g | head -n 1 | awk '{ print 1000 * $1 }'
}

measure() { # STAGE NETWORK REPEAT
  local none all
  none="$(least "$1" "$2" 0)"
  all="$(least "$1" "$2" "$3")"
  echo "$1 of $2: $(cat answer): $(awk -v none="$none" -v all="$all" -v repeat="$3" 'BEGIN { printf "%.4f", (all - none) / repeat }') ms"
}

for network in tenth apart chains; do
  measure program "$network" 20
  measure round "$network" 10000
  measure rounds "$network" 500
done
