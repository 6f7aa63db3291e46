#!/usr/bin/env bash
# Times the check of certificates that the proved program `npp_bench_check` makes while it checks them, and prints a line of a
# table for each: how many nodes the tree has, the least user time of some runs, 3 where no argument says otherwise, the time of a
# node without that of the lines above the tree, and the peak of memory.
#
# In the first lines no node has an answer: the trees of the second and third have 128 and 1,024 times as many nodes as the first,
# and memory is to stay the same. What the time of a node grows by with the commodities is its basic bound. In the last lines each node has a dual answer, the first of
# 451 to 550 multipliers of a relaxation with up to 2,160 rows and 1,060 columns.
set -euo pipefail
runs="${1:-3}"
top="$(cd "$(dirname "$0")/.." && pwd)"
folder="$(mktemp -d)"
trap 'rm -rf "$folder"' EXIT
program="$top/crates/npp_bench_check/out/npp_bench_check"

(cd "$top/crates/npp_bench_check" && rt run) > "$folder/log" 2>&1 || { cat "$folder/log" >&2; exit 1; }

# The least seconds of some runs on a line.
least() { # LINE
  local run TIMEFORMAT="%3U"
  : > "$folder/times"
  for ((run = 0; run < runs; run++)); do
    { time "$program" <<< "$1" > "$folder/answer"; } 2>> "$folder/times"
  done
  sort -g "$folder/times" | head -n 1
}

# Prints the line of a tree.
measure() { # NAME COMMODITIES TOLLS DEPTH EVIDENCE
  local whole above kilobytes nodes="$(((2 << $4) - 1))"
  above="$(least "$2 $3 0 $5")"
  whole="$(least "$2 $3 $4 $5")"
  grep -q "^accepted" "$folder/answer" || { cat "$folder/answer" >&2; exit 1; }
  kilobytes="$(/usr/bin/time -f %M "$program" 2>&1 <<< "$2 $3 $4 $5" > "$folder/answer" | tail -n 1)"
  awk -v name="$1" -v nodes="$nodes" -v whole="$whole" -v above="$above" -v kilobytes="$kilobytes" \
    'BEGIN { printf "| %s | %d | %.3f | %.2f | %.1f |\n", name, nodes, whole, (whole - above) / nodes * 1e6, kilobytes / 1000 }'
}

echo "| Evidence | nodes | s | µs a node | MB |"
echo "|---|---|---|---|---|"
measure "basic, 20 commodities" 20 1 9 basic
measure "basic, 20 commodities" 20 1 16 basic
measure "basic, 20 commodities" 20 1 19 basic
measure "basic, 60 commodities" 60 1 19 basic
measure "basic, 100 commodities" 100 1 19 basic
measure "dual, 50 commodities with 10 toll roads" 50 10 9 dual
measure "dual, 50 commodities with 5 toll roads" 50 5 9 dual
measure "dual, 100 commodities with 10 toll roads" 100 10 9 dual
