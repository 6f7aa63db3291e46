#!/usr/bin/env bash
# Times the search for useful labels on families of networks whose labels are many, or whose extensions are: the proved search,
# and two in plain Rust beside it, of which one lets each extension of a label wait and one does as the proved one. It prints a
# line of a table for each family. Each time is the least of some runs, 3 where no argument says otherwise, and of user time
# alone; the time of reading the instance is taken off but for `npp paths`, whose peak of memory stands beside it.
#
# `labels.rs` says what the families are. A chain has 2^n paths: past 2,000 paths `npp paths` refuses, after the labels are found.
set -euo pipefail
runs="${1:-3}"
top="$(cd "$(dirname "$0")/.." && pwd)"
folder="$(mktemp -d)"
trap 'rm -rf "$folder"' EXIT
paths="$top/crates/npp/out/npp"
covers="$top/crates/npp_bench_covers/out/npp_bench_covers"
rust="$folder/labels"

(cd "$top/crates/npp_bench_covers" && rt run) > "$folder/log" 2>&1 || { cat "$folder/log" >&2; exit 1; }
"$top/npp" gen 1 > "$folder/first"
rustc -O -o "$rust" "$top/bench/labels.rs"

# The least seconds of some runs of a program on a file; what it writes last stays in the file `answer`.
least() { # FILE PROGRAM WORDS..
  local file="$1" run TIMEFORMAT="%U"
  shift
  : > "$folder/times"
  for ((run = 0; run < runs; run++)); do
    { time "$@" < "$folder/$file" > "$folder/answer" 2> "$folder/errors" || true; } 2>> "$folder/times"
  done
  sort -g "$folder/times" | head -n 1
}

# The input of the proved program: so many searches, each with so many checks.
input() { # SEARCHES CHECKS
  echo "$1 $2"
  cat "$folder/net"
}

# Writes a family's network and prints its line. A search in which all extensions wait is left out where it takes too long.
measure() { # FORM NAME FAMILY NUMBERS..
  local form="$1" name="$2" repeat status=0 unread read searched checked one all="-" kilobytes labels extensions
  shift 2
  "$rust" write "$@" > "$folder/net"
  "$rust" one-waits 1 < "$folder/net" > "$folder/found"
  read -r end labels _ _ _ extensions _ < "$folder/found"
  repeat="$((100000 / labels + 1))"
  unread="$(least net "$rust" one-waits 0)"
  one="$(least net "$rust" one-waits "$repeat")"
  if [ "$form" = both ]; then
    all="$(least net "$rust" all-wait 1)"
    cmp -s <(cut -d ' ' -f 1-5,10- "$folder/answer") <(cut -d ' ' -f 1-5,10- "$folder/found") || end="THE SEARCHES DIFFER"
  fi
  for counts in "0 0" "$repeat 0" "$repeat 1"; do input $counts > "$folder/input.${counts/ /.}"; done
  read="$(least input.0.0 "$covers")"
  searched="$(least "input.$repeat.0" "$covers")"
  checked="$(least "input.$repeat.1" "$covers")"
  [ "$end" != found ] || grep -q "^$labels labels" "$folder/answer" || end="THE LABELS DIFFER"
  whole="$(least net "$paths" paths /dev/stdin)"
  kilobytes="$(/usr/bin/time -f %M -o "$folder/memory" "$paths" paths "$folder/net" > "$folder/answer" || true; tail -n 1 "$folder/memory")"
  awk -v name="$name" -v end="$end" -v labels="$labels" -v extensions="$extensions" -v repeat="$repeat" -v unread="$unread" \
    -v one="$one" -v all="$all" -v read="$read" -v searched="$searched" -v checked="$checked" -v whole="$whole" \
    -v kilobytes="$kilobytes" 'BEGIN {
      useful = (searched - read) / repeat
      reference = (one - unread) / repeat
      ratio = reference > 0 ? useful / reference : 0
      each = all == "-" ? all : sprintf("%.1f", (all - unread) * 1000)
      check = end == "found" ? sprintf("%.2f", (checked - searched) / repeat * 1000) : "-"
      if (end != "found") name = name ", " end
      printf "| %s | %s | %s | %.2f | %.0f | %.0f | %.2f | %.2f | %s | %s | %.0f | %.1f |\n", name, labels, extensions,
        useful * 1000, useful / labels * 1e9, useful / extensions * 1e9, reference * 1000, ratio, each, check, whole * 1000,
        kilobytes / 1000
    }'
}

echo "| Family | labels | extensions | \`useful\` | ns a label | ns an extension | Rust, one waits | ratio | Rust, all wait | check | \`npp paths\` | MB |"
echo "|---|---|---|---|---|---|---|---|---|---|---|---|"
for links in 10 12 14 15 16; do measure both "chain of $links" chain "$links"; done
measure both "8 links, 4,900 last arcs of equal cost" last-arcs 8 1 4900 1 0
measure both "10 links, equal" last-arcs 10 1 4900 1 0
measure both "10 links, rising cost" last-arcs 10 1000 4900 1 1
measure one "14 links, equal" last-arcs 14 1 4900 1 0
measure one "14 links, rising" last-arcs 14 1000 4900 1 1
measure one "14 links, falling" last-arcs 14 1000 4900 4900 -1
measure both "3 layers of 39 parallel tolls" layers 39 1 1
measure both "the same, random costs" layers 39 1000 1
measure both "3 layers of 25, then 1 or 2 tolls" layers-and-two-ways 25
measure both "9 links, 112 forced tolls" forced 9 112
measure both "13 links, 114 tolls in vain" in-vain 13 114
measure both "late fan: 12 links, 900 heads" late-fan 12 900
measure one "late fan: 14 links, 950 heads" late-fan 14 950
measure both "grid of 8 by 8, 60 tolls" grid 8 60 20 13
measure both "random, 1,000 nodes, 5,000 arcs, 128 tolls" random 5000 128 30 1 1 1
measure both "the same kind, 100 commodities" random 5000 128 60 100 900 1
