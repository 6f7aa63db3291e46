#!/usr/bin/env bash
# Times `npp solve` on the examples, on numbers of `gen`, and on networks of `networks.py`; and then branch and bound through the
# library, with budgets of up to 100,000 nodes. It prints two tables. Each time is the least user time of some runs, 3 where no
# argument says otherwise, and in the second table of one run; for each opened node the time without opened nodes is taken off.
set -euo pipefail
runs="${1:-3}"
top="$(cd "$(dirname "$0")/.." && pwd)"
folder="$(mktemp -d)"
trap 'rm -rf "$folder"' EXIT
npp="$top/crates/npp/out/npp"
search="$top/crates/npp_bench_search/out/npp_bench_search"

(cd "$top/crates/npp_bench_search" && rt run) > "$folder/log" 2>&1 || { cat "$folder/log" >&2; exit 1; }
"$top/npp" gen 1 > "$folder/first"

# The least user time of some runs of a program on an input; what it writes last stays in the file `answer`.
least() { # INPUT PROGRAM WORDS..
  local input="$1" run TIMEFORMAT="%U"
  shift
  : > "$folder/times"
  for ((run = 0; run < runs; run++)); do
    { time "$@" < "$input" > "$folder/answer" 2> "$folder/errors" || true; } 2>> "$folder/times"
  done
  sort -g "$folder/times" | head -n 1
}

# The line of an instance: how many useful paths it has, how `solve` ends, both values, how many nodes are opened, and its time.
solve() { # NAME FILE
  local seconds paths
  paths="$("$npp" paths "$2" | grep -c '^useful' || true)"
  seconds="$(least /dev/null "$npp" solve "$2")"
  awk -v name="$1" -v paths="$paths" -v seconds="$seconds" '
    $1 ~ /^(status|lower|upper|opened)$/ { is[$1] = $2 }
    END { printf "| %s | %s | %s | %s | %s | %s | %.3f |\n", name, paths, is["status"], is["lower"], is["upper"], is["opened"], seconds }
  ' "$folder/answer"
}

# The line of a search with some budgets: the time for each opened node beside that of a search that opens none.
nodes() { # NAME FILE WIDTH PICKER BUDGET..
  local name="$1" file="$2" width="$3" picker="$4" budget none some
  shift 4
  for budget in 0 "$@"; do
    { echo "$budget $width $picker"; cat "$file"; } > "$folder/input.$budget"
  done
  none="$(least "$folder/input.0" "$search")"
  for budget in "$@"; do
    some="$(least "$folder/input.$budget" "$search")"
    awk -v name="$name, $width bits, $picker" -v none="$none" -v some="$some" '{
      printf "| %s | %s | %s | %s | %s | %.2f | %.1f |\n", name, $1, $4, $6, $3, some, ($4 > 0 ? (some - none) / $4 * 1e6 : 0)
    }' "$folder/answer"
  done
}

network() { # FAMILY NUMBERS..
  python3 "$top/bench/networks.py" "$@" > "$folder/net"
}

echo "| Instance | useful paths | status | lower | upper | opened | seconds |"
echo "|---|---|---|---|---|---|---|"
for file in "$top"/examples/*.npp; do solve "\`$(basename "$file")\`" "$file"; done
for number in 1 7 123 4567 99999; do
  "$npp" gen "$number" > "$folder/net"
  solve "\`gen $number\`" "$folder/net"
done
for count in 4 8 16 32; do network star "$count" 1 50; solve "star of $count, one toll" "$folder/net"; done
for count in 4 6 8; do network star "$count" 2 50; solve "star of $count, 2 tolls" "$folder/net"; done
for count in 4 6 8; do network chain "$count" 4 20; solve "chain of 4, $count commodities" "$folder/net"; done
for side in 5 7; do network grid "$side" "$((side + 3))" "$side"; solve "grid of $side by $side" "$folder/net"; done
network random 30 120 8 8; solve "random, 30 nodes" "$folder/net"
network random 100 500 20 15; solve "random, 100 nodes" "$folder/net"
echo
echo "| Search | ends with | opened | nodes | upper | seconds | microseconds an opened node |"
echo "|---|---|---|---|---|---|---|"
runs=1
network star 17 1 1000000
for picker in best depth; do nodes "star of 17, large numbers" "$folder/net" 32 "$picker" 1000 10000 30000 100000; done
