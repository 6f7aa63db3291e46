#!/usr/bin/env bash
# Times the work on the root of a search on instances of several families, at 64 and at 128 bits, and beside it the same pivots in plain
# Rust and, where it is installed, `glpsol --exact` on the same program. Where `perf` is installed, a second table tells what the samples
# of the whole work on the root fall on. `leaf.rs` says what the families are.
#
# The columns of the first table: rows and columns of the relaxation, pivots, updates, bits of the widest number of the run; milliseconds
# of making the program, of the run, and of the whole work on the node; milliseconds of the run in Rust, and the percentages that the choice
# of the leaving rows and the pivots take there; milliseconds and pivots of glpsol. Each time is the least of some runs, 3 where no argument says otherwise,
# and of user time alone; the times of the proved program are those of so many repeats less those of none, divided by how many they are,
# and the time of glpsol is without its reading of the program.
#
# The columns of the second, in percent: the ratio test with its comparisons, the subtraction of a multiple of a row, sums and products of
# fractions that are not whole in all of the run, and what else the run does; the making of the program, the check of the multipliers, the
# memory of all of these, and the rest.
set -euo pipefail
runs="${1:-3}"
top="$(cd "$(dirname "$0")/.." && pwd)"
folder="$(mktemp -d)"
trap 'rm -rf "$folder"' EXIT
proved="$top/crates/npp_bench_nodes/out/npp_bench_nodes"
rust="$folder/leaf"

(cd "$top/crates/npp_bench_nodes" && rt run < stdin) > "$folder/log" 2>&1 || { cat "$folder/log" >&2; exit 1; }
"$top/npp" gen 7 > "$folder/gen"
rustc -O -o "$rust" "$top/bench/leaf.rs"

# The least milliseconds of user time of a program on a file of the folder.
least() { # FILE PROGRAM WORDS..
  local file="$1" run TIMEFORMAT="%U"
  shift
  : > "$folder/times"
  for ((run = 0; run < runs; run++)); do
    { time "$@" < "$folder/$file" > "$folder/answer" 2> "$folder/errors" || true; } 2>> "$folder/times"
  done
  sort -g "$folder/times" | head -n 1 | awk '{ print 1000 * $1 }'
}

# The milliseconds of the proved program where it does a stage so often. The answer is left in a file.
often() { # STAGE WIDTH REPEAT
  { echo "$1 $2 $3"; cat "$folder/net"; } > "$folder/input"
  least input "$proved"
}

# How often a stage is to be done, so that it takes at least a tenth of a second more than none.
repeats() { # STAGE WIDTH MILLISECONDS-OF-NONE
  local repeat=1 runs=1
  while [ "$repeat" -lt 100000 ] && awk -v some="$(often "$1" "$2" "$repeat")" -v none="$3" 'BEGIN { exit !(some - none < 100) }'; do
    repeat=$((4 * repeat))
  done
  echo "$repeat"
}

# The milliseconds of a stage, of which the answer is left in a file.
stage() { # STAGE WIDTH MILLISECONDS-OF-NONE
  local all repeat
  repeat="$(repeats "$@")"
  all="$(often "$1" "$2" "$repeat")"
  awk -v all="$all" -v none="$3" -v repeat="$repeat" 'BEGIN { printf "%.3f", (all - none) / repeat }'
}

# The milliseconds and the pivots of `glpsol --exact`, and `DIFFERS` where its optimum is another; nothing where it is not installed.
exact() { # VALUE
  command -v glpsol > "$folder/where" || { echo "-"; return; }
  local reading all
  reading="$(least lp timeout 60 glpsol --check --lp "$folder/lp")"
  all="$(least lp timeout 60 glpsol --exact --lp "$folder/lp")"
  awk -v value="$1" -v reading="$reading" -v all="$all" '
    /^\*.*objval/ { pivots = $2; at = $5 }
    /OPTIMAL SOLUTION FOUND/ { optimal = 1 }
    END {
      n = split(value, part, "/")
      want = n == 2 ? part[1] / part[2] : value
      differs = optimal && value != "none" && (at - want) ^ 2 > (1e-6 * (1 + want)) ^ 2
      print (optimal ? sprintf("%.0f", all - reading) : "over 60000") ", " pivots + 0 (differs ? " DIFFERS" : "")
    }' "$folder/answer"
}

measure() { # NAME, with the instance in the file `net`
  local name="$1" width none program size run said whole pivots updates bits value all choice pivoting beside
  { echo "text 64 1"; cat "$folder/net"; } > "$folder/text"
  "$proved" < "$folder/text" > "$folder/program"
  "$rust" lp < "$folder/program" > "$folder/lp"
  read -r _ _ _ value _ < <("$rust" solve 128 < "$folder/program")
  beside="$(exact "$value")"
  for width in 64 128; do
    read -r pivots updates bits value _ < <("$rust" solve "$width" watch < "$folder/program")
    none="$(often program "$width" 0)"
    program="$(stage program "$width" "$none")"
    size="$(awk '{ print $1 " by " $3 }' "$folder/answer")"
    run="$(stage run "$width" "$none")"
    said="$(cat "$folder/answer")"
    [ "$value" = none ] || [ "$said" = "$pivots pivots, value $value" ] || name="$1, THE ANSWERS DIFFER"
    whole="$(stage evidence "$width" "$none")"
    [ "$value" = none ] || [ "$(cat "$folder/answer")" = "value $value" ] || name="$1, THE VALUES DIFFER"
    [ "$value" != none ] || pivots="$said"
    read -r _ _ _ _ all choice pivoting < <(for ((i = 0; i < runs; i++)); do "$rust" solve "$width" < "$folder/program"; done | sort -g -k 5 | head -n 1)
    run="$(awk -v run="$run" -v program="$program" 'BEGIN { printf "%.3f", run - program }')"
    echo "| $name | $width | $size | $pivots | $updates | $bits | $program | $run | $whole | $all | $choice | $pivoting | $beside |"
    samples "$name" "$width" "$whole" >> "$folder/samples"
  done
}

# What the samples of the whole work fall on, in percent; nothing where `perf` is not installed.
samples() { # NAME WIDTH MILLISECONDS-OF-THE-WHOLE
  command -v perf > "$folder/where" || return 0
  { echo "evidence $2 $(awk -v whole="$3" 'BEGIN { print int(1000 / (whole + 0.005)) + 1 }')"; cat "$folder/net"; } > "$folder/input"
  perf record -q -e cpu-clock:u -o "$folder/perf" "$proved" < "$folder/input" > "$folder/answer" 2> "$folder/errors"
  perf report -i "$folder/perf" --stdio --no-children -F overhead,symbol 2> "$folder/errors" | awk -v name="$1" -v width="$2" '
    function part(symbol) {
      if (symbol ~ /npp_simplex::ratio|::cmp|is_below/) return "ratio"
      if (symbol ~ /npp_simplex::row::eliminate/) return "update"
      if (symbol ~ /^npp_frac/) return "fractions"
      if (symbol ~ /^npp_simplex/) return "run"
      if (symbol ~ /^npp_rows/) return "program"
      if (symbol ~ /^npp_lp/) return "check"
      if (symbol ~ /alloc|free|mem(move|set|cpy)|grow|mremap/) return "memory"
      return "rest"
    }
    /%/ { sub(/%/, "", $1); sum[part($3)] += $1 }
    END {
      printf "| %s | %s | %.1f | %.1f | %.1f | %.1f | %.1f | %.1f | %.1f | %.1f |\n", name, width, sum["ratio"], sum["update"],
        sum["fractions"], sum["run"], sum["program"], sum["check"], sum["memory"], sum["rest"]
    }'
}

family() { # NAME FAMILY NUMBERS..
  local name="$1"
  shift
  "$rust" write "$@" > "$folder/net"
  measure "$name"
}

echo "| Instance | bits | rows by columns | pivots | updates | widest | program | run | whole | Rust | choice, % | pivots, % | glpsol |"
echo "|---|---|---|---|---|---|---|---|---|---|---|---|---|"
: > "$folder/samples"
cp "$folder/gen" "$folder/net"
measure "gen 7"
family "grid of 5 by 5, 8 tolls, 10 commodities" grid 5 8 10 1
family "grid of 6 by 6, 12 tolls, 20 commodities" grid 6 12 20 2
family "star of 8 leaves, 12 commodities" star 8 12 3
family "road of 10 places, 10 commodities" road 10 10 5
family "road of 16 places, 30 commodities" road 16 30 6
family "random, 30 nodes, 10 tolls, 15 commodities" random 30 60 10 15 7
family "random, 60 nodes, 20 tolls, 100 commodities" random 60 150 20 100 8
echo
echo "| Instance | bits | ratio test | update | fractions | rest of the run | program | check | memory | rest |"
echo "|---|---|---|---|---|---|---|---|---|---|"
cat "$folder/samples"
