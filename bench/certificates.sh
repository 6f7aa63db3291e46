#!/usr/bin/env bash
# Times `npp check` and the writing of certificates. It prints three tables. Times are the least user and system time of some
# runs, 3 where no argument says otherwise.
#
# The first has certificates of 1, 10 and 100 MB that `certificates.py` writes: what the check of a file takes, and its peak of
# memory, which is to stay the same. Beside it stands what reading alone takes: `npp_bench_read` reads the same bytes
# by the same pieces into the items of their lines, and drops these. The goal is 100 MB/s of reading. The second has what `solve`
# takes with and without the lines that `--brief` leaves out, and what `cat` takes for the same bytes. In the third `check`
# stands beside `solve` on networks on which 100 nodes or more are opened, 20 checks for one search: the goal is 5 percent.
set -euo pipefail
runs="${1:-3}"
top="$(cd "$(dirname "$0")/.." && pwd)"
folder="$(mktemp -d)"
trap 'rm -rf "$folder"' EXIT
npp="$top/crates/npp/out/npp"
read="$top/crates/npp_bench_read/out/npp_bench_read"

(cd "$top/crates/npp_bench_read" && rt run) > "$folder/log" 2>&1 || { cat "$folder/log" >&2; exit 1; }
"$top/npp" gen 1 > "$folder/first"

# The least seconds of some runs of a program; what it writes last stays in the file `answer`.
least() { # PROGRAM WORDS..
  local run TIMEFORMAT="%U %S"
  : > "$folder/times"
  for ((run = 0; run < runs; run++)); do
    { time "$@" > "$folder/answer" 2> "$folder/errors" || true; } 2>> "$folder/times"
  done
  awk '{ print $1 + $2 }' "$folder/times" | sort -g | head -n 1
}

# The line of a certificate of a family.
reading() { # FAMILY MEGABYTES
  local whole alone kilobytes
  python3 "$top/bench/certificates.py" "$1" "$2" "$folder/net" "$folder/certificate"
  alone="$(least "$read" "$folder/certificate")"
  whole="$(least "$npp" check "$folder/net" "$folder/certificate")"
  grep -q "^accepted" "$folder/answer" || { cat "$folder/answer" >&2; exit 1; }
  kilobytes="$(/usr/bin/time -f %M "$npp" check "$folder/net" "$folder/certificate" 2>&1 > "$folder/answer" | tail -n 1)"
  awk -v name="$1" -v bytes="$(stat -c %s "$folder/certificate")" -v alone="$alone" -v whole="$whole" -v kilobytes="$kilobytes" \
    -v lines="$(wc -l < "$folder/certificate")" 'BEGIN {
    rate = alone > 0 ? sprintf("%.0f", bytes / 1e6 / alone) : ""
    printf "| %s | %.1f | %d | %.3f | %s | %.3f | %.2f | %.1f |\n", name, bytes / 1e6, lines, alone, rate, whole, whole * 1e6 / lines, kilobytes / 1000
  }'
}

# The line of an instance: what `solve` takes for its certificate beyond its report, and a copy of the same bytes.
writing() { # NAME FILE
  local brief whole copy
  brief="$(least "$npp" solve "$2" --brief)"
  whole="$(least "$npp" solve "$2")"
  cp "$folder/answer" "$folder/certificate"
  copy="$(least cat "$folder/certificate")"
  awk -v name="$1" -v brief="$brief" -v whole="$whole" -v copy="$copy" -v bytes="$(stat -c %s "$folder/certificate")" \
    'BEGIN { printf "| %s | %.2f | %.3f | %.3f | %.3f |\n", name, bytes / 1e6, brief, whole, copy }'
}

# Checks the certificate of a network so many times.
check_again() { # TIMES
  local time
  for ((time = 0; time < $1; time++)); do "$npp" check "$folder/net" "$folder/certificate"; done
}

# The line of a network on which 100 nodes or more are opened.
beside() { # NAME
  local opened solved checked
  solved="$(least "$npp" solve "$folder/net")"
  opened="$(awk '$1 == "opened" { print $2; exit }' "$folder/answer")"
  cp "$folder/answer" "$folder/certificate"
  checked="$(least check_again 20)"
  grep -q "^accepted" "$folder/answer" || { cat "$folder/answer" >&2; exit 1; }
  awk -v name="$1" -v opened="$opened" -v bytes="$(stat -c %s "$folder/certificate")" -v solved="$solved" -v checked="$checked" \
    'BEGIN { printf "| %s | %d | %.2f | %.3f | %.4f | %.1f |\n", name, opened, bytes / 1e6, solved, checked / 20, checked / 20 / solved * 100 }'
}

network() { # FAMILY NUMBERS..
  python3 "$top/bench/networks.py" "$@" > "$folder/net"
}

echo "| Family | MB | lines | reading, s | MB/s | check, s | µs a line | peak, MB |"
echo "|---|---|---|---|---|---|---|---|"
for family in marks lists duals; do
  for megabytes in 1 10 100; do reading "$family" "$megabytes"; done
done
echo
echo "| Instance | MB | solve --brief, s | solve, s | cat, s |"
echo "|---|---|---|---|---|"
network star 17 1 1000000
writing "star of 17, large numbers" "$folder/net"
network grid 7 10 7
writing "grid of 7 by 7" "$folder/net"
echo
echo "| Instance | opened | MB | solve, s | check, s | percent |"
echo "|---|---|---|---|---|---|"
network star 16 2 50
beside "star of 16, 2 tolls"
network star 12 3 50
beside "star of 12, 3 tolls"
for count in 17 24; do network star "$count" 1 1000000; beside "star of $count, large numbers"; done
