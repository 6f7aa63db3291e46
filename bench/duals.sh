#!/usr/bin/env bash
# Times the check of a dual answer on a program of 1,000 rows and 1,000 columns without a coefficient of 0, at 64 bits:
# with no multiplier above 0, which makes the program and checks nothing, then with 200 and with 1,000 of them.
set -euo pipefail
top="$(cd "$(dirname "$0")/.." && pwd)"
folder="$(mktemp -d)"
trap 'rm -rf "$folder"' EXIT

(cd "$top/crates/npp_bench" && rt run) > "$folder/log" 2>&1 || { cat "$folder/log" >&2; exit 1; }
for nonzero in 0 200 1000; do
  bash -c 'TIMEFORMAT="  %U s"; time "$1" <<< "$2"' -- "$top/crates/npp_bench/out/npp_bench" "dual 1000 1000 $nonzero"
done
