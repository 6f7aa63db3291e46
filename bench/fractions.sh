#!/usr/bin/env bash
# Times ten million `a - b * c` over exact fractions, at each width and for numerators and denominators of several
# lengths in bits, 0 for whole numbers: the proved program, and where rustc is there the same rule written in Rust, once
# in numbers of 128 bits and below that width once in words of the width. All print a sum of their answers, which have
# to be the same. Each time is the least of some runs that take turns, 3 where no argument says otherwise, and of user
# time alone.
set -euo pipefail
runs="${1:-3}"
top="$(cd "$(dirname "$0")/.." && pwd)"
folder="$(mktemp -d)"
trap 'rm -rf "$folder"' EXIT

(cd "$top/crates/npp_bench" && rt run) > "$folder/log" 2>&1 || { cat "$folder/log" >&2; exit 1; }
ln -s "$top/crates/npp_bench/out/npp_bench" "$folder/proved"
names=(proved)
if command -v rustc > /dev/null; then
  rustc -O -o "$folder/long" "$top/bench/fractions.rs"
  rustc -O -o "$folder/words" "$top/bench/words.rs"
  names+=(long words)
fi

# Times the programs that are named, in turn, on one line of input.
compare() {
  local line="$1" run name TIMEFORMAT="%U" times="" agree="the sums agree"
  shift
  for ((run = 0; run < runs; run++)); do
    for name in "$@"; do
      { time "$folder/$name" <<< "$line" > "$folder/answer.$name"; } 2>> "$folder/times.$name"
    done
  done
  for name in "$@"; do
    times+=" $name $(sort -g "$folder/times.$name" | head -n 1) s,"
    cmp -s "$folder/answer.proved" "$folder/answer.$name" || agree="THE SUMS DIFFER"
    rm "$folder/times.$name"
  done
  echo "$line:$times $agree"
}

echo "width bits count:"
for width in 32 64 128; do
  for bits in 0 8 14 20; do
    if [ "$width" = 128 ]; then
      compare "$width $bits 215" "${names[@]:0:2}"
    else
      compare "$width $bits 215" "${names[@]}"
    fi
  done
done
