#!/usr/bin/env bash
# Times the simplex on generated programs of several sizes, at 64 and 128 bits, with whole numbers and with factors up
# to 8 over 8. Beside the proved program runs the same rule written in Rust, which counts the updates and lists the
# numbers of some of them; one `a - b * c` on those numbers is the yardstick, and at 64 bits beside it stands the time of
# the same rule in plain Rust in words of 64 bits, whose answers have to be the same. Each time is the least of some runs, 5 where no argument says
# otherwise, and of user time alone.
set -euo pipefail
runs="${1:-5}"
top="$(cd "$(dirname "$0")/.." && pwd)"
folder="$(mktemp -d)"
trap 'rm -rf "$folder"' EXIT
proved="$top/crates/npp_bench/out/npp_bench"
rust="$folder/rust"

(cd "$top/crates/npp_bench" && rt run) > "$folder/log" 2>&1 || { cat "$folder/log" >&2; exit 1; }
rustc -O -o "$rust" "$top/bench/simplex.rs"
words="$folder/words"
rustc -O -o "$words" "$top/bench/words.rs"

# The least seconds of the runs of each of some programs on a file of the folder. They take turns.
least() {
  local file="$1" run program TIMEFORMAT="%U"
  shift
  rm -f "$folder"/times.*
  for ((run = 0; run < runs; run++)); do
    for program in "$@"; do
      { time "$program" < "$folder/$file" > "$folder/answers" 2> "$folder/errors"; } 2>> "$folder/times.$(basename "$program")"
    done
  done
  for program in "$@"; do sort -g "$folder/times.$(basename "$program")" | head -n 1; done | xargs
}

# Writes the triples of about 200 of so many rows, to be taken as often as it says or not at all.
list_triples() {
  "$rust" "$(($1 / 200 + 1))" 0 < "$folder/line" > "$folder/unread"
  count="$((($(wc -w < "$folder/unread") - 3) / 6))"
  repeat="$((20000000 / count + 1))"
  sed -E "s/^(triples [0-9]+) 0/\1 $repeat/" "$folder/unread" > "$folder/triples"
}

# Compares the two programs on one line of input. A short run is made several times, so that a time is not too small.
compare() {
  echo "simplex $*" > "$folder/line"
  "$rust" < "$folder/line" > "$folder/expected" 2> "$folder/counts"
  read -r updates _ rows _ < "$folder/counts"
  list_triples "$rows"
  copies="$((3000000 / updates + 1))"
  for ((copy = 0; copy < copies; copy++)); do cat "$folder/line"; done > "$folder/lines"
  agree=agree
  "$proved" < "$folder/line" | cmp -s - "$folder/expected" || agree=DIFFER
  measured=("$proved")
  if [ "$1" = 64 ]; then
    measured+=("$words")
    "$words" < "$folder/triples" | cmp -s - <("$proved" < "$folder/triples") || agree=DIFFER
  fi
  awk -v line="$*" -v agree="$agree" -v updates="$((copies * updates))" -v triples="$((repeat * count))" \
    -v runs="$(least lines "$proved" "$rust")" -v taken="$(least triples "${measured[@]}")" \
    -v unread="$(least unread "${measured[@]}")" 'BEGIN {
      split(runs, run); split(taken, with); split(unread, without)
      update = run[1] / updates * 1e9
      unit = (with[1] - without[1]) / triples * 1e9
      printf "%s: pivots %s, %.1f ns an update, %.1f ns an a - b * c, ratio %.2f; Rust %.1f ns an update",
        line, agree, update, unit, update / unit, run[2] / updates * 1e9
      if (2 in with) {
        in_words = (with[2] - without[2]) / triples * 1e9
        printf "; in words %.1f ns an a - b * c, ratio to it %.2f", in_words, unit / in_words
      }
      printf "\n"
    }'
}

echo "width rows columns most:"
for width in 64 128; do
  for most in 1 8; do
    for size in "100 60" "200 120" "300 200" "600 400"; do
      compare $width $size $most
    done
  done
done
