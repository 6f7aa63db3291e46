#!/usr/bin/env bash
# Tells where the time of the merge gate goes, crate by crate.
#
#   bench/gate.sh LOG [WORDS..]   where LOG is not there: runs `rt ci WORDS..` at the top of the repository (`--anew` proves all
#                                 from nothing) and writes what it says to LOG, each line after the seconds since the start;
#                                 in either case prints the table of LOG
#
# rt tells no times. So while it runs, the processor time of each process below it is read twice a second, and added up by the
# crate and by whether it proves the crate, proves or runs its tests, or tries its edits. What a process takes after it was
# last read is lost, less than half a second each.
set -euo pipefail
[ "$#" -gt 0 ] || { sed -n '2,/^set/s/^# \{0,1\}//p' "$0" | sed '$d'; exit 2; }
log="$(realpath -m "$1")"
shift
cd "$(dirname "$0")/.."

# Whose work a process does: its crate and what for, or nothing where its words do not tell.
purpose() { # PROCESS
  local words text crate="" purpose=proof
  mapfile -d '' -t words < "/proc/$1/cmdline" || return 0
  text=" ${words[*]} "
  [[ "$text" != *" --crate-name "* ]] || { crate="${text#* --crate-name }" crate="${crate%% *}"; }
  if [[ "$text" =~ /rt-run-[^/\ ]*/bin/([a-z0-9_]+) ]]; then
    crate="${BASH_REMATCH[1]}" purpose=run
    [[ "$crate" != *_tests ]] || crate="${crate%_tests}" purpose=tests
  elif [[ "$text" == *" --test "* ]]; then
    purpose=tests
  elif [[ "$(readlink "/proc/$1/cwd" || true)" == */rt-edit-* ]]; then
    purpose=edits
  fi
  [ -z "$crate" ] || echo "$crate $purpose"
}

# Reads the processor time of each process below the first, until that one ends, and prints the sums.
watch_below() { # PROCESS
  local -A ticks whose now=([$1]="rt other")
  local stat line number fields key told
  while [ -e "/proc/$1/stat" ]; do
    # Only what lived at the last reading is known: a number is given again once its process has ended.
    whose=()
    for number in "${!now[@]}"; do whose[$number]="${now[$number]}"; done
    now=()
    for stat in /proc/[0-9]*/stat; do
      read -r line 2> /dev/null < "$stat" || continue
      number="${line%% *}"
      read -r -a fields <<< "${line##*) }"
      key="$number ${fields[19]}"
      if [ -n "${ticks[$key]:-}" ] || [ "$number" = "$1" ]; then
        now[$number]="${whose[$number]:-rt other}"
      elif [ -n "${whose[${fields[1]}]:-}" ]; then
        told="$(purpose "$number" 2> /dev/null || true)"
        now[$number]="${told:-${whose[${fields[1]}]}}"
      else
        continue
      fi
      ticks[$key]="$((fields[11] + fields[12])) ${now[$number]}"
    done
    sleep 0.5
  done 2> /dev/null
  for key in "${!ticks[@]}"; do echo "${ticks[$key]}"; done |
    awk -v hertz="$(getconf CLK_TCK)" '{ sum[$2 " " $3] += $1 } END { for (it in sum) printf "cpu %s %.1f\n", it, sum[it] / hertz }'
}

measure() {
  local status=0 begun="$SECONDS" line number
  folder="$(mktemp -d)"
  trap 'rm -rf "$folder"' EXIT
  mkfifo "$folder/said"
  rt ci "$@" > "$folder/said" 2>&1 &
  number=$!
  watch_below "$number" > "$folder/times" &
  while IFS= read -r line; do printf '%d\t%s\n' "$((SECONDS - begun))" "$line"; done < "$folder/said" > "$folder/log"
  wait "$number" || status=$?
  wait
  {
    cat "$folder/log"
    printf '%d\tended with status %d, %d processors\n' "$((SECONDS - begun))" "$status" "$(nproc)"
    cat "$folder/times"
  } > "$log"
}

# Edits that are refused at a line of a written proof say less than those at a goal that the check made: they are counted apart.
table() {
  awk -F '\t' '
    function seconds(of) { return of == "" ? "" : sprintf("%.0f", of) }
    function row(name, proof, edits, tests, run) {
      printf "| %s | %s | %s | %s | %s | %s | %s | %s |\n", name, seconds(proof), seconds(tests), seconds(edits),
        refused[name], written[name], seconds(run), after[name]
    }
    /^cpu / { split($0, it, " "); time[it[2], it[3]] = it[4]; total[it[3]] += it[4]; all += it[4]; next }
    { last = $1 }
    $2 ~ /^rt: [a-z0-9_]+ proved$/ { split($2, it, " "); name = it[2]; order[++count] = name; after[name] = $1 }
    $2 ~ /^rt: [a-z0-9_]+ is kept/ { split($2, it, " "); order[++count] = it[2]; after[it[2]] = "kept" }
    $2 ~ /must-fail [a-z0-9_]+\/.*: refused/ {
      name = $2; sub(/.*must-fail /, "", name); sub(/\/.*/, "", name)
      refused[name]++
      if ($2 ~ /as it must be(: | \([^)]*\): )(note: )?(\.\/)?proofs\//) written[name]++
    }
    $2 ~ /^ended with status/ { ended = $2 }
    $2 ~ /^[0-9]+ passed, [0-9]+ failed/ { verdict = $2 }
    END {
      print "| Crate | proof | tests | edits | number of edits | of them at a written line | runs | proved after |"
      print "|---|---|---|---|---|---|---|---|"
      for (at = 1; at <= count; at++) {
        name = order[at]
        row(name, time[name, "proof"], time[name, "edits"], time[name, "tests"], time[name, "run"])
      }
      for (name in refused) { number += refused[name]; lines += written[name] }
      refused["all"] = number; written["all"] = lines; after["all"] = last
      row("all", total["proof"], total["edits"], total["tests"], total["run"])
      print "\nSeconds of processor time, and in the last column of the clock."
      printf "In all %.0f s of processor time in %d s (%s); %s.\n", all, last, ended, verdict
    }' "$log"
}

[ -e "$log" ] || measure "$@"
table
