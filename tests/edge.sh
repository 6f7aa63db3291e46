#!/usr/bin/env bash
# Tries the proved program where no contract speaks: on real files, real output and its status. With no word it takes both
# builds that `rt ci` left, or else the one of the launcher. Each line names what was seen; the status is 1 where one is not so.
# Every text and status that is wanted here comes from docs/FORMATS.md and from instances that are worked by hand.
set -euo pipefail
top="$(cd "$(dirname "$0")/.." && pwd)"
room="$(mktemp -d)"
trap 'rm -rf "$room"' EXIT
chmod 711 "$room"
cd "$room"
passed=0
failed=0

check() { # WHAT SEEN WANTED
  if [ "$2" = "$3" ]; then
    echo "edge: $1: ok"
    passed=$((passed + 1))
  else
    printf 'edge: %s: FAILED: %.400s, and not %.400s\n' "$1" "$2" "$3"
    failed=$((failed + 1))
  fi
}

# Runs a command and says its status and what it writes.
seen() {
  local status=0 output
  output="$(timeout 60 "$@" 2> errors)" || status=$?
  echo "$status $output"
}

# One toll road beside a free one, made as long as asked by comments before the pair: the spans are 10 and 2, the bound is
# 5 times 8.
roads() { # BYTES FILE
  printf 'npp 1\nnode a\nnode b\nfree a b 10\ntoll a b 2\n' > "$2"
  awk -v left="$(($1 - $(stat -c %s "$2") - 11))" 'BEGIN {
    while (left > 0) {
      length_now = left > 200 ? 100 : left
      text = "#"
      while (length(text) < length_now - 1) text = text "."
      print text
      left -= length_now
    }
  }' >> "$2"
  printf 'pair a b 5\n' >> "$2"
  [ "$(stat -c %s "$2")" = "$1" ]
}
answer=$'0 span 0 10 2\nbasic 40'

# A road of 999 arcs and 100 travellers from its one end to the other, whose paths take some 400,000 bytes to print.
long_road() { # INSTANCE PATHS
  awk -v instance="$1" -v paths="$2" 'BEGIN {
    print "npp 1" > instance
    for (v = 0; v < 1000; v++) print "node v" v > instance
    for (v = 0; v < 999; v++) { print "free v" v " v" v + 1 " 1" > instance; arcs = arcs " " v }
    for (k = 0; k < 100; k++) {
      print "pair v0 v999 1" > instance
      printf "commodity %d 1\nuseful %d 0 999 tolls arcs%s\n", k, k, arcs > paths
    }
  }'
}

roads 200 short
roads 65536 piece
roads 65537 longer
roads 131072 pieces
roads 4194304 longest
roads 4194305 too-long
long_road road road.paths
: > empty
mkdir folder
ln -s loop loop
cp short locked
chmod 000 locked
# Root reads what it likes, so nobody has to ask for the locked file.
as_nobody=()
[ "$(id -u)" != 0 ] || as_nobody=(setpriv --reuid=65534 --regid=65534 --clear-groups)

try_files() {
  check "a short file" "$(seen "$program" bounds short)" "$answer"
  check "a file of one whole piece, 65,536 bytes" "$(seen "$program" bounds piece)" "$answer"
  check "a file of one byte more, the pair in its second piece" "$(seen "$program" bounds longer)" "$answer"
  check "a file whose last piece is full" "$(seen "$program" bounds pieces)" "$answer"
  check "a file of the greatest length" "$(seen "$program" bounds longest)" "$answer"
  check "a file of one byte more than that" "$(seen "$program" bounds too-long)" "12 refused too-long too-long"
  check "an empty file" "$(seen "$program" bounds empty)" "3 refused instance line 1 Header"
  check "no file" "$(seen "$program" bounds none)" "4 missing none"
  check "a folder" "$(seen "$program" bounds folder)" "5 shelf fault folder"
  check "a file that may not be read" "$(seen "${as_nobody[@]}" "$program" bounds locked)" "5 shelf fault locked"
  check "a link to itself" "$(seen "$program" bounds loop)" "5 shelf fault loop"
  check "a file taken for a folder" "$(seen "$program" bounds short/file)" "5 shelf fault short/file"
  check "a file whose first read fails" "$(seen "$program" bounds /proc/self/mem)" "5 shelf fault /proc/self/mem"
  check "a file as standard input" "$(seen "$program" bounds /dev/stdin < longer)" "$answer"
  check "a pipe as standard input" "$(cat short | seen "$program" bounds /dev/stdin)" "5 shelf fault /dev/stdin"
  check "a word that is no text" "$(seen "$program" bounds $'\xff' | head -n 1)" \
    "2 usage: npp solve FILE [--budget N] [--cuts N] [--numbers W] [--brief]"
}

# Waits, at most ten seconds, until a process is in this state.
wait_for_state() { # PROCESS STATE
  local turn
  for turn in {1..100}; do
    [[ "$(< "/proc/$1/stat")" != *") $2 "* ]] || return 0
    sleep 0.1
  done
  echo "edge: process $1 is not in state $2" >&2
  return 1
}

# The program waits for room in the pipe, and is stopped and goes on meanwhile: that ends its write with a part of what it
# was handed.
interrupted() {
  local number late=0
  rm -f pipe
  mkfifo pipe
  "$program" paths road > pipe &
  number=$!
  exec 3< pipe
  sleep 0.2
  wait_for_state "$number" S || late=1
  kill -STOP "$number"
  wait_for_state "$number" T || late=1
  kill -CONT "$number"
  wait_for_state "$number" S || late=1
  cat <&3 > got
  exec 3<&-
  wait "$number" || return
  return "$late"
}

# Says the status where standard output is a file that takes 1,024 bytes and then no more, and what it took.
limited() {
  local status=0
  (trap '' XFSZ; ulimit -f 1; exec "$program" paths road > got) || status=$?
  echo "$status $(stat -c %s got) $(cmp -n 1024 got road.paths && echo as wanted)"
}

try_output() {
  local status=0
  check "more than a pipe holds" "$(seen "$program" paths road | sha256sum)" "$({ printf '0 '; cat road.paths; } | sha256sum)"
  interrupted || status=$?
  check "a pipe that takes a part of what is handed to it" "$status $(cmp got road.paths && echo as wanted)" "0 as wanted"
  check "a file that takes a part and no more" "$(limited)" "6 1024 as wanted"
  status=0
  "$program" bounds short >&- || status=$?
  check "a closed output" "$status" "6"
  status=0
  "$program" bounds short > /dev/full || status=$?
  check "a full device" "$status" "6"
  # The reader is gone before anything is written.
  mkfifo gone
  (exec 4<> gone 5> gone 4<&-; "$program" bounds short >&5) || status=$?
  check "a pipe that nobody reads" "$status" "6"
  rm gone
}

try_statuses() {
  check "an optimal report" "$(seen "$program" solve "$top/examples/no-toll-arc.npp" | sed -n '1p; 2p')" \
    $'0 npp-certificate 1\nstatus optimal'
  check "an optimum where floating point is wrong" \
    "$(seen "$program" solve "$top/examples/one-toll.npp" | sed -n '1p; 2p; 4p; 5p')" \
    $'0 npp-certificate 1\nstatus optimal\nlower 1900001\nupper 1900001'
  "$program" solve "$top/examples/one-toll.npp" > certificate
  check "its certificate" "$(seen "$program" check "$top/examples/one-toll.npp" certificate)" \
    "0 accepted lower 1900001 upper 1900001"
  sed 's/^upper 1900001$/upper 1900000/' certificate > spoiled
  check "its certificate spoiled by hand" "$(seen "$program" check "$top/examples/one-toll.npp" spoiled)" \
    "9 refused certificate line $(wc -l < certificate) Upper"
  check "a certificate that is not there" "$(seen "$program" check "$top/examples/one-toll.npp" none)" "4 missing none"
  check "no free path" "$(seen "$program" solve "$top/examples/no-free-path.npp")" "10 refused no-free-path 0"
  check "too many paths" "$(seen "$program" paths "$top/examples/too-many-paths.npp")" "11 refused too-many-paths 0"
  check "tolls of another file" "$(seen "$program" eval "$top/examples/parallel-tolls.npp" "$top/examples/parallel-tolls.tolls")" \
    $'0 revenue 5\npath 0 4 5 2'
  check "no file of tolls" "$(seen "$program" eval "$top/examples/parallel-tolls.npp" none)" "4 missing none"
  check "no words" "$(seen "$program" | cut -c1-7 | head -n 1)" "2 usage"
}

# What the program prints it takes again, and a change by hand is found.
try_certificates() {
  "$program" solve short > certificate || true
  check "a certificate" "$(seen "$program" check short certificate)" "0 accepted lower 40 upper 40"
  sed 's/^upper 40$/upper 39/' certificate > spoiled
  check "a certificate with a smaller upper value" "$(seen "$program" check short spoiled)" \
    "9 refused certificate line 16 Upper"
  head -c -1 certificate > cut
  check "a certificate without its last byte" "$(seen "$program" check short cut)" "9 refused certificate line 16 Text"
  check "no certificate" "$(seen "$program" check short none)" "4 missing none"
  check "a folder for a certificate" "$(seen "$program" check short folder)" "5 shelf fault folder"
  check "a certificate in the second form" "$(seen "$program" upgrade short certificate)" \
    "0 $(sed -e '1s/1$/2/' -e '6a instance 2 2 1 1' -e '6a limit 0 -' certificate)"
  "$program" upgrade short certificate > upgraded || true
  check "the same again" "$(seen "$program" upgrade short upgraded)" "0 $(cat upgraded)"
  check "its check" "$(seen "$program" check short upgraded)" "0 accepted lower 40 upper 40"
  truncate -s 67108864 zeros
  check "as many bytes as may be upgraded" "$(seen "$program" upgrade short zeros)" "9 refused certificate line 1 Text"
  truncate -s 67108865 zeros
  check "one byte more" "$(seen "$program" upgrade short zeros)" "12 refused too-long zeros"
}

programs=("$@")
[ "$#" -gt 0 ] || programs=("$top"/crates/npp/out/npp*)
for built in "${programs[@]}"; do
  # rt keeps other files beside the two builds.
  case "$built" in *.o | *.stamp | *.sources | *'*') continue ;; esac
  echo "edge: ${built#"$top/"}"
  cp "$built" program
  chmod 755 program
  program="$room/program"
  try_files
  try_output
  try_statuses
  try_certificates
done
[ -e program ] || check "a program" "none" "one that rt ci or the launcher left"
# Where all is well the count of `rt ci` stays the last one of the gate.
[ "$failed" = 0 ] || { echo "$passed passed, $failed failed"; exit 1; }
