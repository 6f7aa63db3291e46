#!/usr/bin/env bash
# Tries the launcher on a small repository and with an `rt` that proves nothing: when it builds and when it does not, what it
# passes on, what it tells and what it leaves behind. Each line names what was seen; the status is 1 where one is not so.
set -euo pipefail
here="$(cd "$(dirname "$0")" && pwd)"
room="$(mktemp -d)"
trap 'rm -rf "$room"' EXIT
top="$room/a folder with blanks"
passed=0
failed=0

# The `rt` of this test notes its calls. Like the real one it looks at contents alone, and leaves the program as it is where
# they are those of the last build.
mkdir -p "$room/bin" "$room/tmp" "$top/crates"
cat > "$room/bin/rt" <<'RT'
#!/usr/bin/env bash
set -eu
echo "$*" >> "$NOTES"
case "$1" in
  all)
    sleep "${PROOF_SECONDS:-0}"
    if grep -qs wrong ../*/src/*.rt; then echo "fn low::f: not proved"; exit 1; fi
    for name in low middle; do echo "== npp_$name"; done
    printf '== npp\n== summary\n'
    ;;
  run)
    mkdir -p out
    cat ../npp*/src/*.rt > out/text
    if ! cmp -s out/text out/built; then
      {
        echo '#!/bin/sh'
        echo "# $(sha256sum < out/text)"
        echo '[ "$1" != cat ] || exec cat "$2"'
        echo '[ "$1" = gen ] || { echo "$# words, the last $2"; exit 3; }'
      } > out/npp
      chmod +x out/npp
      cp out/text out/built
    fi
    shift 2
    out/npp "$@"
    ;;
  try)
    for file; do :; done
    while [ "$1" != -- ]; do
      [ "$1" != --data ] || { file="${2#*=}"; shift; }
      shift
    done
    cat "$file"
    echo "run=ended status=1 runners=1 proved=no" >&2
    exit 1
    ;;
esac
RT
chmod +x "$room/bin/rt"
export PATH="$room/bin:$PATH" NOTES="$room/notes" TMPDIR="$room/tmp"
cp "$here/../npp" "$top/npp"
for name in npp npp_middle npp_low npp_other; do
  mkdir -p "$top/crates/$name/src"
  echo "// $name" > "$top/crates/$name/src/lib.rt"
done
printf 'npp_low: kit\nnpp_other: npp_low # not used\nnpp: npp_middle\nnpp_middle: npp_low\n' > "$top/crates.txt"

check() { # WHAT SEEN WANTED
  if [ "$2" = "$3" ]; then
    echo "launcher: $1: ok"
    passed=$((passed + 1))
  else
    printf 'launcher: %s: FAILED: %s, and not %s\n' "$1" "$2" "$3"
    failed=$((failed + 1))
  fi
}

# Runs the launcher and says its status, its standard output and how many builds there were.
seen() {
  local status=0 before after output
  before="$(grep -c '^run' "$NOTES" 2> /dev/null || true)"
  output="$("$@" 2> "$room/told")" || status=$?
  after="$(grep -c '^run' "$NOTES" 2> /dev/null || true)"
  echo "$status [$output] $((after - ${before:-0}))"
}

check "first build, in a folder with blanks" "$(seen "$top/npp" solve file)" "3 [2 words, the last file] 1"
check "one line a crate where there is no terminal" "$(wc -l < "$room/told") $(grep -c 'npp_low, 1 of 3' "$room/told")" "3 1"
check "no build where nothing changed" "$(seen "$top/npp" solve file)" "3 [2 words, the last file] 0"
check "words with blanks and empty words" "$(seen "$top/npp" solve 'a  b')$(seen "$top/npp" solve '')" \
  "3 [2 words, the last a  b] 03 [2 words, the last ] 0"
check "standard input is the program's" "$(seen "$top/npp" cat - <<< 'a line')" "0 [a line] 0"

touch "$top/crates/npp_low/src/lib.rt"
check "a source is touched" "$(seen "$top/npp" solve file)" "3 [2 words, the last file] 0"
echo "// more" >> "$top/crates/npp_other/src/lib.rt"
check "an edit in a crate that is not used" "$(seen "$top/npp" solve file)" "3 [2 words, the last file] 0"
echo "// more" >> "$top/crates/npp_low/src/lib.rt"
check "an edit in a crate that is used" "$(seen "$top/npp" solve file)" "3 [2 words, the last file] 1"
touch -d '2001-01-01' "$top/crates/npp_low/src/lib.rt"
echo "// older" > "$top/crates/npp_middle/src/lib.rt"
touch -d '2001-01-01' "$top/crates/npp_middle/src/lib.rt"
check "an edit with an old time" "$(seen "$top/npp" solve file)" "3 [2 words, the last file] 1"
echo "# changed by hand" >> "$top/crates/npp/out/npp"
check "a program that is not the one that was built" "$(seen "$top/npp" solve file)" "3 [2 words, the last file] 1"
rm "$top/crates/npp/out/npp.sources"
check "a program that rt ci left" "$(seen "$top/npp" solve file)" "3 [2 words, the last file] 0"
rm "$top/crates/npp/out/npp.sources"
touch "$top/crates/npp_low/src/lib.rt"
check "a program that rt ci left, and a touch since" "$(seen "$top/npp" solve file)" "3 [2 words, the last file] 1"

mkdir "$room/elsewhere"
echo "its text" > "$room/elsewhere/file"
ln -s "$top/npp" "$room/elsewhere/link"
ln -s link "$room/elsewhere/link of a link"
cd "$room/elsewhere"
check "a link, from another folder, and a relative file" "$(seen ./link cat file)" "0 [its text] 0"
check "a link of a link, on the path" "$(PATH="$PWD:$PATH" seen 'link of a link' cat ../elsewhere/file)" "0 [its text] 0"

echo "// again" >> "$top/crates/npp_low/src/lib.rt"
NPP_UNPROVED=1 seen ./link solve file > "$room/unproved"
check "a run before the proof, and a relative file" "$(cat "$room/unproved") $(wc -l < "$room/told")" "1 [its text] 0 1"
check "a run before the proof, and a file above" "$(NPP_UNPROVED=1 seen ./link cat ../elsewhere/file)" "1 [its text] 0"

before="$(grep -c '^run' "$NOTES")"
for number in 1 2 3; do PROOF_SECONDS=1 "$top/npp" cat file > "$room/at-once.$number" 2> /dev/null & done
wait
check "three at once" "$(cat "$room"/at-once.*) $(($(grep -c '^run' "$NOTES") - before))" $'its text\nits text\nits text 1'
NPP_UNPROVED=1 seen ./link cat file > "$room/proved"
check "no run before the proof where there is a proof" "$(cat "$room/proved") $(wc -l < "$room/told")" "0 [its text] 0 0"

echo "wrong" >> "$top/crates/npp_low/src/lib.rt"
check "a proof that fails" "$(seen "$top/npp" solve file)" "70 [] 0"
check "its log is shown" "$(grep -c 'fn low::f: not proved' "$room/told")" "1"
echo "// mended" > "$top/crates/npp_low/src/lib.rt"
check "mended" "$(seen "$top/npp" solve file)" "3 [2 words, the last file] 1"

for signal in TERM HUP INT; do
  echo "// $signal" >> "$top/crates/npp_low/src/lib.rt"
  proofs="$(grep -c '^all' "$NOTES")"
  # A shell starts what it does not wait for with INT ignored, which no trap can change.
  PROOF_SECONDS=20 python3 -c 'import os, signal, sys
signal.signal(signal.SIGINT, signal.SIG_DFL)
os.execv(sys.argv[1], sys.argv[1:])' "$top/npp" solve file > "$room/output" 2>&1 &
  for ((tenths = 0; tenths < 200 && $(grep -c '^all' "$NOTES") == proofs; tenths++)); do sleep 0.1; done
  kill -s "$signal" $!
  status=0
  wait $! || status=$?
  check "ended by $signal" "$status" "$((128 + $(kill -l "$signal")))"
done
check "no log is left" "$(ls -A "$room/tmp")" ""
check "closed standard output and error" "$(seen "$top/npp" cat file >&- 2>&-)$("$top/npp" cat file 2>&-)" "its text"
# Where all is well the count of `rt ci` stays the last one of the gate.
[ "$failed" = 0 ] || { echo "$passed passed, $failed failed"; exit 1; }
