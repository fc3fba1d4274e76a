#!/usr/bin/env bash
# Times the reading of the largest texts, of 1,048,576 bytes each: the least of three wall times in milliseconds under `plain`, with the
# line that is written. Each text is refused, at the latest by the check of its first instruction, so that nothing is run.
# usage: largest_texts.sh [PROGRAM]; without it the program that `rt ci` has left.
set -eu
top=$(cd "$(dirname "${BASH_SOURCE[0]}")/.." && pwd)
program=${1:-$top/crates/qmpi/out/qmpi}
[ -x "$program" ] || { echo "no program at $program: run 'rt ci' first" >&2; exit 1; }

most=1048576
texts=$(mktemp -d)
trap 'rm -rf "$texts"' EXIT

filled() {  # a text of the largest size that repeats a piece
  yes "$1" | tr -d '\n' | head -c "$most"
}

padded() {  # standard input with blanks up to the largest size
  cat > "$texts/front"
  cat "$texts/front"
  head -c $((most - $(stat -c %s "$texts/front"))) /dev/zero | tr '\0' ' '
}

timed() {  # name of a text, and the line that its refusal writes
  local least=0 start stop line status
  [ "$(stat -c %s "$texts/$1")" = "$most" ] || { echo "$1 has another size" >&2; exit 1; }
  for _ in 1 2 3; do
    status=0
    start=$(date +%s%N)
    line=$("$program" plain < "$texts/$1") || status=$?
    stop=$(date +%s%N)
    if [ "$status" != 5 ] || [ "$line" != "$2" ]; then echo "$1: status $status, '$line' in place of '$2'" >&2; exit 1; fi
    if [ "$least" = 0 ] || [ $((stop - start)) -lt "$least" ]; then least=$((stop - start)); fi
  done
  printf '%-14s %6d ms  %s\n' "$1" $((least / 1000000)) "$2"
}

head="qmpi 1 ranks 1 qubits 1 buffer 1 rank 0"
filled a > "$texts/word"
{ printf 'qmpi '; filled 9; } | head -c "$most" > "$texts/number"
head -c "$most" /dev/zero | tr '\0' '\n' > "$texts/lines"
filled '(' > "$texts/parentheses"
yes '# 0' | head -c "$most" > "$texts/comments"
{ echo "$head"; seq 100000 | sed 's/.*/x 0/'; echo end; } | padded > "$texts/instructions"
echo "$head for i in 0..1000000 { } x 0 end" | padded > "$texts/turns"

timed word 'refused unexpected line 1'
timed number 'refused number-too-large line 1'
timed lines 'refused unended line 1048577'
timed parentheses 'refused unexpected line 1'
timed comments 'refused unended line 262145'
timed instructions 'refused slot-empty rank 0 instruction 0'
timed turns 'refused slot-empty rank 0 instruction 0'
