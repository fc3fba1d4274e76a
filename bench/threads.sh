#!/usr/bin/env bash
# usage: threads.sh [PROGRAM [RUNS]]; without them the program that `rt ci` has left, and 2,000 runs of each text.
# Runs a ring of 300 rounds and a parity of 200 rounds on 4 ranks under `run`, idle and beside a program that keeps all processors busy, in a
# session of its own, as another user's program would be.
# Each run must end within 60 seconds with the bytes of `plain`. Then it prints nanoseconds for an event under `plain` and under `run`, how
# many changes of rank the schedules of `run turns` had, and processor time over wall time while one rank waits for another's long work.
set -euo pipefail
top=$(cd "$(dirname "${BASH_SOURCE[0]}")/.." && pwd)
program=${1:-$top/crates/qmpi/out/qmpi}
runs=${2:-2000}
[ -x "$program" ] || { echo "no program at $program: run 'rt ci' first" >&2; exit 1; }
texts=$(mktemp -d)
busy=()
trap 'kill "${busy[@]}" 2>/dev/null || true; rm -rf "$texts"' EXIT

"$program" gen ring 300 7 > "$texts/ring"
"$program" gen parity 200 5 > "$texts/parity"
# rank 0 mixes 17 qubits again and again; rank 1 waits for its bit all the while
{
  echo "qmpi 1 ranks 2 qubits 9 buffer 1 rank 0"
  echo "for i in 0..9 { alloc i } for k in 0..400 { for i in 0..9 { h i } }"
  echo "sendbit 0 1 1 end rank 1 for i in 0..8 { alloc i h i } recvbit 0 0 1 end"
} > "$texts/wait"

all_equal() {  # a text, and what else the machine does
  local wrong=0
  for _ in $(seq "$runs"); do
    timeout 60 "$program" run < "$texts/$1" > "$texts/got" || { echo "$1: a run failed or took 60 seconds" >&2; exit 1; }
    cmp -s "$texts/got" "$texts/$1.plain" || wrong=$((wrong + 1))
  done
  echo "$1, $2: $runs runs, $wrong that differ from plain"
  [ "$wrong" = 0 ]
}

nanoseconds() {  # the least wall time of nine calls with these words, in nanoseconds
  local least=0 start stop
  for _ in 1 2 3 4 5 6 7 8 9; do
    start=$(date +%s%N)
    "$program" "${@:2}" < "$texts/$1" > /dev/null
    stop=$(date +%s%N)
    [ "$least" != 0 ] && [ $((stop - start)) -ge "$least" ] || least=$((stop - start))
  done
  echo "$least"
}

for text in ring parity; do
  "$program" plain < "$texts/$text" > "$texts/$text.plain"
  all_equal "$text" "nothing else to do"
done
for _ in $(seq "$(nproc)"); do
  setsid bash -c "while :; do :; done" &
  busy+=($!)
done
for text in ring parity; do
  all_equal "$text" "all processors busy"
done
kill "${busy[@]}"
wait 2>/dev/null || true
busy=()

for text in ring parity; do
  events=$("$program" trace 1 < "$texts/$text" | sed -n 's/^turns //p')
  checked=$(nanoseconds "$text" check)
  plain=$(nanoseconds "$text" plain)
  threads=$(nanoseconds "$text" run)
  changes=$("$program" run turns < "$texts/$text" | sed -n '/^turns/,$p' | grep -E '^[0-9]+$' | uniq | wc -l)
  echo "$text: $events events; ns for an event: plain $(((plain - checked) / events)), run $(((threads - checked) / events)); changes of rank $changes"
done

TIMEFORMAT='%R %U %S'
spent=$({ time "$program" run < "$texts/wait" > /dev/null; } 2>&1)
echo "$spent" | awk '{ printf "a rank that waits: wall %.2f s, processor %.2f s, ratio %.2f\n", $1, $2 + $3, ($2 + $3) / $1 }'
