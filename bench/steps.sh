#!/usr/bin/env bash
# usage: steps.sh [PROGRAM]; without it the program that `rt ci` has left.
# Times the steps of the machine under `plain`, where the store has next to nothing to do: nanoseconds for a flip of a lone qubit, and for
# an event of a qubit that two ranks move to and fro. The time of the same program with a fault at its end, which is read and checked and
# not run, is taken off. Wants a built program: run `rt ci` first.
set -euo pipefail
top=$(cd "$(dirname "${BASH_SOURCE[0]}")/.." && pwd)
program=${1:-$top/crates/qmpi/out/qmpi}
[ -x "$program" ] || { echo "no program at $program: run 'rt ci' first" >&2; exit 1; }

flips=99998
rounds=15000
texts=$(mktemp -d)
trap 'rm -rf "$texts"' EXIT

flip() {  # a program of so many flips, and the instruction at its end
  echo "qmpi 1 ranks 1 qubits 1 buffer 1 rank 0 alloc 0"
  seq "$flips" | sed "s/.*/x 0/"
  echo "$1 end"
}

move() {  # a program of so many moves to rank 1 and back, and the instruction at the end of rank 0
  echo "qmpi 1 ranks 2 qubits 1 buffer 1 rank 0 alloc 0"
  seq "$rounds" | sed "s/.*/moveto 0 1 7 movefrom 0 1 7/"
  echo "$1 end rank 1"
  seq "$rounds" | sed "s/.*/movefrom 0 0 7 moveto 0 0 7/"
  echo "end"
  for rank in 0 1; do printf "protocol %d b%0*d\n" "$rank" $((2 * rounds)) 0; done
}

best() {  # the least of nine wall times in nanoseconds, of a run that ends with this status
  local least=0 start stop status
  for _ in 1 2 3 4 5 6 7 8 9; do
    status=0
    start=$(date +%s%N)
    "$program" plain < "$1" > /dev/null 2>&1 || status=$?
    stop=$(date +%s%N)
    if [ "$status" != "$2" ]; then echo "status $status at $1, not $2" >&2; exit 1; fi
    if [ "$least" = 0 ] || [ $((stop - start)) -lt "$least" ]; then least=$((stop - start)); fi
  done
  echo "$least"
}

time_steps() {  # of the program that this function writes, which has so many steps
  local run refused spent
  "$1" "x 0" > "$texts/run"
  "$1" "alloc 0" > "$texts/refused"
  run=$(best "$texts/run" 0)
  refused=$(best "$texts/refused" 5)
  spent=$((run - refused))
  awk -v name="$1" -v c="$2" -v t="$spent" 'BEGIN { printf "%s, %d steps: %.0f ns for a step\n", name, c, t / c }'
}

time_steps flip $((flips + 2))
time_steps move $((rounds * 16 + 2))
