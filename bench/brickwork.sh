#!/usr/bin/env bash
# usage: brickwork.sh [PROGRAM]; without it the program that `rt ci` has left. `rounds` in the environment says how often each is run,
# `layers` how many layers there are, and `wires` at how many live wires.
# Times the letters of brickwork circuits under `plain` beside C programs that do the same letters: over the same 128-bit numbers
# (brickwork.c at -O2, also with each sum tested by itself), and over exact 32-bit numbers and complex doubles (brickwork_small.c at -O3):
# nanoseconds for one letter and one amplitude, and the program's ratio to the loop over 128 bits and to that over doubles. A dash stands
# where the numbers leave 32 bits: those of 5 layers don't, and those of 20 layers do. All take turns on one processor, and the least of
# their processor times counts, so that it matters little what else the machine does.
# A layer is a Hadamard and a T on every qubit, then controlled-nots between neighbours, shifted by one in every other layer.
# Where one rank has too few qubits there are two, and the first waits for a bit of the second: so all wires live before any letter.
# 20 wires and two buffers are more than a text of version 1 may have, so that text is one of version 2.
# At the end all qubits are measured as zero, so that one amplitude is printed. The time of a program of one layer is taken off that of
# all layers. Wants gcc, and a built program: run `rt ci` first.
# Before that, all exact ones do the letters at 6 wires, and must come to the same scale.
set -euo pipefail
top=$(cd "$(dirname "${BASH_SOURCE[0]}")/.." && pwd)
program=${1:-$top/crates/qmpi/out/qmpi}
rounds=${rounds:-9}
layers=${layers:-20}
wires=${wires:-10 12 14 16 18 20}
pinned=()
if command -v taskset > /dev/null; then pinned=(taskset -c 0); fi
[ -x "$program" ] || { echo "no program at $program: run 'rt ci' first" >&2; exit 1; }
work=$(mktemp -d)
trap 'rm -r "$work"' EXIT
exec 3>&2
gcc -O2 -o "$work/c" "$top/bench/brickwork.c"
gcc -O2 -DEACH_SUM -o "$work/each" "$top/bench/brickwork.c"
gcc -O3 -DNARROW -o "$work/narrow" "$top/bench/brickwork_small.c"
gcc -O3 -o "$work/double" "$top/bench/brickwork_small.c"

brickwork() {  # a program of so many qubits and layers
  awk -v n="$1" -v layers="$2" 'BEGIN {
    ranks = n > 16 ? 2 : 1; q = n / ranks
    printf (n > 18 ? "qmpi 2\nranks %d\nqubits %d %d\nbuffer 1 1\n" : "qmpi 1\nranks %d\nqubits %d\nbuffer 1\n"), ranks, q, q
    for (r = 0; r < ranks; r++) {
      printf "rank %d\n", r
      for (i = 0; i < q; i++) printf "  alloc %d\n", i
      if (ranks > 1) print (r == 0 ? "  recvbit 0 1 0" : "  sendbit 0 0 0")
      for (l = 0; l < layers; l++) {
        for (i = 0; i < q; i++) printf "  h %d\n  t %d\n", i, i
        for (i = l % 2; i + 1 < q; i += 2) printf "  cx %d %d\n", i, i + 1
      }
      for (i = 0; i < q; i++) printf "  measure %d 0\n", i
      print "end"
    }
    for (r = 0; r < ranks; r++) printf "own %d b%0*d\n", r, q, 0
  }'
}

letters() {  # how many letters a program has
  grep -cE '^ *(h|t|cx) ' "$1"
}

repeat() {  # so many runs of one of the programs with so many layers
  local run
  for ((run = 0; run < $3; run++)); do
    case $1 in
      ours) "${pinned[@]}" "$program" plain < "$work/text$2" ;;
      *) "${pinned[@]}" "$work/$1" "$qubits" "$2" ;;
    esac > /dev/null || { echo "$1 failed at $qubits wires" >&3; exit 1; }
  done
}

timed() {  # which of the programs, and of how many layers: keeps the least of its processor times, in milliseconds for all its runs
  local user system spent TIMEFORMAT='%3U %3S'
  read -r user system < <({ time repeat "$1" "$2" "$runs" 2> /dev/null; } 2>&1)
  spent=$((10#${user/./} + 10#${system/./}))
  if [ -z "${least[$1 $2]:-}" ] || [ "$spent" -lt "${least[$1 $2]}" ]; then least[$1 $2]=$spent; fi
}

spent() {  # the time of all layers but one
  echo $((least[$1 $layers] - least[$1 1]))
}

compare() {  # the scales to which qmpi and the C programs come, where nothing is measured
  local which ours scale
  brickwork "$qubits" "$layers" | grep -vE '^( *measure|own) ' > "$work/unmeasured"
  ours=$("$program" plain < "$work/unmeasured" | awk '$1 == "scale" { print $2 }') || { echo "ours failed at $qubits wires" >&2; exit 1; }
  for which in c each narrow; do
    scale=$("$work/$which" "$qubits" "$layers" | awk '$1 == "scale" { print $2 }') || { echo "$which failed at $qubits wires" >&2; exit 1; }
    if [ -z "$scale" ] || [ "$scale" != "$ours" ]; then
      echo "at $qubits wires $which comes to scale '$scale', and qmpi to '$ours'" >&2
      exit 1
    fi
  done
}

qubits=6
compare
echo 'wires   C, 128 bits   each sum tested   C, 32 bits   C, double   qmpi   to 128 bits   to double'
for qubits in $wires; do
  declare -A least=()
  runs=$((qubits < 16 ? 2 ** (16 - qubits) : 1))
  brickwork "$qubits" "$layers" > "$work/text$layers"
  brickwork "$qubits" 1 > "$work/text1"
  programs=(c ours each double)
  if "$work/narrow" "$qubits" "$layers" > /dev/null; then programs+=(narrow); fi
  for ((round = 0; round < rounds; round++)); do
    for which in "${programs[@]}"; do
      timed "$which" "$layers"
      timed "$which" 1
    done
  done
  count=$(($(letters "$work/text$layers") - $(letters "$work/text1")))
  narrow=-
  if [ -n "${least[narrow 1]:-}" ]; then narrow=$(spent narrow); fi
  awk -v n="$qubits" -v count="$count" -v c="$(spent c)" -v each="$(spent each)" -v ours="$(spent ours)" -v narrow="$narrow" \
    -v double="$(spent double)" -v runs="$runs" 'BEGIN {
    unit = count * 2 ^ n * runs / 1e6
    slim = narrow == "-" ? "-" : sprintf("%.2f", narrow / unit)
    printf "%5d %10.2f %15.2f %13s %11.2f %8.2f %10.2f %11.2f\n", n, c / unit, each / unit, slim, double / unit, ours / unit, ours / c, ours / double
  }'
done
