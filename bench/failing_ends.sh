#!/usr/bin/env bash
# Runs the program where memory is refused and where its standard input and output fail.
#
# Memory: over several texts and each command, every allocation is refused in turn, alone and then with all after it. The status must be 8
# with nothing written, or the program must answer as it does with all its memory. The number of allocations tried is printed.
# Ends: standard output closed, /dev/full, a pipe whose reader went; standard input closed, and a directory as standard input.
# usage: failing_ends.sh [PROGRAM]; without it the program that `rt ci` has left.
set -u
here=$(cd "$(dirname "${BASH_SOURCE[0]}")" && pwd)
program=$(readlink -f "${1:-$here/../crates/qmpi/out/qmpi}")
[ -x "$program" ] || { echo "no program at $program: run 'rt ci' first" >&2; exit 1; }

room=$(mktemp -d)
trap 'rm -rf "$room"' EXIT
cd "$room" || exit 1
cc -O2 -shared -fPIC -o refuse.so "$here/refused_memory.c" || exit 1
faults=0
fault() { echo "FAULT: $*"; faults=$((faults + 1)); }

call() {  # a name for what it writes, the words, and the text's name; the environment says which memory is refused
  head -c 8 /dev/zero > count
  LD_PRELOAD=./refuse.so REFUSE_COUNT=count "$program" $2 < "$3" > "$1.out" 2> "$1.err"
  echo $? > "$1.status"
}

allocations() { od -An -td8 count | tr -d ' '; }

try_memory() {  # the words, and the text's name
  call own "$1" "$2"
  local all lost=0 n
  all=$(allocations)
  for ((n = 1; n <= all; n++)); do
    for on in alone on; do
      REFUSE_AT=$n REFUSE_ON=$on call found "$1" "$2"
      if [ "$(cat found.status)" = 8 ] && [ ! -s found.out ] && [ ! -s found.err ]; then
        lost=$((lost + 1))
      elif ! cmp -s own.out found.out || ! cmp -s own.err found.err || ! cmp -s own.status found.status; then
        fault "$1 < $2, allocation $n, $on: status $(cat found.status), $(stat -c %s found.out) bytes"
      fi
    done
  done
  [ "$lost" -gt 0 ] || fault "$1 < $2: no refusal was told"
  printf '%-16s %-10s status %s, %5d allocations, %6d of %6d runs told that memory is wanting\n' "$1" "$2" "$(cat own.status)" "$all" "$lost" $((2 * all))
}

one_copy="qmpi 1 ranks 2 qubits 1 buffer 1 rank 0 alloc 0 h 0 copyto 0 1 7 end rank 1 copyfrom 0 0 7 end protocol 0 b1"
echo "$one_copy" > copy
echo "qmpi 1 ranks 2 qubits 2 buffer 1 rank 0 alloc 0 h 0 copyto 0 1 3 copyto 0 1 3 undofrom 0 1 4 undofrom 0 1 4 end
  rank 1 copyfrom 0 0 3 copyfrom 1 0 3 undoto 0 0 4 undoto 1 0 4 end protocol 0 b10 protocol 1 b11" > copies
echo "qmpi 1 ranks 4 qubits 1 buffer 1 rank 0 alloc 0 h 0 bcast 0 0 5 end
  rank 1 bcast 0 0 5 end rank 2 bcast 0 0 5 end rank 3 bcast 0 0 5 end protocol 0 b101" > broadcast
echo "qmpi 1 ranks 1 qubits 1 buffer 1 rank 0 alloc 0 x 0 free 0 end" > stopped
echo "qmpi 1 ranks 1 qubits 1 buffer 1 rank 0 alloc j end" > refused
echo "qmpi 1 ranks 1 qubits 12 buffer 1 rank 0 for i in 0..12 { alloc i h i } end" > twelve
"$program" gen ring 1000 7 > ring

for text in copy copies broadcast stopped refused twelve ring; do
  for words in plain 'sched 3' 'trace 3' mono 'mono amps' check; do try_memory "$words" "$text"; done
done
# threads may take their turns in any order, so the turns are listed where there is one order alone
for text in copy copies broadcast stopped refused; do try_memory run "$text"; done
try_memory 'run turns' copy
for words in 'gen ring 1000 7' 'gen ghz 10 3' 'job ring 1000 7' 'job parity 100 5' 'job ghz 10 3'; do try_memory "$words" /dev/null; done

try_end() {  # a name, the status that is due, what is due on standard output, and the status and what was written there
  if [ "$2" = "$4" ] && [ "$3" = "$5" ]; then
    printf '%-44s status %s, wrote "%s"\n' "$1" "$4" "$5"
  else
    fault "$1: status $4, wrote \"$5\", not $2 and \"$3\""
  fi
}

for words in plain 'trace 3' 'gen ring 10000 7'; do
  "$program" $words < twelve >&- 2> err; try_end "$words, standard output closed" 7 '' $? "$(cat err)"
  "$program" $words < twelve > /dev/full 2> err; try_end "$words, /dev/full" 7 '' $? "$(cat err)"
  { sleep 0.5; "$program" $words < twelve 2> err; echo $? > status; } | true
  try_end "$words, a pipe whose reader went" 7 '' "$(cat status)" "$(cat err)"
done
for words in plain 'mono amps' check; do
  found=$("$program" $words <&- 2>&1); try_end "$words, standard input closed" 3 'read fault' $? "$found"
  found=$("$program" $words < / 2>&1); try_end "$words, a directory as standard input" 3 'read fault' $? "$found"
done
found=$("$program" job ghz 2 5 <&- 2>&1 | tail -n 1); try_end "job ghz 2 5, standard input closed" 0 end $? "$found"

echo "$faults faults"
[ "$faults" = 0 ]
