#!/usr/bin/env bash
# Hints for a node that comes back, and clock steps beside open requests: whether the time of a line grows with how many hints
# are kept, or with how many requests are open. Each count is run in turns, and the least time is told.
# Usage: run.sh [TURNS], after `rt run` in crates/biropuve built the program.
set -euo pipefail
cd "$(dirname "$0")"
. ../turns.sh
turns=${1:-3}
program=$PWD/../../crates/biropuve/out/biropuve
folder=$(mktemp -d)
trap 'rm -rf "$folder"' EXIT

head='cassandra-script 1\nring -3000000000000000000 0 3000000000000000000\nrf 3\nrun'

# writes at a quorum while node 1 is taken for dead; then it is back, and is handed its hints 64 at a time
write_hints() {
    awk -v count="$1" -v head="$head" 'BEGIN {
        print head
        print "mark 0 1 down"
        for (i = 0; i < count; i++) {
            print "put 0 QUORUM k" int(i / 10) " r" i % 10 " " i " v" i
            print "settle 100"
        }
        print "mark 0 1 up"
        for (i = 0; i < count; i += 64) print "settle 128"
        print "get 1 ONE k0"
        print "get 1 ONE k" int((count - 1) / 10)
    }'
}

# so many reads that nobody else answers, and then clock steps, none of which comes to their deadline
write_open() {
    awk -v count="$1" -v steps="$2" -v head="$head" 'BEGIN {
        print head
        for (i = 0; i < count; i++) print "get 0 ALL k" i
        for (i = 0; i < steps; i++) print "clock 0 " 2000 + i
    }'
}

for count in 7500 15000 30000 60000; do
    write_hints "$count" > "$folder/script"
    lines=$(wc -l < "$folder/script")
    micros=$(least "$program" "$folder/script" "$folder/answers")
    # node 1 shows the rows of the first and of the last partition by itself
    [ "$(tail -n 22 "$folder/answers" | grep -c "^ 'r[0-9]' | 'v[0-9]*'$")" = 20 ] || { echo "hints are missing"; exit 1; }
    awk -v n="$count" -v l="$lines" -v t="$micros" 'BEGIN { printf "%6d hints: %8.1f ms, %6.2f us a line\n", n, t / 1000, t / l }'
done
for open in 0 100 1000; do
    write_open "$open" 100000 > "$folder/script"
    with=$(least "$program" "$folder/script" "$folder/answers")
    write_open "$open" 0 > "$folder/script"
    without=$(least "$program" "$folder/script" "$folder/answers")
    [ ! -s "$folder/answers" ] || { echo "a read was answered"; exit 1; }
    awk -v n="$open" -v t="$((with - without))" 'BEGIN { printf "100000 clock steps beside %4d open requests: %6.2f us each\n", n, t / 100000 }'
done
