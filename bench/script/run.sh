#!/usr/bin/env bash
# Scripts of puts, gets and settlings at three nodes: how the time of a run grows with the lines, beside a plain program that
# does the same replication work over the same scripts with the same answers; and, where valgrind is there, the instructions
# that each takes for 8,000 lines. Where the time grows as n log n the column "by log2 n" stays about the same.
# Usage: run.sh [TURNS], after `rt run` in crates/biropuve built the program. Needs rustc.
set -euo pipefail
cd "$(dirname "$0")"
. ../turns.sh
turns=${1:-3}
program=$PWD/../../crates/biropuve/out/biropuve
folder=$(mktemp -d)
trap 'rm -rf "$folder"' EXIT
rustc --edition 2021 -O -o "$folder/plain" plain.rs

head='cassandra-script 1\nring -3000000000000000000 0 3000000000000000000\nrf 3\nrun'

# a put, a settling, a get and a settling in turns; ten rows to a partition
write_script() {
    awk -v lines="$1" -v head="$head" 'BEGIN {
        print head
        for (i = 0; i < lines; i += 4) {
            key = "k" int(i / 40)
            print "put " (i / 4) % 3 " QUORUM " key " r" (i / 4) % 10 " " i " v" i
            print "settle 1000"
            print "get " (i / 4 + 1) % 3 " QUORUM " key
            print "settle 1000"
        }
    }'
}

# puts that wait, 1,000 at each node, which is nearly as many as a node takes, and then one settling over all their messages
write_backlog() {
    awk -v lines="$1" -v head="$head" 'BEGIN {
        print head
        for (i = 0; i < lines; i++) {
            print "put " i % 3 " QUORUM k" int(i / 10) " r" i % 10 " " i " v" i
            if (i % 3000 == 2999 || i == lines - 1) print "settle 12000"
        }
    }'
}

instructions() {
    valgrind --tool=callgrind --callgrind-out-file=/dev/null "$1" script < "$folder/script" 2>&1 >/dev/null |
        awk '/Collected/ { print $4 }'
}

for kind in write_script write_backlog; do
    for count in 25000 50000 100000 200000; do
        "$kind" "$count" > "$folder/script"
        proved=$(least "$program" "$folder/script" "$folder/answers")
        plain=$(least "$folder/plain" "$folder/script" "$folder/plain_answers")
        cmp "$folder/answers" "$folder/plain_answers"
        awk -v kind="${kind#write_}" -v n="$count" -v t="$proved" -v p="$plain" 'BEGIN {
            printf "%-7s %6d lines: %8.1f ms, %6.2f us each, %5.3f us each by log2 n; plain %8.1f ms; ratio of times %.2f\n",
                kind, n, t / 1000, t / n, t / n / (log(n) / log(2)), p / 1000, t / p }'
    done
done

if command -v valgrind > /dev/null; then
    write_script 8000 > "$folder/script"
    awk -v t="$(instructions "$program")" -v p="$(instructions "$folder/plain")" 'BEGIN {
        printf "script    8000 lines: %d million instructions; plain %d million; ratio %.2f\n", t / 1e6, p / 1e6, t / p }'
fi
