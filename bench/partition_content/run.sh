#!/usr/bin/env bash
# Cells applied one by one to what is kept of one partition, ten to a row: how the time grows with their number. Where it
# grows as n log n the last column stays about the same. Then as many cells to one row.
# Usage: run.sh [TURNS], after `rt run` in crates/storage_bench built the program.
set -euo pipefail
cd "$(dirname "$0")"
turns=${1:-3}
program=../../crates/storage_bench/out/storage_bench

# The least microseconds of some turns.
best() {
    local best= micros
    for turn in $(seq "$turns"); do
        micros=$("$program" contents "$1" "$2")
        if [ -z "$best" ] || [ "$micros" -lt "$best" ]; then best=$micros; fi
    done
    echo "$best"
}

for count in 25000 50000 100000 200000; do
    awk -v n="$count" -v t="$(best time "$count")" 'BEGIN {
        printf "%6d cells in %6d rows: %7.1f ms, %6.2f us each, %5.3f us each by log2 n\n", n, n / 10, t / 1000, t / n, t / n / (log(n) / log(2)) }'
done
awk -v n=100000 -v t="$(best row 100000)" 'BEGIN { printf "%6d cells in one row: %7.1f ms, %6.2f us each\n", n, t / 1000, t / n }'
