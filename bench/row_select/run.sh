#!/usr/bin/env bash
# Queries of ten rows from the middle of a partition on, half of them reversed: how the time of one grows with the cells held,
# one to a row. It should grow with the logarithm alone.
# Then merges of two contents of so many cells: equal ones, which are seen in one walk; ones of which the second has one cell
# more; and ones of which the second wins in each cell. The time should grow with n log n at most.
# Usage: run.sh [TURNS], after `rt run` in crates/storage_bench built the program.
set -euo pipefail
cd "$(dirname "$0")"
turns=${1:-3}
queries=100000
program=../../crates/storage_bench/out/storage_bench

# The least of the microseconds that some runs with these words write.
best() {
    for turn in $(seq "$turns"); do "$program" queries "$@"; done | sort -n | head -n 1
}

for cells in 1000 10000 100000 1000000; do
    awk -v n="$cells" -v q="$queries" -v t="$(best time "$cells" "$queries")" 'BEGIN {
        printf "%7d cells: %6.3f us a query, %5.3f us by log2 n\n", n, t / q, t / q / (log(n) / log(2)) }'
done
for kind in equal longer newer; do
    for cells in 1000 10000 100000 1000000; do
        awk -v n="$cells" -v k="$kind" -v t="$(best merge "$cells" "$kind")" 'BEGIN {
            printf "%7d %s cells: %7d us a merge, %6.4f us a cell by log2 n\n", n, k, t, t / n / (log(n) / log(2)) }'
    done
done
