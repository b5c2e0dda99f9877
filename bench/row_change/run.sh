#!/usr/bin/env bash
# Nanoseconds of the proved codec and of a plain one, to decode and to encode the same mutations of 1, 10 and 1,000 cells
# with values of 16 bytes, and of 100: run.sh [CELLS]
# The two run in turn, several times, and the fastest turn of each counts; CELLS are decoded in a turn in all. Needs rt and
# rustc on the path, and proves storage_bench first, where that was not done yet.
# Both keep the memory that they free, as in a process that holds more: else the times of 1,000 cells tell how often the C
# library gives the end of an empty heap back.
set -euo pipefail
export MALLOC_TRIM_THRESHOLD_=1000000000 MALLOC_MMAP_THRESHOLD_=33554432
here=$(cd "$(dirname "$0")" && pwd)
crate=$here/../../crates/storage_bench
cells=${1:-1000000}

(cd "$crate" && rt run >/dev/null 2>&1)
proved=$crate/out/storage_bench
work=$(mktemp -d)
trap 'rm -rf "$work"' EXIT
plain=$work/plain
rustc -O --edition 2024 -A dead_code -o "$plain" "$here/plain.rs"

for value in 16 100; do
    for count in 1 10 1000; do
        repeats=$((cells / count))
        : >"$work/proved.out"
        : >"$work/plain.out"
        for _ in 1 2 3; do
            "$proved" mutations "$count" "$value" "$repeats" >>"$work/proved.out"
            "$plain" "$count" "$value" "$repeats" >>"$work/plain.out"
        done
        if ! cmp -s <(grep -v '^decoding' "$work/proved.out") <(grep -v '^decoding' "$work/plain.out"); then
            echo "the two programs read different mutations of $count cells" >&2
            exit 1
        fi
        awk -v count="$count" -v value="$value" -v repeats="$repeats" '
            /^decoding/ {
                for (i = 2; i <= 4; i += 2) {
                    nanoseconds = $i + 0
                    key = FILENAME SUBSEP i
                    if (!(key in least) || nanoseconds < least[key]) least[key] = nanoseconds
                }
            }
            END {
                split("decode encode", what, " ")
                for (i = 2; i <= 4; i += 2) {
                    ours = least[ARGV[1], i] / repeats
                    theirs = least[ARGV[2], i] / repeats
                    printf "%s %4d cells with %3d bytes each: proved %.0f ns, plain %.0f ns, ratio %.2f\n",
                        what[i / 2], count, value, ours, theirs, theirs / ours
                }
            }' "$work/proved.out" "$work/plain.out"
    done
done
