#!/usr/bin/env bash
# Commits of one change by the list replica over a folder, beside the same four calls of a plain C program on a file in the same
# folder, in turns; after each turn a second process loads the replica again and compares what it finds with what was committed.
# Then commits that renew rows over memory, in order and scattered, beside more and more rows, and the same renewals in ordered
# maps of plain Rust. Then loads of logs of nearly 64 MiB, beside a C program
# that reads the file and decodes its entries plainly, in turns.
# Usage: run.sh FOLDER [COUNT [TURNS [LOADS]]], after `rt run` in crates/storage_bench built the program.
set -euo pipefail
# All keep the memory that they free, as a process does that holds more: else the times tell how often the C library gives memory back.
export MALLOC_TRIM_THRESHOLD_=1000000000 MALLOC_MMAP_THRESHOLD_=33554432
cd "$(dirname "$0")"
folder=${1:?a folder on the disk to measure}
count=${2:-300}
turns=${3:-40}
loads=${4:-5}
program=../../crates/storage_bench/out/storage_bench
work=$(mktemp -d)
made=$(mktemp -d -p /dev/shm)
trap 'rm -rf "$folder/log" "$folder/plain" "$work" "$made"' EXIT
cc -O2 -o "$work/plain" ../gate_log/plain.c
cc -O2 -o "$work/decode" decode.c
rustc -O --edition 2021 -o "$work/renew" renew.rs
mkdir -p "$folder"

# Loads the replica again in a second process, which compares so many rows with what it finds.
read_again() {
    local rows=$1 found
    found=$("$program" replicas read "$folder/log" "$rows" "$2")
    [ "$found" = "$rows rows in $(((rows + 999) / 1000)) partitions, as they were committed" ] || { echo "found: $found"; exit 1; }
    echo "loaded again by a second process: $found"
}

# Of lines of two times, ours and the plain one, the least of each and their ratio, and the middle one of the lines' ratios.
tell() {
    awk '{ print $1, $2, $1 / $2 }' "$1" | sort -g -k 3 | awk -v unit="$2" '
        NR == 1 || $1 < a { a = $1 }
        NR == 1 || $2 < b { b = $2 }
        { r[NR] = $3 }
        END { printf "least %.4g %s, plain C %.4g %s, times %.2f; in the middle one of %d turns times %.2f\n", a, unit, b, unit, a / b, NR, r[int((NR + 1) / 2)] }'
}

commits() {
    local ours theirs
    for _ in $(seq "$turns"); do
        rm -rf "$folder/log"
        ours=$("$program" replicas append "$folder/log" "$count")
        theirs=$("$work/plain" "$folder/plain" "$count")
        awk -v n="$count" -v a="$ours" -v b="$theirs" 'BEGIN { print a / n / 1e3, b / n }' >>"$work/commits"
        read_again "$count" 2 >"$work/found"
    done
    cat "$work/found"
    if "$program" replicas read "$folder/log" $((count + 1)) >/dev/null 2>&1; then
        echo "a row that was not committed is not missed"
        exit 1
    fi
    echo "a commit over a folder: $(tell "$work/commits" us)"
}

# The middle one of 1,000 renewals, each so many rows behind the one before it; of several turns, the least.
renewals() {
    local rows=$1 step=$2 order=$3 ours theirs
    ours=$(for _ in $(seq "$loads"); do "$program" replicas memory "$rows" 1000 "$step"; done | sort -n | head -1)
    theirs=$(for _ in $(seq "$loads"); do "$work/renew" "$rows" 1000 "$step"; done | sort -n | head -1)
    awk -v r="$rows" -v o="$order" -v a="$ours" -v b="$theirs" 'BEGIN {
        printf "a commit over memory beside %7d rows, %s: %.2f us, in plain maps %.2f us\n", r, o, a / 1e3, b / 1e3 }'
}

# The milliseconds of a processor that a command took.
busy() {
    local TIMEFORMAT='%U %S'
    { time "$@" >/dev/null; } 2>&1 | awk '{ print ($1 + $2) * 1e3 }'
}

# A log of so many rows, so many to an entry, each with a value of so many times eight bytes. It is made in memory, and put into
# the folder as it is.
log() {
    local rows=$1 each=$2 width=$3 ours theirs
    rm -rf "$folder/log" "$work/loads" "$work/busy"
    "$program" replicas append "$made/log" "$rows" "$each" "$width" >/dev/null
    mv "$made/log" "$folder/log"
    sync "$folder/log/0"
    read_again "$rows" "$width"
    for _ in $(seq "$loads"); do
        ours=$("$program" replicas load "$folder/log")
        theirs=$("$work/decode" "$folder/log/0")
        [ "${theirs#* }" = "$rows" ] || { echo "plainly decoded: ${theirs#* } changes"; exit 1; }
        awk -v a="$ours" -v b="${theirs% *}" 'BEGIN { print a / 1e6, b / 1e3 }' >>"$work/loads"
        echo "$(busy "$program" replicas load "$folder/log") $(busy "$work/decode" "$folder/log/0")" >>"$work/busy"
    done
    echo "a load of $(stat -c %s "$folder/log/0") bytes, entries of $each changes, values of $((8 * width)) bytes: $(tell "$work/loads" ms)"
    echo "the time of a processor that both programs took from start to end: $(tell "$work/busy" ms)"
}

commits
for rows in 1000 100000 1000000; do renewals "$rows" 1 "in order"; done
for rows in 1000 100000 1000000; do renewals "$rows" 2654435761 scattered; done
log 639000 1 2
log 1197000 1000 2
log 64000 100 125
