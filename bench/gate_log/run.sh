#!/usr/bin/env bash
# Appends of 100 bytes a second by the log over a folder, beside the same four calls of a plain C program on a file in
# the same folder, in turns; a second process then reads the log again. Then a load of a log of 63 entries of 1 MiB,
# beside reading its file, in turns.
# Usage: run.sh FOLDER [COUNT [TURNS]], after `rt run` in crates/storage_bench built the program.
set -euo pipefail
cd "$(dirname "$0")"
folder=${1:?a folder on the disk to measure}
count=${2:-2000}
turns=${3:-5}
program=../../crates/storage_bench/out/storage_bench
plain=$(mktemp)
plain_load=$(mktemp)
cc -O2 -o "$plain" plain.c
cc -O2 -o "$plain_load" load.c
mkdir -p "$folder"
ours=0 theirs=0
for turn in $(seq "$turns"); do
    rm -rf "$folder/log"
    "$program" logs append "$folder/log" 0 >/dev/null
    ours=$((ours + $("$program" logs append "$folder/log" "$count")))
    theirs=$((theirs + $("$plain" "$folder/plain" "$count")))
    read_again=$("$program" logs read "$folder/log")
    [ "$read_again" = "$count entries, 0 of them wrong" ] || { echo "read again: $read_again"; exit 1; }
done
rm -rf "$folder/log" "$folder/plain"
awk -v n=$((count * turns)) -v a="$ours" -v b="$theirs" 'BEGIN {
    printf "log over a folder: %.0f appends/s\nplain C: %.0f appends/s\nratio: %.3f\n", n / a * 1e6, n / b * 1e6, b / a }'
echo "read again by a second process: $read_again"
"$program" logs fill "$folder/log" 63
ours=0 theirs=0
for turn in $(seq "$turns"); do
    loaded=$("$program" logs load "$folder/log")
    ours=$((ours + ${loaded%% *}))
    plainly=$("$plain_load" "$folder/log/0")
    theirs=$((theirs + ${plainly%% *}))
done
echo "loaded: entries and bytes ${loaded#* }"
awk -v n="$turns" -v a="$ours" -v b="$theirs" 'BEGIN {
    printf "load: %.1f ms\nreading the file: %.1f ms\ntimes: %.2f\n", a / n / 1e3, b / n / 1e3, a / b }'
rm -rf "$folder/log" "$plain" "$plain_load"
