#!/usr/bin/env bash
# Appends by a process that is killed with SIGKILL at a random moment, again and again: each entry that the process told
# as acknowledged is there when a second process reads the log.
# Usage: kill.sh FOLDER [COUNT [TURNS]], after `rt run` in crates/storage_bench built the program.
set -euo pipefail
cd "$(dirname "$0")"
folder=${1:?a folder on the disk to try}
count=${2:-10000}
turns=${3:-20}
program=$(realpath ../../crates/storage_bench/out/storage_bench)
mkdir -p "$folder"
told=$(mktemp)
for turn in $(seq "$turns"); do
    rm -rf "$folder/log"
    # A stop while a folder is formatted is outside the claim.
    "$program" logs append "$folder/log" 0 >/dev/null
    "$program" logs serve "$folder/log" "$count" >"$told" &
    pid=$!
    sleep "$((RANDOM % 4)).$(printf '%03d' $((RANDOM % 1000)))"
    kill -KILL "$pid" 2>/dev/null || true
    wait "$pid" 2>/dev/null || true
    # A line that was cut off tells nothing.
    acknowledged=$(wc -l <"$told")
    there=$("$program" logs read "$folder/log")
    echo "turn $turn: $acknowledged acknowledged, $there"
    [ "${there#* entries, }" = "0 of them wrong" ] || { echo "a wrong entry"; exit 1; }
    [ "${there%% *}" -ge "$acknowledged" ] || { echo "an acknowledged entry is lost"; exit 1; }
done
rm -rf "$folder/log" "$told"
echo "no acknowledged entry was lost in $turns turns"
