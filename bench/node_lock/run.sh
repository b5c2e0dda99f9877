#!/usr/bin/env bash
# Nanoseconds a step of an adding state under the node lock, beside the same under a mutex of Rust's standard library with
# the same history pushed under it, by 1, 4 and 16 threads. The two run in turn, several times, and the fastest turn of
# each counts. One thread makes fewer steps, so that a turn fits a time slice of a machine that does other work too.
# Needs rt and rustc on the path, and proves node_lock_bench first, where that was not done yet.
set -euo pipefail
here=$(cd "$(dirname "$0")" && pwd)
crate=$here/../../crates/node_lock_bench

(cd "$crate" && rt run >/dev/null 2>&1)
proved=$crate/out/node_lock_bench
work=$(mktemp -d)
trap 'rm -rf "$work"' EXIT
plain=$work/plain
rustc -O --edition 2021 -o "$plain" "$here/plain.rs"

for run in "1 40000" "4 100000" "16 25000"; do
    read -r threads steps <<<"$run"
    : >"$work/proved.out"
    : >"$work/plain.out"
    for _ in 1 2 3 4 5; do
        "$proved" "$threads" "$steps" >>"$work/proved.out"
        "$plain" "$threads" "$steps" >>"$work/plain.out"
    done
    if ! cmp -s <(grep steps "$work/proved.out") <(grep steps "$work/plain.out"); then
        echo "the two programs made different numbers of steps with $threads threads" >&2
        exit 1
    fi
    awk -v threads="$threads" -v steps=$((threads * steps)) '
        /^nanoseconds/ {
            if (!(FILENAME in least) || $2 + 0 < least[FILENAME]) least[FILENAME] = $2 + 0
        }
        END {
            ours = least[ARGV[1]] / steps
            theirs = least[ARGV[2]] / steps
            printf "%d threads: lock %.0f ns a step, mutex %.0f ns, ratio %.2f\n", threads, ours, theirs, ours / theirs
        }' "$work/proved.out" "$work/plain.out"
done
