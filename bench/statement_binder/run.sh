#!/usr/bin/env bash
# Statements a second that the proved binder and a plain one fill, prepared once: run.sh [ROUNDS]
# The two run in turn, several times, and the fastest turn of each counts. Needs rt and rustc on the path, and proves
# protocol_bench first, where that was not done yet.
set -euo pipefail
here=$(cd "$(dirname "$0")" && pwd)
crate=$here/../../crates/protocol_bench
rounds=${1:-1000000}

(cd "$crate" && rt run >/dev/null 2>&1)
proved=$crate/out/protocol_bench
work=$(mktemp -d)
trap 'rm -rf "$work"' EXIT
plain=$work/plain
rustc -O --edition 2021 -o "$plain" "$here/plain.rs"

for _ in 1 2 3; do
    "$proved" bindings "$rounds" >>"$work/proved.out"
    "$plain" "$rounds" >>"$work/plain.out"
done
if ! cmp -s <(grep '^changes' "$work/proved.out") <(grep '^changes' "$work/plain.out"); then
    echo "the two programs made different changes" >&2
    exit 1
fi
awk '
    /^rounds/ {
        rounds = $2 + 0; nanoseconds = $4 + 0
        if (!(FILENAME in least) || nanoseconds < least[FILENAME]) least[FILENAME] = nanoseconds
    }
    END {
        ours = rounds / least[ARGV[1]]
        theirs = rounds / least[ARGV[2]]
        printf "proved %.0f statements/s, plain %.0f statements/s, ratio %.2f\n", ours * 1e9, theirs * 1e9, ours / theirs
    }' "$work/proved.out" "$work/plain.out"
