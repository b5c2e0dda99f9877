#!/usr/bin/env bash
# Statements a second of the proved parser and of a plain one, over the same statements: run.sh [ROUNDS]
# The two run in turn, several times, and the fastest turn of each counts. Needs rt and rustc on the path, and proves
# protocol_bench first, where that was not done yet.
set -euo pipefail
here=$(cd "$(dirname "$0")" && pwd)
crate=$here/../../crates/protocol_bench
rounds=${1:-20000}

(cd "$crate" && rt run >/dev/null 2>&1)
proved=$crate/out/protocol_bench
work=$(mktemp -d)
trap 'rm -rf "$work"' EXIT
plain=$work/plain
rustc -O --edition 2021 -o "$plain" "$here/plain.rs"

for _ in 1 2 3; do
    "$proved" statements "$rounds" >>"$work/proved.out"
    "$plain" "$rounds" >>"$work/plain.out"
done
if ! cmp -s <(grep '^statements' "$work/proved.out") <(grep '^statements' "$work/plain.out"); then
    echo "the two programs read different statements" >&2
    exit 1
fi
awk '
    /^statements/ { statements = $2 + 0 }
    /^rounds/ {
        nanoseconds = $4 + 0
        if (!(FILENAME in least) || nanoseconds < least[FILENAME]) least[FILENAME] = nanoseconds
    }
    END {
        ours = statements / least[ARGV[1]]
        theirs = statements / least[ARGV[2]]
        printf "proved %.0f statements/s, plain %.0f statements/s, ratio %.2f\n", ours * 1e9, theirs * 1e9, ours / theirs
    }' "$work/proved.out" "$work/plain.out"
