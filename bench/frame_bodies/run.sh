#!/usr/bin/env bash
# Bodies a second of the proved codecs and of plain ones, over the same bodies: run.sh [COUNT]
# The two run in turn, several times, and the fastest turn of each counts. Needs rt and rustc on the path, and proves
# protocol_bench first, where that was not done yet.
set -euo pipefail
here=$(cd "$(dirname "$0")" && pwd)
crate=$here/../../crates/protocol_bench
count=${1:-1000000}

(cd "$crate" && rt run >/dev/null 2>&1)
proved=$crate/out/protocol_bench
work=$(mktemp -d)
trap 'rm -rf "$work"' EXIT
plain=$work/plain
rustc -O --edition 2021 -A dead_code -o "$plain" "$here/plain.rs"

: >"$work/proved.out"
: >"$work/plain.out"
for _ in 1 2 3; do
    "$proved" bodies "$count" >>"$work/proved.out"
    "$plain" "$count" >>"$work/plain.out"
done
if ! cmp -s <(grep ':' "$work/proved.out") <(grep ':' "$work/plain.out"); then
    echo "the two programs decoded or encoded something else" >&2
    exit 1
fi
awk -v count="$count" '
    / nanoseconds / {
        key = FILENAME " " $1
        if (!(key in least) || $3 + 0 < least[key]) least[key] = $3 + 0
    }
    END {
        split("query execute rows", names)
        for (i = 1; i <= 3; i++) {
            done = names[i] == "rows" ? int(count / 100) : count
            ours = done / least[ARGV[1] " " names[i]]
            theirs = done / least[ARGV[2] " " names[i]]
            printf "%s: proved %.0f bodies/s, plain %.0f bodies/s, ratio %.2f\n", names[i], ours * 1e9, theirs * 1e9, ours / theirs
        }
    }' "$work/proved.out" "$work/plain.out"
