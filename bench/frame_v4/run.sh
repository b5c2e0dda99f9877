#!/usr/bin/env bash
# Bytes a second of the proved framer and of a plain one, over the same stream: run.sh [FRAMES [PIECE_LENGTH]..]
# The two run in turn, several times, and the fastest turn of each counts. Needs rt and rustc on the path, and proves
# protocol_bench first, where that was not done yet.
set -euo pipefail
here=$(cd "$(dirname "$0")" && pwd)
crate=$here/../../crates/protocol_bench
frames=${1:-1000000}
shift || true
pieces=("$@")
if [ ${#pieces[@]} -eq 0 ]; then
    pieces=(4096 65536 1048576)
fi

(cd "$crate" && rt run >/dev/null 2>&1)
proved=$crate/out/protocol_bench
work=$(mktemp -d)
trap 'rm -rf "$work"' EXIT
plain=$work/plain
rustc -O --edition 2021 -o "$plain" "$here/plain.rs"

for piece in "${pieces[@]}"; do
    : >"$work/proved.out"
    : >"$work/plain.out"
    for _ in 1 2 3; do
        "$proved" frames "$frames" "$piece" >>"$work/proved.out"
        "$plain" "$frames" "$piece" >>"$work/plain.out"
    done
    if ! cmp -s <(grep '^frames' "$work/proved.out") <(grep '^frames' "$work/plain.out"); then
        echo "the two programs read different frames at pieces of $piece bytes" >&2
        exit 1
    fi
    awk -v piece="$piece" -v frames="$frames" '
        /^bytes/ {
            bytes = $2 + 0
            nanoseconds = $4 + 0
            if (!(FILENAME in least) || nanoseconds < least[FILENAME]) least[FILENAME] = nanoseconds
        }
        END {
            ours = bytes / least[ARGV[1]]
            theirs = bytes / least[ARGV[2]]
            printf "%d frames in pieces of %d bytes: proved %.0f bytes/s, plain %.0f bytes/s, ratio %.2f\n",
                frames, piece, ours * 1e9, theirs * 1e9, ours / theirs
        }' "$work/proved.out" "$work/plain.out"
done
