#!/usr/bin/env bash
# Microseconds a request of a conversation of many EXECUTEs (an INSERT that was prepared, with five values), over a link in memory,
# through `serve_connection` and a desk over a cluster of one node; beside it the same steps of a node (it is asked, and then looked at
# for the answer) without session and link: run.sh [COUNT [TURNS]], after `rt run` in crates/protocol_bench built the program.
# Both are done in turns, and the fastest turn of each counts. The conversation may take 3 us a request more.
set -euo pipefail
here=$(cd "$(dirname "$0")" && pwd)
program=$here/../../crates/protocol_bench/out/protocol_bench
count=${1:-10000}
turns=${2:-9}

"$program" conversation "$count" "$turns" | awk '
    /^acknowledged/ {
        # Each request was acknowledged on both ways.
        if ($2 + 0 != '"$count"' || $5 + 0 != '"$count"') { print "not all was acknowledged: " $0; exit 1 }
        print
    }
    /^requests/ {
        n = $2 + 0
        a = $4 / n / 1e3
        b = $7 / n / 1e3
        printf "a request of a conversation: %.2f us, stepped directly: %.2f us, %.2f us more\n", a, b, a - b
    }'
