#!/usr/bin/env bash
# Served nodes that are killed with SIGKILL at a random moment within SECONDS while clients write, again and again, each time in a new
# folder: each acknowledged write is there when the nodes are started again. kill.py tells more.
# Usage: kill.sh [TIMES [SECONDS [FOLDER [PORT]]]]. The program is $BIROPUVE, or the one that was built in crates/biropuve.
set -euo pipefail
cd "$(dirname "$0")"
times=${1:-1}
seconds=${2:-10}
folder=${3:-}
port=${4:-9042}
if [ -z "$folder" ]; then
    folder=$(mktemp -d)
    trap 'rm -rf "$folder"' EXIT
fi
mkdir -p "$folder"
told=$folder/told
: >"$told"
for time in $(seq "$times"); do
    echo "time $time"
    rm -rf "$folder/nodes"
    # Where something is lost, the folder of the nodes stays for a look, if it was named.
    nice -n 5 python3 kill.py "$folder/nodes" "$seconds" "$port" | tee -a "$told"
done
rm -rf "$folder/nodes"
awk -v times="$times" '/^acknowledged/ { a += $2; r += $4; l += $6 }
    END { printf "in %d times: acknowledged %d, read %d, lost %d\n", times, a, r, l }' "$told"
rm -f "$told"
