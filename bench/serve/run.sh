#!/usr/bin/env bash
# Requests a second of served nodes, beside etcd, PostgreSQL and Redis on loopback and beside plain syncs, all on the disk of one folder,
# as one table: see load.py. Each system syncs a write before it acknowledges it.
# Usage: run.sh [TURNS [SECONDS [FOLDER [PORT [SYSTEM..]]]]]. The program is $BIROPUVE, or the one that was built in crates/biropuve.
# Needs rustc, and Debian's packages etcd-server, postgresql and redis-server, none of which has to run already.
set -euo pipefail
here=$(cd "$(dirname "$0")" && pwd)
turns=${1:-3}
seconds=${2:-3}
folder=${3:-}
port=${4:-9042}
work=$(mktemp -d)
trap 'rm -rf "$work"' EXIT
# The user of PostgreSQL has to come through.
chmod 711 "$work"
rustc --edition 2021 -O -o "$work/load" "$here/load.rs"
if [ -z "$folder" ]; then
    folder=$work
fi
mkdir -p "$folder"
nice -n 5 python3 "$here/load.py" "$work/load" "$folder" "$turns" "$seconds" "$port" "${@:5}"
