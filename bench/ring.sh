#!/usr/bin/env bash
# What the ring of routes costs a daemon: the instructions of its two calls, beside those of the whole program,
# while one connection adds and deletes so many addresses (200). It counts and does not time, so other work on
# the machine changes nothing. It needs valgrind and rustc.
set -eu
top=$(cd "$(dirname "$0")/.." && pwd)
calls=${1:-200}
port=${2:-9433}
work=$(mktemp -d)
daemon=
finish() {
    if [ -n "$daemon" ]; then
        kill "$daemon" 2>/dev/null || true
        wait "$daemon" 2>/dev/null || true
        daemon=
    fi
}
trap 'finish; rm -rf "$work"' EXIT
rustc -O -o "$work/client" "$top/bench/daemon_client.rs"
IPAM_DB=$work/ipam.db valgrind --tool=callgrind --callgrind-out-file="$work/counted" \
    "$("$top/bench/program.sh")" serve "127.0.0.1:$port" 1 >"$work/said" 2>"$work/log" &
daemon=$!
"$work/client" "$port" "$work" "$calls" 1 1 1 >"$work/checked" || { cat "$work/said" "$work/checked"; exit 1; }
finish
callgrind_annotate --inclusive=yes --threshold=100 "$work/counted" | awk '
    { count = $1; gsub(",", "", count) }
    /PROGRAM TOTALS/ { whole = count }
    /ipam_shared::feed::(prepare|push) / { ring += count }
    END { printf "%d instructions, %d of them the ring: %.3f in 100\n", whole, ring, 100 * ring / whole }'
