#!/usr/bin/env bash
# ADD and DEL through the daemon, over one connection and over sixteen, by one node and by a node for each
# connection: calls a second, the median and the 99th percentile. First it uses a file in the folder for
# temporary files (TMPDIR) and times its sync, and then a file in memory. The words are how many addresses each
# run adds and deletes (2000), the port (9431) and a program (the one that ./ipam runs): so two programs can be
# compared at the same time of the same machine. With ROUNDS=10 in the environment all addresses are added and deleted
# ten times over. The client is compiled by rustc. With SYNC_MILLIS=4 in the
# environment each sync takes four milliseconds longer, as on a slower disk (bench/slow_sync.c, compiled by cc); then
# the file in memory is left out.
set -eu
top=$(cd "$(dirname "$0")/.." && pwd)
calls=${1:-2000}
port=${2:-9431}
program=${3:-$top/ipam}
work=$(mktemp -d)
memory=$(mktemp -d -p /dev/shm)
daemon=
finish() {
    if [ -n "$daemon" ]; then
        kill "$daemon" 2>/dev/null || true
        wait "$daemon" 2>/dev/null || true
        daemon=
    fi
}
trap 'finish; rm -rf "$work" "$memory"' EXIT
"$program" --version >/dev/null
rustc -O -o "$work/client" "$top/bench/daemon_client.rs"
folders=("$work" "$memory")
if [ -n "${SYNC_MILLIS:-}" ]; then
    cc -O2 -shared -fPIC -o "$work/slow_sync.so" "$top/bench/slow_sync.c"
    export LD_PRELOAD="$work/slow_sync.so" SYNC_MILLIS
    folders=("$work")
fi
for folder in "${folders[@]}"; do
    for shape in "1 1" "16 1" "16 16"; do
        rm -f "$folder"/ipam.db*
        IPAM_DB=$folder/ipam.db "$program" serve "127.0.0.1:$port" 16 >"$work/said" 2>"$work/log" &
        daemon=$!
        # shellcheck disable=SC2086
        "$work/client" "$port" "$folder" "$calls" $shape "${ROUNDS:-1}" || { cat "$work/said"; exit 1; }
        finish
    done
done
