#!/usr/bin/env bash
# Counts the work of calls, which other work on the machine does not change: instructions, page faults, syncs and
# system calls, in one run on the built program. The words name sections: plugin, client, daemon, blocks, reserved,
# frees, play, fill, opening, show, get, audit, backup. With none all of them run, one by one, in some ten minutes.
# PROGRAM names another program than the one that ./ipam runs, HOST_LOCAL Debian's host-local elsewhere than in
# /usr/lib/cni, ROWS how many rows the last four have (160001). It needs valgrind, strace, sqlite3 and time, and tells
# what it leaves out where one is lacking.
set -eu
top=$(cd "$(dirname "$0")/.." && pwd)
program=${PROGRAM:-$("$top/bench/program.sh")}
exec python3 "$top/bench/work.py" "$program" "${HOST_LOCAL:-/usr/lib/cni/host-local}" "$@"
