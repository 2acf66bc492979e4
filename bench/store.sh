#!/usr/bin/env bash
# Asks ten million times for one of 1,000 rows and of 100,000, and creates 1,000 rows and 100,000 in each order of
# their keys.
set -eu
top=$(cd "$(dirname "$0")/.." && pwd)
exec python3 "$top/bench/store.py" "$("$top/bench/built.sh" ipam_bench)" "$@"
