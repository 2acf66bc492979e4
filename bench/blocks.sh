#!/usr/bin/env bash
# Prints and reads a block of 4,096 held addresses, each of a handle of its own and all of one with seven pairs, and
# handles with counts in 16,384 blocks and in 65,536.
set -eu
top=$(cd "$(dirname "$0")/.." && pwd)
exec python3 "$top/bench/blocks.py" "$("$top/bench/built.sh" ipam_bench)" "$@"
