#!/usr/bin/env bash
# Times the choice of an address over 16, 1,000 and 16,000 blocks, for each rank and for nothing.
set -eu
top=$(cd "$(dirname "$0")/.." && pwd)
exec python3 "$top/bench/choice.py" "$("$top/bench/built.sh" ipam_bench)" "$@"
