#!/usr/bin/env bash
# Times CNI calls whose configuration has 1,048,576 bytes, beside Python's json.loads.
set -eu
top=$(cd "$(dirname "$0")/.." && pwd)
program=$("$top/bench/program.sh")
exec python3 "$top/bench/look.py" "$program" "$@"
