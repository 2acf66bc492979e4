#!/usr/bin/env bash
# Times the opening of 10,000 rows and of 262,144 by `play`, step by step.
set -eu
top=$(cd "$(dirname "$0")/.." && pwd)
program=$("$top/bench/program.sh")
exec python3 "$top/bench/open.py" "$program" "$@"
