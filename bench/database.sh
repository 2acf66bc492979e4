#!/usr/bin/env bash
# Times `get` over a SQLite file of 0 to 100,000 rows, and puts of rows, beside SQLite's own programs.
set -eu
top=$(cd "$(dirname "$0")/.." && pwd)
program=$("$top/bench/program.sh")
exec python3 "$top/bench/database.py" "$program" "$@"
