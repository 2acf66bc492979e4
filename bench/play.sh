#!/usr/bin/env bash
# Plays long scripts, and reports the entries a second and the most memory.
set -eu
top=$(cd "$(dirname "$0")/.." && pwd)
program=$("$top/bench/program.sh")
exec python3 "$top/bench/play.py" "$program" "$@"
