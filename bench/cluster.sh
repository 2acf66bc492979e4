#!/usr/bin/env bash
# A cluster of 5,000 nodes and 150,000 pods: how long the daemon takes to start and its memory, ADD and DEL beside
# those of an empty daemon in the same run, ADD and DEL while an operator runs `get` again and again, and the
# commands that read all rows. Then the commands over 262,144 rows. The words are how many nodes (5000), how many
# pods of each (30) and how many rows at the end (262144); BENCH_FOLDER has the files. Small numbers try the script.
set -eu
top=$(cd "$(dirname "$0")/.." && pwd)
program=${PROGRAM:-$("$top/bench/program.sh")}
exec python3 "$top/bench/cluster.py" "$program" "$@"
