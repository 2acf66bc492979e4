#!/usr/bin/env bash
# Sixteen clients add and delete addresses through the daemon. The script kills the daemon and starts it again
# on its file, so many times (the first word, 20). While it is down, the script compares the rows of the file
# with the replies: no answered ADD is lost, no address is given twice, and none that was deleted comes back.
# The other words are the port (9432) and the seed of the random numbers (1).
set -eu
top=$(cd "$(dirname "$0")/.." && pwd)
work=$(mktemp -d)
trap 'rm -rf "$work"' EXIT
"$top/ipam" --version >/dev/null
python3 "$top/bench/kill_client.py" "$top/ipam" "$work" "${1:-20}" "${2:-9432}" "${3:-1}"
