#!/usr/bin/env bash
# Sixteen connections add, delete, check, collect and release affinities at random through the daemon for so
# many minutes (the first word, 3), and connect and disconnect at random. Six times on the way, and at the end,
# the rows of the file must agree with the replies. At the end the counts must agree with the owners too, by the
# program and by a second reader. The daemon's memory must not have grown by more than the rows, and no file
# descriptor and no thread may be left. The other words are the port (9433) and the seed of the random numbers (1).
set -eu
top=$(cd "$(dirname "$0")/.." && pwd)
work=$(mktemp -d)
trap 'rm -rf "$work"' EXIT
"$top/ipam" --version >/dev/null
python3 "$top/bench/soak_client.py" "$top/ipam" "$work" "${1:-3}" "${2:-9433}" "${3:-1}"
