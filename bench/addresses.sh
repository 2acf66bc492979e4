#!/usr/bin/env bash
# Reads a million mixed addresses, and prints them, beside Rust's std::net on the same addresses. Of each it tells
# the time and what was computed: a sum of what was read, and the bytes that were printed.
set -eu
top=$(cd "$(dirname "$0")/.." && pwd)
count=${1:-1000000}
work=$(mktemp -d)
trap 'rm -rf "$work"' EXIT
rustc -O -o "$work/addresses" "$top/bench/addresses.rs"
"$work/addresses" "$count" >"$work/lines"
program=$("$top/bench/built.sh" ipam_bench)
echo "Rattle, read and printed:"
for word in read-addresses print-addresses; do
    { echo "$word 1"; cat "$work/lines"; } | "$program"
done
echo "Rust, read and printed:"
"$work/addresses" <"$work/lines"
