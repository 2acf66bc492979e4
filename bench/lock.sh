#!/usr/bin/env bash
# Takes a million turns of an empty step, shared among 1, 4 and 16 threads, through a turn lock, and through a mutex
# of Rust's std. It tells the time of all and how many turns were made.
set -eu
top=$(cd "$(dirname "$0")/.." && pwd)
turns=${1:-1000000}
work=$(mktemp -d)
trap 'rm -rf "$work"' EXIT
rustc -O -o "$work/mutex" "$top/bench/mutex.rs"
program=$("$top/bench/built.sh" ipam_bench)
for threads in 1 4 16; do
    echo "turn lock, $threads threads:"
    echo "turn-lock $threads $((turns / threads))" | "$program"
done
for threads in 1 4 16; do
    echo "mutex, $threads threads:"
    "$work/mutex" "$threads" $((turns / threads))
done
