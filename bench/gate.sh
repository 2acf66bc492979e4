#!/usr/bin/env bash
# Runs the whole gate from nothing: `rt ci`, the wrong bodies that are tried by their functions, and the tables and
# scenarios that the program is asked. Prints the processor seconds of each crate.
set -u
cd "$(dirname "$0")/.." || exit 1
exec tools/gate_times.py sh -c 'rt ci --anew && tools/try_by_function && tools/ask_program'
