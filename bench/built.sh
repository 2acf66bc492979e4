#!/usr/bin/env bash
# Builds the program of this crate, and prints its path. It is run once, with no input: tests would leave files here.
set -eu
top=$(cd "$(dirname "$0")/.." && pwd)
(cd "$top/crates/$1" && rt run </dev/null >/dev/null 2>&1)
echo "$top/crates/$1/out/$1"
