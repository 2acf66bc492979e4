#!/usr/bin/env bash
# Prints the path of the program that ./ipam runs: the released one, where it is of these sources, else
# the one that is built here, once it is built.
set -eu
top=$(cd "$(dirname "$0")/.." && pwd)
"$top/ipam" --version >&2
if [ "$(cat "$top/out/released" 2>/dev/null)" = same ]; then
    echo "$top/release/ipam"
else
    echo "$top/crates/ipamd/out/ipamd"
fi
