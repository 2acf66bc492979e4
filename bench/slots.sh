#!/usr/bin/env bash
# Asks a million times for the next slot with room past 16,384 reserved CIDRs: of one slot each, and of 2^58 slots
# each. The two times should be alike.
set -eu
top=$(cd "$(dirname "$0")/.." && pwd)
exec python3 "$top/bench/slots.py" "$("$top/bench/built.sh" ipam_bench)" "$@"
