#!/usr/bin/env bash
# Audits a database of 16,384 blocks and 200,000 handles with 1, 2 and 4 workers, and tells the seconds of
# each: three runs, and beside them a `get config`, which only opens the same rows.
set -eu
top=$(cd "$(dirname "$0")/.." && pwd)
program=${1:-$top/ipam}
work=$(mktemp -d)
trap 'rm -rf "$work"' EXIT
export IPAM_DB=$work/ipam.db
python3 "$top/bench/audit_load.py" "$IPAM_DB"
echo "database: $(wc -c <"$IPAM_DB") bytes, $(nproc) processors"
seconds() {
    local start end
    start=$(date +%s.%N)
    "$program" "$@" >"$work/said"
    end=$(date +%s.%N)
    awk -v a="$start" -v b="$end" 'BEGIN { printf " %.2f", b - a }'
}
for words in "get config" "audit 1" "audit 2" "audit 4"; do
    printf '%s:' "$words"
    for _ in 1 2 3; do
        # shellcheck disable=SC2086
        seconds $words
    done
    echo " s; $(tail -n 1 "$work/said")"
done
