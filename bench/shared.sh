#!/usr/bin/env bash
# Takes a million turns of ADDs and DELs over a keeper in memory: by a kept cluster alone, and by 1, 4 and 16
# passes of a shared one, each in a thread of its own.
set -eu
top=$(cd "$(dirname "$0")/.." && pwd)
turns=${1:-1000000}
program=$("$top/bench/built.sh" ipam_tests)
echo "kept, alone:"
printf '== shared\n%s\n%s\n' "kept 0" "take $turns" | "$program"
for passes in 1 4 16; do
    echo "shared, $passes passes:"
    printf '== shared\n%s\n' "turns $((passes - 1)) $((turns / passes))" | "$program"
done
