#!/usr/bin/env bash
# Refuses memory to the program, one allocation at a time: to the first run of `play`, to a CNI ADD over a
# database file, and to a session of the daemon. Each run has to end as with all its memory, or to tell want
# of memory, which a session does by its end; behind the ADD, and behind the session, the rows have to be those
# behind a front part of what was asked, as the second allocator has them.
#
#   tools/checks/fail_alloc.sh [PROGRAM]     PROGRAM is release/ipam where none is given; it needs cc and python3
#
# FAIL_PARTS may name some of play, add and session, which are all tried where it is not set.
set -eu
top=$(cd "$(dirname "$(readlink -f "$0")")/../.." && pwd)
program=$(readlink -f "${1:-$top/release/ipam}")
place=$(mktemp -d)
trap 'rm -rf "$place"' EXIT
wrong=0

# the allocations of the C library, of which the one of the number FAIL_ALLOC is refused; the file REACHED is
# made as that happens. Where the file REFUSED is named, the number stands in it, and is counted down
cat >"$place/refuse.c" <<'C'
#include <fcntl.h>
#include <stdlib.h>
#include <sys/mman.h>
#include <unistd.h>

extern void *__libc_malloc(size_t);
extern void *__libc_realloc(void *, size_t);
static long left = -1;
static long *shared;

__attribute__((constructor)) static void share(void) {
    const char *name = getenv("REFUSED");
    int file = name ? open(name, O_RDWR | O_CLOEXEC) : -1;
    if (file >= 0) {
        void *found = mmap(0, sizeof(long), PROT_READ | PROT_WRITE, MAP_SHARED, file, 0);
        close(file);
        shared = found == MAP_FAILED ? 0 : found;
    }
}

static int is_refused(void) {
    if (shared)
        return *shared > 0 && __atomic_sub_fetch(shared, 1, __ATOMIC_SEQ_CST) == 0;
    if (left == -1) {
        const char *text = getenv("FAIL_ALLOC");
        left = text ? atol(text) : 0;
    }
    if (left <= 0 || --left)
        return 0;
    const char *reached = getenv("REACHED");
    if (reached)
        close(creat(reached, 0600));
    return 1;
}

void *malloc(size_t size) { return is_refused() ? 0 : __libc_malloc(size); }
void *realloc(void *old, size_t size) { return is_refused() ? 0 : __libc_realloc(old, size); }
C
cc -O1 -shared -fPIC -o "$place/refuse.so" "$place/refuse.c"

# runs the program with these words, of which this allocation is refused; whether it was reached
refuse() {
    status=0
    rm -f "$place/reached"
    LD_PRELOAD=$place/refuse.so FAIL_ALLOC=$1 REACHED=$place/reached \
        "$program" "${@:2}" >"$place/found" 2>"$place/errors" || status=$?
    [ -f "$place/reached" ]
}

tell_wrong() {
    wrong=$((wrong + 1))
    echo "$1, allocation $2: status $status"
    head -c 600 "$place/found"
}

# whether what was found is whole lines of the front of the file
is_front() {
    head -c "$(stat -c %s "$place/found")" "$1" | cmp -s - "$place/found" &&
        [ -z "$(tail -c 1 "$place/found" | tr -d '\n')" ]
}

try_play() {
    local number=1 whole=0 none=0
    "$program" play <"$top/examples/first-run.script" >"$place/journal"
    while refuse "$number" play <"$top/examples/first-run.script"; do
        case $status in
        0) if cmp -s "$place/found" "$place/journal"; then whole=$((whole + 1)); else tell_wrong play "$number"; fi ;;
        6) if is_front "$place/journal"; then none=$((none + 1)); else tell_wrong play "$number"; fi ;;
        *) tell_wrong play "$number" ;;
        esac
        number=$((number + 1))
    done
    echo "play: $((number - 1)) allocations: $none tell want of memory, $whole end as with all memory"
}

# whether the rows are those behind so many writes as the places say
rows_are() {
    "$program" get >"$place/rows"
    for state in "$@"; do
        ! cmp -s "$place/rows" "$state" || return 0
    done
    return 1
}

# whether what was found is the ADD's own, or tells want of memory, and the rows belong to it
is_right_add() {
    case $status in
    0) cmp -s "$place/found" "$place/reply" && rows_are "$place/state.5" && whole=$((whole + 1)) ;;
    1) cmp -s "$place/found" "$place/memory" && rows_are "$place"/state.* && none=$((none + 1)) ;;
    6) [ ! -s "$place/found" ] && rows_are "$place"/state.* && none=$((none + 1)) ;;
    *) return 1 ;;
    esac
}

try_add() {
    local number=1 whole=0 none=0
    export IPAM_DB=$place/rows.db CNI_COMMAND=ADD CNI_CONTAINERID=c1 CNI_NETNS=/x CNI_IFNAME=eth0
    python3 "$top/tools/tables/fault_table.py" --states "$place"
    while rm -f "$IPAM_DB"* && cp "$place/base.db" "$IPAM_DB" && refuse "$number" cni <"$place/conf"; do
        is_right_add || tell_wrong ADD "$number"
        number=$((number + 1))
    done
    echo "ADD: $((number - 1)) allocations: $none tell want of memory, $whole end as with all memory"
}

try_session() {
    python3 "$top/tools/checks/fail_session.py" "$program" "$place/refuse.so" "$place" || wrong=$((wrong + 1))
}

for part in ${FAIL_PARTS:-play add session}; do
    "try_$part"
done
[ "$wrong" = 0 ]
