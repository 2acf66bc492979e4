#!/usr/bin/env python3
"""Asks ten million times for one of 1,000 handles and of 100,000, and creates as many in each order of their keys.

    bench/store.py PROGRAM [GETS] [ROWS]

`create` reads the rows too, so what it takes is told less what reading alone takes.
"""
import random
import sys

from bases import bare_lines, text
from measured import Checks, numbers_of

# The revision before that of the first row.
COUNTER = 1 << 32


def rows_of(count):
    """So many handles, each with one address in one block."""
    ids = [f"n.{number:06}" for number in range(count)]
    return [(f"handle/{one}", 1, text({"block": {"10.0.0.0/26": 1}, "handleID": one})) for one in ids]


def tell_gets(program, checks, rows, gets):
    often = max(1, gets // len(rows))
    sums, (spent,) = numbers_of(program, f"get {often}\n{bare_lines(rows)}")
    revisions = range(COUNTER + 1, COUNTER + len(rows) + 1)
    checks.same(f"{len(rows)} rows, get", sums, [often * sum(revisions)])
    print(f"{len(rows):>8} rows, get{'':<20}{spent / often / len(rows):>8.0f} ns", flush=True)


def tell_creates(program, checks, rows, name):
    often = max(1, 100_000 // len(rows))
    lines = bare_lines(rows)
    sums, (reading, creating) = numbers_of(program, f"read {often}\n{lines}", f"create {often}\n{lines}")
    checks.same(f"{len(rows)} rows, {name}", sums, [often * len(rows)] * 2)
    each = (creating - reading) / often / len(rows)
    print(f"{len(rows):>8} rows, create, {name:<12}{each:>12.0f} ns", flush=True)


def main():
    program, checks = sys.argv[1], Checks()
    gets = int(sys.argv[2]) if len(sys.argv) > 2 else 10_000_000
    most = int(sys.argv[3]) if len(sys.argv) > 3 else 100_000
    counts = (1_000, most)
    for count in counts:
        tell_gets(program, checks, rows_of(count), gets)
    for count in counts:
        rows = rows_of(count)
        tell_creates(program, checks, rows, "ascending")
        tell_creates(program, checks, rows[::-1], "descending")
        random.Random(1).shuffle(rows)
        tell_creates(program, checks, rows, "random")
    checks.end()


main()
