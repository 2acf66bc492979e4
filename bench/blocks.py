#!/usr/bin/env python3
"""Reads and prints a block of 4,096 held addresses, each of a handle of its own and all of one with seven pairs, and
handles with counts in 16,384 blocks and in 65,536.

    bench/blocks.py PROGRAM [COUNT]
"""
import ipaddress
import sys

from bases import Block, bare_lines, text
from measured import Checks, numbers_of

KEYS = ("app", "namespace", "node", "pod", "timestamp", "type", "zone")
FIRST = ipaddress.IPv4Address("10.0.0.0")


def block_row(handles, secondary):
    """A block of 4,096 held addresses."""
    block = Block(0, 20, "a", 4096, handles, "n", secondary)
    return f"block/{block.cidr}", 1, text(block.body())


def handle_row(count):
    """A handle with one address in each of so many blocks."""
    counts = {f"{FIRST + 64 * place}/26": 1 for place in range(count)}
    return "handle/n.c1", 1, text({"block": counts, "handleID": "n.c1"})


def tell(program, checks, name, row, often):
    line = bare_lines([row])
    sums, (reading, printing) = numbers_of(program, f"read {often}\n{line}", f"print {often}\n{line}")
    checks.same(name, sums, [often, often * len(row[2])])
    print(f"{name:<36}{len(row[2]):>9} bytes{reading / often / 1e6:>10.3f} ms read"
          f"{printing / often / 1e6:>10.3f} ms printed", flush=True)


def main():
    program, checks = sys.argv[1], Checks()
    often = int(sys.argv[2]) if len(sys.argv) > 2 else 100
    shared = {key: "a value of some length" for key in KEYS}
    tell(program, checks, "a block of 4,096 handles", block_row(4096, {}), often)
    tell(program, checks, "a block of one handle with 7 pairs", block_row(1, shared), often)
    for count in (16_384, 65_536):
        tell(program, checks, f"a handle in {count:,} blocks", handle_row(count), max(1, often // 20))
    checks.end()


main()
