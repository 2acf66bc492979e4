#!/usr/bin/env python3
"""Asks a million times for the next slot with room past 16,384 reserved CIDRs: of one slot each, and of 2^58 slots
each. The two times should be alike.

    bench/slots.py PROGRAM [COUNT]

The first of these CIDRs in every 256 is a pool too, all of which is so reserved. A choice asks each pool in turn, and
claims the only slot of the last one.
"""
import ipaddress
import sys

from bases import bare_lines, text
from measured import Checks, numbers_of

FIRST = int(ipaddress.IPv6Address("2001:db8::"))
SLOT = 122
RESERVATIONS, CIDRS, POOLS = 256, 64, 64
# How many addresses lie between the beginnings of two reserved CIDRs: those of a /46.
STEP = 1 << 82
# The last pool begins so far behind the reserved CIDR before it.
BEHIND = 1 << 70
CLAIM = 2 << 32


def cidr(number, size):
    return f"{ipaddress.IPv6Address(number)}/{size}"


def reserved(number, size):
    return cidr(FIRST + number * STEP, size)


def rows_of(size):
    """The rows where each reserved CIDR has this prefix."""
    last = cidr(FIRST + BEHIND + 320, SLOT)
    cidrs = [reserved(place * RESERVATIONS * CIDRS // POOLS, size) for place in range(POOLS - 1)] + [last]
    pools = [
        {"blockSize": SLOT, "cidr": one, "disabled": False, "name": f"p{place}"} for place, one in enumerate(cidrs)
    ]
    held = [
        {"name": f"r{number}", "reservedCIDRs": [reserved(number * CIDRS + place, size) for place in range(CIDRS)]}
        for number in range(RESERVATIONS)
    ]
    yield "config", 1, text({"autoAllocateBlocks": True, "maxBlocksPerHost": 0, "strictAffinity": False})
    yield "pools", 2, text({"pools": pools})
    yield "reservations", 3, text({"reservations": held})


def tell(program, checks, name, size, often):
    sums, (_, picking) = numbers_of(program, f"choose {often} 6\n{bare_lines(rows_of(size))}")
    checks.same(name, sums, [often * (CLAIM + 320)] * 2)
    print(f"{name:<24}{picking / often / POOLS:>8.0f} ns for a slot", flush=True)


def main():
    program, checks = sys.argv[1], Checks()
    often = (int(sys.argv[2]) if len(sys.argv) > 2 else 1_000_000) // POOLS
    tell(program, checks, "CIDRs of one slot", SLOT, often)
    tell(program, checks, "CIDRs of 2^58 slots", 64, often)
    checks.end()


main()
