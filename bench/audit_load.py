#!/usr/bin/env python3
"""Makes the database file that bench/audit.sh audits.

16,384 blocks of 16 addresses, each confirmed to one of 512 nodes, and 200,000 handles of one address
each. Every thousandth handle counts one address more than it has, as an ADD leaves it that was stopped
between its two writes.
"""
import json
import sqlite3
import sys

BLOCKS, HANDLES, NODES, SIZE = 16_384, 200_000, 512, 16


def body(value):
    return json.dumps(value, separators=(",", ":"), sort_keys=True)


def cidr_of(block):
    number = block * SIZE
    return f"10.{number >> 16}.{number >> 8 & 255}.{number & 255}/28"


def block_row(block, owners):
    held = [(place, handle) for place, handle in enumerate(owners)]
    value = {
        "affinity": f"host:node-{block % NODES}",
        "allocations": [place for place, _ in held] + [None] * (SIZE - len(held)),
        "attributes": [{"handle_id": handle, "secondary": {}} for _, handle in held],
        "cidr": cidr_of(block),
        "sequenceNumber": len(held),
        "sequenceNumberForAllocation": {str(place): place + 1 for place, _ in held},
        "unallocated": list(range(len(held), SIZE)),
    }
    return f"block/{cidr_of(block)}", body(value)


def rows():
    pool = {"blockSize": 28, "cidr": "10.0.0.0/8", "disabled": False, "name": "pods"}
    yield "pools", body({"pools": [pool]})
    owners = [[] for _ in range(BLOCKS)]
    for number in range(HANDLES):
        handle, block = f"net.c{number}", number % BLOCKS
        owners[block].append(handle)
        count = 2 if number % 1000 == 0 else 1
        yield f"handle/{handle}", body({"block": {cidr_of(block): count}, "handleID": handle})
    for block in range(BLOCKS):
        node, cidr = f"node-{block % NODES}", cidr_of(block)
        yield f"affinity/{node}/{cidr}", body({"cidr": cidr, "node": node, "state": "confirmed"})
        yield block_row(block, owners[block])


def main():
    file = sqlite3.connect(sys.argv[1])
    file.execute("CREATE TABLE rows(key TEXT PRIMARY KEY, revision INTEGER NOT NULL, body TEXT NOT NULL)")
    # a block's sequence number is below its revision
    numbered = ((key, SIZE + place, text) for place, (key, text) in enumerate(rows(), 1))
    file.executemany("INSERT INTO rows VALUES (?, ?, ?)", numbered)
    file.commit()
    file.close()


if __name__ == "__main__":
    main()
