"""Makes rows of a datastore: a pool, and blocks of it with their affinities and handles."""
import ipaddress
import json
import sqlite3

# Each row has a revision above every sequence number.
FIRST_REVISION = 5_000
TABLE = "CREATE TABLE rows(key TEXT PRIMARY KEY, revision INTEGER NOT NULL, body TEXT NOT NULL)"


def text(value):
    return json.dumps(value, separators=(",", ":"), sort_keys=True)


class Block:
    """A block of which the first addresses are held, the ordinal n by the handle number n mod `handles`."""

    def __init__(self, number, size, node, held, handles, network="net", secondary=None):
        base = ipaddress.IPv4Address("10.0.0.0") + number * 2 ** (32 - size)
        self.cidr, self.count = f"{base}/{size}", 2 ** (32 - size)
        self.node, self.held, self.secondary = node, held, secondary or {}
        self.ids = [f"{network}.c{number}-{place}" for place in range(min(handles, held))]

    def body(self):
        return {
            "affinity": f"host:{self.node}",
            "allocations": [n % len(self.ids) if n < self.held else None for n in range(self.count)],
            "attributes": [{"handle_id": one, "secondary": self.secondary} for one in self.ids],
            "cidr": self.cidr,
            "sequenceNumber": self.held,
            "sequenceNumberForAllocation": {str(n): n + 1 for n in range(self.held)},
            "unallocated": list(range(self.held, self.count)),
        }

    def rows(self):
        yield f"affinity/{self.node}/{self.cidr}", text({"cidr": self.cidr, "node": self.node, "state": "confirmed"})
        yield f"block/{self.cidr}", text(self.body())
        for place, one in enumerate(self.ids):
            count = len(range(place, self.held, len(self.ids)))
            yield f"handle/{one}", text({"block": {self.cidr: count}, "handleID": one})


def pool_row(cidr, size):
    return "pools", text({"pools": [{"blockSize": size, "cidr": cidr, "disabled": False, "name": "pods"}]})


def rows_of(blocks, pool="10.0.0.0/8", size=26):
    """The rows of these blocks and of their pool, by ascending keys, with their revisions."""
    rows = [pool_row(pool, size)]
    for block in blocks:
        rows += block.rows()
    rows.sort(key=lambda row: row[0].encode())
    return [(key, FIRST_REVISION + place, body) for place, (key, body) in enumerate(rows)]


def so_many_rows(count, secondary=None):
    """So many rows: blocks of 64 that are full, most with 14 handles, and affinities that are pending."""
    last = count // 16 - 1
    blocks = [
        Block(number, 26, f"node-{number % 64}", 64, 14 if number < last else 13, secondary=secondary)
        for number in range(last + 1)
    ]
    rows = rows_of(blocks)
    for more in range(count - len(rows)):
        node, cidr = f"zone-{more:03}", "10.0.0.0/26"
        body = text({"cidr": cidr, "node": node, "state": "pending"})
        rows.append((f"affinity/{node}/{cidr}", FIRST_REVISION + len(rows), body))
    return sorted(rows, key=lambda row: row[0].encode())


def write_file(path, rows):
    """A database file of these rows."""
    base = sqlite3.connect(path)
    base.execute(TABLE)
    base.executemany("INSERT INTO rows VALUES (?, ?, ?)", rows)
    base.commit()
    base.close()


def row_line(row):
    key, revision, body = row
    return f"row {revision} {key} {body}\n"


def row_lines(rows):
    return "".join(map(row_line, rows))


def bare_lines(rows):
    """The lines of the rows for `ipam_bench`, which gives revisions itself."""
    return "".join(f"{key} {body}\n" for key, _, body in rows)
