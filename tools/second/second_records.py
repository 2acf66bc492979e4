"""Addresses, records and the datastore of the second allocator."""

import functools
import ipaddress
import json

LAST_REVISION = 2**62
MOST_ROWS, MOST_BLOCKS = 262_144, 16_384


def compact(value):
    return json.dumps(value, sort_keys=True, separators=(",", ":"), ensure_ascii=False)


# ---- addresses


class Cidr:
    """A family, a base as a number, and a prefix."""

    def __init__(self, family, base, prefix):
        self.family, self.base, self.prefix = family, base, prefix

    @staticmethod
    @functools.lru_cache(maxsize=4096)
    def read(text):
        net = ipaddress.ip_network(text)
        return Cidr(net.version, int(net.network_address), net.prefixlen)

    def size(self):
        return 2 ** ((32 if self.family == 4 else 128) - self.prefix)

    def last(self):
        return self.base + self.size() - 1

    def holds(self, family, number):
        return family == self.family and self.base <= number <= self.last()

    def overlaps(self, other):
        return self.family == other.family and self.base <= other.last() and other.base <= self.last()

    def key(self):
        return (self.family, self.base, self.prefix)

    def __str__(self):
        return f"{address_text(self.family, self.base)}/{self.prefix}"


def address_text(family, number):
    if family == 4:
        return str(ipaddress.IPv4Address(number))
    groups = [f"{number >> (112 - 16 * i) & 0xFFFF:x}" for i in range(8)]
    best, length = None, 1
    at = 0
    while at < 8:
        end = at
        while end < 8 and groups[end] == "0":
            end += 1
        if end - at > length:
            best, length = at, end - at
        at = max(end, at + 1)
    if best is None:
        return ":".join(groups)
    return ":".join(groups[:best]) + "::" + ":".join(groups[best + length :])


def read_address(text):
    address = ipaddress.ip_address(text)
    return address.version, int(address)


def slot_of(pools, family, number):
    """The CIDR of the slot of an address, and its pool."""
    for pool in pools:
        cidr = Cidr.read(pool["cidr"])
        if cidr.holds(family, number):
            width = 32 if family == 4 else 128
            step = 2 ** (width - pool["blockSize"])
            return pool, Cidr(family, cidr.base + (number - cidr.base) // step * step, pool["blockSize"])
    return None, None


# ---- records: a key is its text, a record its body as plain JSON


def kind_of(key):
    return key.split("/")[0]


def key_of(record):
    if "pools" in record:
        return "pools"
    if "reservations" in record:
        return "reservations"
    if "handleID" in record:
        return f"handle/{record['handleID']}"
    if "state" in record:
        return f"affinity/{record['node']}/{record['cidr']}"
    if "allocations" in record:
        return f"block/{record['cidr']}"
    return "config"


@functools.lru_cache(maxsize=None)
def order_of(key):
    kind, _, rest = key.partition("/")
    if kind == "block":
        return Cidr.read(rest).key()
    if kind == "affinity":
        node, _, cidr = rest.partition("/")
        return (node.encode(), Cidr.read(cidr).key())
    return rest.encode()


class Block:
    """A block's body taken apart: who holds which ordinal, with which stamp."""

    def __init__(self, body):
        self.cidr = Cidr.read(body["cidr"])
        self.node = None if body["affinity"] is None else body["affinity"][len("host:") :]
        stamps = body["sequenceNumberForAllocation"]
        self.held = {
            n: (body["attributes"][place], stamps[str(n)])
            for n, place in enumerate(body["allocations"])
            if place is not None
        }
        self.queue = list(body["unallocated"])
        self.sequence = body["sequenceNumber"]

    @staticmethod
    def fresh(cidr, node):
        return {
            "affinity": None if node is None else f"host:{node}",
            "allocations": [None] * cidr.size(),
            "attributes": [],
            "cidr": str(cidr),
            "sequenceNumber": 0,
            "sequenceNumberForAllocation": {},
            "unallocated": list(range(cidr.size())),
        }

    def body(self):
        attributes = []
        places = [None] * self.cidr.size()
        for n in sorted(self.held):
            one = self.held[n][0]
            if one not in attributes:
                attributes.append(one)
            places[n] = attributes.index(one)
        return {
            "affinity": None if self.node is None else f"host:{self.node}",
            "allocations": places,
            "attributes": attributes,
            "cidr": str(self.cidr),
            "sequenceNumber": self.sequence,
            "sequenceNumberForAllocation": {str(n): self.held[n][1] for n in self.held},
            "unallocated": self.queue,
        }

    def free(self, ordinals):
        for n in sorted(ordinals):
            del self.held[n]
            self.queue.append(n)


# ---- the datastore


class Datastore:
    def __init__(self, rows, counter):
        self.rows, self.counter = rows, counter

    def listed(self, kind):
        keys = [key for key in self.rows if kind_of(key) == kind and "/" in key]
        return [self.rows[key] for key in sorted(keys, key=order_of)]

    def blocks(self):
        return sum(kind_of(key) == "block" for key in self.rows)

    def reply(self, call):
        """What is answered, and what is done where the call goes well."""
        what = call[0]
        if what == "get":
            return ("found", *self.rows[call[1]]) if call[1] in self.rows else ("missing",)
        if what == "list":
            return ("listed", self.listed(call[1]))
        key = key_of(call[1]) if what != "delete" else call[1]
        if what == "create":
            if key in self.rows:
                return ("exists", self.rows[key][0])
            full = len(self.rows) >= MOST_ROWS or kind_of(key) == "block" and self.blocks() >= MOST_BLOCKS
            if full:
                return ("full",)
        else:
            if key not in self.rows:
                return ("missing",)
            if self.rows[key][0] != call[2]:
                return ("conflict", self.rows[key][0])
        if self.counter >= LAST_REVISION:
            return ("spent",)
        return ("done", self.counter + 1)

    def apply(self, call):
        self.counter += 1
        if call[0] == "delete":
            del self.rows[call[1]]
        else:
            self.rows[key_of(call[1])] = (self.counter, call[1])
