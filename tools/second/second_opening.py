"""Finds the first of the ten rules that rows break. The reader of rows was written only from the formats."""

import json
import re

from request_table import below, handle, list_of, members, name, of_type, pairs, parsed, shown_cidr, truth
from resource_table import Fault, selector
from second_records import LAST_REVISION, MOST_BLOCKS, MOST_ROWS, Block, Cidr, compact, slot_of
from second_requests import pool_refusal
from selector_table import Bad

WHOLE = below(2**64)
ORDINAL = re.compile(r"0|[1-9][0-9]*")
SECONDARY = pairs(8, lambda key: 1 <= len(key.encode()) <= 63)
STATES = ("pending", "confirmed", "pendingDeletion")


class Broken(Exception):
    """The row breaks the rule of this number."""


# ---- forms


def printed_cidr(value, most=None):
    if shown_cidr(value) != value or most is not None and Cidr.read(value).size() > most:
        raise ValueError
    return value


def block_cidr(value):
    return printed_cidr(value, 4096)


def among(values):
    def good(value):
        if value not in values:
            raise ValueError
        return value

    return good


def affinity_of(value):
    if value is not None and not of_type(value, str).startswith("host:"):
        raise ValueError
    return value if value is None else "host:" + name(value[len("host:") :])


def counts(value):
    if not of_type(value, dict):
        raise ValueError
    for cidr, count in value.items():
        block_cidr(cidr)
        if not 1 <= below(2**32)(count):
            raise ValueError
    return value


def stamps(value):
    for ordinal, stamp in of_type(value, dict).items():
        if not ORDINAL.fullmatch(ordinal):
            raise ValueError
        WHOLE(int(ordinal))
        WHOLE(stamp)
    return value


def attributes(value):
    return members(value, {"handle_id": handle, "secondary": SECONDARY}, {})


def place(value):
    return value if value is None else WHOLE(value)


def manual(value):
    return among(["Manual"])(value)


def printed_selector(value):
    if selector(value) != value or value == "all()":
        raise ValueError
    return value


def pool(value):
    needed = {"blockSize": below(256), "cidr": printed_cidr, "disabled": truth, "name": name}
    return members(value, needed, {"assignmentMode": (manual, None), "nodeSelector": (printed_selector, None)})


def reservation(value):
    return members(value, {"name": name, "reservedCIDRs": list_of(printed_cidr, 64)}, {})


def reservations(value):
    found = list_of(reservation, 256)(value)
    if len({one["name"] for one in found}) < len(found):
        raise ValueError
    return found


FORMS = {
    "config": {"autoAllocateBlocks": truth, "maxBlocksPerHost": below(2**32), "strictAffinity": truth},
    "pools": {"pools": list_of(pool)},
    "reservations": {"reservations": reservations},
    "affinity": {"cidr": block_cidr, "node": name, "state": among(STATES)},
    "handle": {"block": counts, "handleID": handle},
    "block": {
        "affinity": affinity_of,
        "allocations": list_of(place),
        "attributes": list_of(attributes),
        "cidr": block_cidr,
        "sequenceNumber": WHOLE,
        "sequenceNumberForAllocation": stamps,
        "unallocated": list_of(WHOLE),
    },
}


def kind_of(key):
    """The kind of a key's text."""
    kind, slash, rest = key.partition("/")
    if not slash and kind in ("config", "pools", "reservations"):
        return kind
    if slash and kind == "handle":
        handle(rest)
        return kind
    if slash and kind in ("block", "affinity"):
        if kind == "affinity":
            node, _, rest = rest.partition("/")
            name(node)
        printed_cidr(rest)
        return kind
    raise ValueError


def key_of(kind, body):
    if kind == "handle":
        return f"handle/{body['handleID']}"
    if kind == "affinity":
        return f"affinity/{body['node']}/{body['cidr']}"
    return f"block/{body['cidr']}" if kind == "block" else kind


def form_of(key, text):
    """The kind and the body of a row."""
    try:
        kind = kind_of(key)
        body = parsed(text)
        members(body, FORMS[kind], {})
        if compact(body) != text:
            raise ValueError
        return kind, body
    except (ValueError, TypeError, RecursionError, Bad, Fault):
        raise Broken(1)


def is_sound(body):
    size = Cidr.read(body["cidr"]).size()
    places, stamped = body["allocations"], body["sequenceNumberForAllocation"]
    if len(places) != size or any(p is not None and p >= len(body["attributes"]) for p in places):
        return False
    free = [n for n in range(size) if places[n] is None]
    held = [n for n in range(size) if places[n] is not None]
    if sorted(body["unallocated"]) != free or sorted(stamped) != sorted(map(str, held)):
        return False
    if any(not 1 <= stamp <= body["sequenceNumber"] for stamp in stamped.values()):
        return False
    return Block(body).body()["attributes"] == body["attributes"] and compact(Block(body).body()) == compact(body)


# ---- the rules


def refused_pools(rows):
    so_far = []
    for one in rows.get("pools", (0, "pools", {"pools": []}))[2]["pools"]:
        if pool_refusal(so_far, one):
            return True
        so_far.append(one)
    return False


def broken_by(rows, counter):
    """The keys that break each rule, where none breaks one before it."""
    blocks = {key: body for key, (_, kind, body) in rows.items() if kind == "block"}
    affinities = {key: body for key, (_, kind, body) in rows.items() if kind == "affinity"}
    yield 2, [key for key, (_, kind, body) in rows.items() if key_of(kind, body) != key]
    yield 3, ["pools"] if refused_pools(rows) else []
    pools = rows["pools"][2]["pools"] if "pools" in rows else []
    yield 4, [key for key, body in {**blocks, **affinities}.items() if not is_slot(pools, body["cidr"])]
    yield 5, [k for k, body in blocks.items() if not is_sound(body) or not body["sequenceNumber"] < rows[k][0]]
    yield 6, short_counts(rows, blocks)
    yield 7, [k for k, b in blocks.items() if b["affinity"] and f"affinity/{b['affinity'][5:]}/{b['cidr']}" not in rows]
    yield 8, [
        key
        for key, body in affinities.items()
        if body["state"] == "confirmed"
        and blocks.get(f"block/{body['cidr']}", {"affinity": None})["affinity"] != f"host:{body['node']}"
    ]
    yield 9, ["past the limits"] if len(rows) > MOST_ROWS or len(blocks) > MOST_BLOCKS else []
    spent = ["counter"] if counter > LAST_REVISION else []
    yield 10, spent + [key for key, (revision, _, _) in rows.items() if not 1 <= revision <= min(counter, LAST_REVISION)]


def is_slot(pools, text):
    cidr = Cidr.read(text)
    _, slot = slot_of(pools, cidr.family, cidr.base)
    return slot is not None and slot.key() == cidr.key()


def short_counts(rows, blocks):
    owned = {}
    for body in blocks.values():
        for one, _ in Block(body).held.values():
            at = (one["handle_id"], body["cidr"])
            owned[at] = owned.get(at, 0) + 1
    none = (0, "handle", {"block": {}})
    return [
        f"handle/{id}" for (id, cidr), count in owned.items() if rows.get(f"handle/{id}", none)[2]["block"].get(cidr, 0) < count
    ]


def first_fault(rows):
    """The rule and the key of the first fault of rows (key, revision, body), or nothing."""
    read, formless = {}, []
    for key, revision, text in rows:
        try:
            read[key] = (revision, *form_of(key, text))
        except Broken:
            formless.append(key)
    if formless:
        return 1, min(formless, key=str.encode)
    counter = max((revision for _, revision, _ in rows), default=0)
    for rule, keys in broken_by(read, counter):
        if keys:
            return rule, min(keys, key=str.encode)
    return None
