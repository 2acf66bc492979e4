"""The requests of the second allocator, call by call.

Each is a generator, which gives calls and is sent replies with their moments.
"""

import json

from second_records import Block, Cidr, address_text, read_address, slot_of
from selector_table import Parser, printed as selector_text

LIMIT = 64
MOST_COUNT = 4_294_967_295
DEFAULT_CONFIG = {"autoAllocateBlocks": True, "maxBlocksPerHost": 0, "strictAffinity": False}


class Stop(Exception):
    """The request is answered so at once."""


class Lost(Exception):
    """A part lost a race that is not tried again by itself."""


class Tries:
    def __init__(self):
        self.lost = self.claims = 0

    def lose(self):
        self.lost += 1
        if self.lost == LIMIT:
            raise Stop({"again": {"claims": self.claims, "lost": self.lost}})

    def claim(self):
        self.claims += 1
        if self.claims == LIMIT:
            raise Stop({"again": {"claims": self.claims, "lost": self.lost}})


def write(tries, call):
    """Makes a write: the revision that it took with the moment, or None after a lost race."""
    reply, moment = yield call
    if reply[0] == "done":
        return reply[1], moment
    if reply[0] in ("full", "spent"):
        raise Stop(reply[0])
    tries.lose()
    return None, moment


def found(reply, default):
    return reply[2] if reply[0] == "found" else default


def raised(tries, handle, cidr):
    while True:
        reply, moment = yield ("get", f"handle/{handle}")
        body = found(reply, {"block": {}, "handleID": handle})
        count = body["block"].get(str(cidr), 0)
        if count == MOST_COUNT:
            raise Stop({"countFull": {"moment": moment}})
        new = {"block": {**body["block"], str(cidr): count + 1}, "handleID": handle}
        call = ("update", new, reply[1]) if reply[0] == "found" else ("create", new)
        if (yield from write(tries, call))[0] is not None:
            return


def lowered(tries, handle, cidr, amount):
    while True:
        reply, _ = yield ("get", f"handle/{handle}")
        counts = dict(reply[2]["block"])
        counts[str(cidr)] -= amount
        if counts[str(cidr)] == 0:
            del counts[str(cidr)]
        if counts:
            call = ("update", {"block": counts, "handleID": handle}, reply[1])
        else:
            call = ("delete", f"handle/{handle}", reply[1])
        if (yield from write(tries, call))[0] is not None:
            return


def freed(tries, handle, cidr, which):
    """Frees what `which` says of the block, and counts it off. How many there were."""
    while True:
        reply, _ = yield ("get", f"block/{cidr}")
        if reply[0] != "found":
            return 0
        block = Block(reply[2])
        mine = [n for n in block.held if which(n, block.held[n])]
        if not mine:
            return 0
        block.free(mine)
        block.sequence += 1
        if (yield from write(tries, ("update", block.body(), reply[1])))[0] is not None:
            break
    yield from lowered(tries, handle, cidr, len(mine))
    return len(mine)


def stamped(ordinal, handle, stamp):
    return lambda n, held: n == ordinal and held[0]["handle_id"] == handle and held[1] == stamp


def claimed(tries, node, cidr, read):
    """The node claims the block, which was read so. A lost race ends the claim."""
    reply, _ = yield ("get", f"affinity/{node}/{cidr}")
    pending = {"cidr": str(cidr), "node": node, "state": "pending"}
    if reply[0] != "found":
        revision, _ = yield from write(tries, ("create", pending))
    elif reply[2]["state"] == "pendingDeletion":
        revision, _ = yield from write(tries, ("update", pending, reply[1]))
    else:
        revision = reply[1]
    if revision is None:
        return
    if read is None:
        taken, _ = yield from write(tries, ("create", Block.fresh(cidr, node)))
    else:
        block = Block(read[1])
        block.node, block.sequence = node, block.sequence + 1
        taken, _ = yield from write(tries, ("update", block.body(), read[0]))
    if taken is None:
        return
    confirmed = {**pending, "state": "confirmed"}
    if (yield from write(tries, ("update", confirmed, revision)))[0] is not None:
        tries.claim()


def is_named(pool, names):
    return any(
        name == pool["name"] or "/" in name and Cidr.read(name).key() == Cidr.read(pool["cidr"]).key() for name in names
    )


def admits(selector, labels):
    what = selector[0]
    if what == "all":
        return True
    if what == "not":
        return not admits(selector[1], labels)
    if what in ("and", "or"):
        return (all if what == "and" else any)(admits(one, labels) for one in selector[1])
    value = labels.get(selector[1])
    if value is None:
        return False
    if what == "has":
        return True
    if what == "in":
        return value in selector[2]
    tests = {"is": value.__eq__, "contains": value.__contains__, "starts": value.startswith, "ends": value.endswith}
    return tests[what](selector[2])


def usable(pools, family, names, labels, for_one=False):
    def fits(pool):
        named = is_named(pool, names)
        return (
            not pool["disabled"]
            and Cidr.read(pool["cidr"]).family == family
            and admits(Parser(pool.get("nodeSelector", "all()")).whole(), labels)
            and (named or not names)
            and (pool.get("assignmentMode") != "Manual" or named or for_one)
        )

    return [pool for pool in pools if fits(pool)]


class Scan:
    """The five reads of a round, and the choice on them."""

    def __init__(self, family):
        self.family = family

    def told(self):
        return {"b": self.b, "c": self.c, "f": self.f, "family": self.family, "p": self.p, "r": self.r}

    def read(self, node):
        reply, self.c = yield ("get", "config")
        self.config = found(reply, DEFAULT_CONFIG)
        reply, self.p = yield ("get", "pools")
        self.pools = found(reply, {"pools": []})["pools"]
        reply, self.r = yield ("get", "reservations")
        reserved = found(reply, {"reservations": []})["reservations"]
        self.reserved = [Cidr.read(one) for each in reserved for one in each["reservedCIDRs"]]
        reply, self.f = yield ("list", "affinity")
        self.confirmed = {a["cidr"] for _, a in reply[1] if a["node"] == node and a["state"] == "confirmed"}
        reply, self.b = yield ("list", "block")
        self.blocks = {body["cidr"]: (revision, body) for revision, body in reply[1]}

    def is_reserved(self, number):
        return any(one.holds(self.family, number) for one in self.reserved)

    def room(self, block):
        return next((n for n in block.queue if not self.is_reserved(block.cidr.base + n)), None)

    def first_bare(self, pool):
        """The first slot of the pool that has no block, and an address that is not reserved."""
        cidr = Cidr.read(pool["cidr"])
        width = 32 if self.family == 4 else 128
        step = 2 ** (width - pool["blockSize"])
        at = cidr.base
        while at <= cidr.last():
            slot = Cidr(self.family, at, pool["blockSize"])
            if str(slot) in self.blocks:
                at += step
                continue
            free = at
            while free <= slot.last() and self.is_reserved(free):
                free = max(one.last() for one in self.reserved if one.holds(self.family, free)) + 1
            if free <= slot.last():
                return slot
            at = cidr.base + (free - cidr.base) // step * step
        return None

    def choose(self, request):
        """("use" | "claim" | "borrow" | "nothing" | "noPool", ..)"""
        names = request["pools4" if self.family == 4 else "pools6"]
        enabled = [p for p in self.pools if not p["disabled"] and Cidr.read(p["cidr"]).family == self.family]
        for name in names:
            if not any(is_named(pool, [name]) for pool in enabled):
                return ("noPool", name)
        node = request["node"]
        places = usable(self.pools, self.family, names, request["labels"])
        blocks = [Block(body) for _, body in self.blocks.values()]
        own = sum(b.node == node and b.cidr.family == self.family for b in blocks)
        bound = self.config["maxBlocksPerHost"]
        may_claim = self.config["autoAllocateBlocks"] and (bound == 0 or own < bound)
        best = []
        for place, pool in enumerate(places):
            whole = Cidr.read(pool["cidr"])
            for block in blocks:
                room = self.room(block)
                if not whole.holds(block.cidr.family, block.cidr.base) or room is None:
                    continue
                cidr = block.cidr
                if block.node == node:
                    if str(cidr) in self.confirmed:
                        best.append((0, place, cidr.base, ("use", cidr, room)))
                    else:
                        best.append((1, place, cidr.base, ("claim", cidr)))
                elif block.node is None and not block.held and may_claim:
                    best.append((2, place, cidr.base, ("claim", cidr)))
                elif not self.config["strictAffinity"]:
                    best.append((3, place, cidr.base, ("borrow", cidr, room)))
            bare = self.first_bare(pool) if may_claim else None
            if bare is not None:
                best.append((2, place, bare.base, ("claim", bare)))
        return min(best, key=lambda one: one[:3])[3] if best else ("nothing",)


def assigned(tries, request, cidr, ordinal, row):
    """Raises the count and writes the block as it was read. The stamp and the moment, or None after
    a lost race, with the count lowered."""
    handle = request["handle"]
    yield from raised(tries, handle, cidr)
    block = Block(row[1])
    block.sequence += 1
    block.queue.remove(ordinal)
    block.held[ordinal] = ({"handle_id": handle, "secondary": request["secondary"]}, block.sequence)
    revision, w = yield from write(tries, ("update", block.body(), row[0]))
    if revision is None:
        yield from lowered(tries, handle, cidr, 1)
        return None
    return block.sequence, w


def family_given(tries, request, family):
    while True:
        scan = Scan(family)
        yield from scan.read(request["node"])
        choice = scan.choose(request)
        if choice[0] == "noPool":
            raise Stop({"noPool": {"name": choice[1], "p": scan.p}})
        if choice[0] == "nothing":
            raise Stop({"exhausted": scan.told()})
        cidr = choice[1]
        if choice[0] == "claim":
            yield from claimed(tries, request["node"], cidr, scan.blocks.get(str(cidr)))
            continue
        done = yield from assigned(tries, request, cidr, choice[2], scan.blocks[str(cidr)])
        if done is not None:
            address = address_text(family, cidr.base + choice[2])
            told = {"address": address, "b": scan.b, "c": scan.c, "f": scan.f, "p": scan.p, "r": scan.r, "w": done[1]}
            return told, (cidr, choice[2], done[0])


def is_undone(answer):
    return answer == "full" or isinstance(answer, dict) and set(answer) & {"exhausted", "noPool", "countFull"}


def add(tries, request):
    given = []
    for family in [f for f, wanted in ((4, request["ipv4"]), (6, request["ipv6"])) if wanted]:
        try:
            given.append((yield from family_given(tries, request, family)))
        except Stop as stop:
            if is_undone(stop.args[0]):
                for _, (cidr, ordinal, stamp) in given:
                    handle = request["handle"]
                    yield from freed(tries, handle, cidr, stamped(ordinal, handle, stamp))
            raise
    return {"added": [told for told, _ in given]}


def add_this(tries, request):
    family, number = read_address(request["address"])
    names = request["pools4" if family == 4 else "pools6"]
    while True:
        reply, c = yield ("get", "config")
        config = found(reply, DEFAULT_CONFIG)
        reply, p = yield ("get", "pools")
        pools = usable(found(reply, {"pools": []})["pools"], family, names, request["labels"], for_one=True)
        _, cidr = slot_of(pools, family, number)
        if cidr is None:
            return {"notInPool": {"p": p}}
        reply, b = yield ("get", f"block/{cidr}")
        row = None if reply[0] == "missing" else reply[1:]
        block = None if row is None else Block(row[1])
        ordinal = number - cidr.base
        if block and ordinal in block.held:
            return {"taken": {"b": b, "holder": block.held[ordinal][0]["handle_id"]}}
        if block is None or block.node is None and not block.held:
            yield from claimed(tries, request["node"], cidr, row)
            continue
        if block.node != request["node"] and config["strictAffinity"]:
            return {"notAffine": {"b": b, "cidr": str(cidr)}}
        done = yield from assigned(tries, request, cidr, ordinal, row)
        if done is not None:
            return {"addedThis": {"address": address_text(family, number), "b": b, "c": c, "p": p, "w": done[1]}}


def probe(tries, request):
    scans = []
    for family in [f for f, wanted in ((4, request["ipv4"]), (6, request["ipv6"])) if wanted]:
        scan = Scan(family)
        yield from scan.read(request["node"])
        choice = scan.choose(request)
        if choice[0] == "noPool":
            return {"noPool": {"name": choice[1], "p": scan.p}}
        if choice[0] == "nothing":
            return {"exhausted": scan.told()}
        scans.append(scan.told())
    return {"ready": scans}


def delete(tries, request):
    handle = request["handle"]
    reply, k = yield ("get", f"handle/{handle}")
    blocks = found(reply, {"block": {}})["block"]
    for cidr in sorted(map(Cidr.read, blocks), key=Cidr.key):
        yield from freed(tries, handle, cidr, lambda n, held: held[0]["handle_id"] == handle)
    return {"deleted": {"k": k}}


def check(tries, request):
    reply, p = yield ("get", "pools")
    pools = found(reply, {"pools": []})["pools"]
    for text in request["addresses"]:
        family, number = read_address(text)
        _, cidr = slot_of(pools, family, number)
        if cidr is None:
            return {"notRecorded": {"address": address_text(family, number), "moment": p}}
        reply, moment = yield ("get", f"block/{cidr}")
        held = Block(reply[2]).held if reply[0] == "found" else {}
        if number - cidr.base not in held or held[number - cidr.base][0]["handle_id"] != request["handle"]:
            return {"notRecorded": {"address": address_text(family, number), "moment": moment}}
    return "checked"


def release(tries, request):
    node, cidr = request["node"], Cidr.read(request["cidr"])
    key = f"affinity/{node}/{cidr}"
    while True:
        reply, moment = yield ("get", key)
        if reply[0] != "found":
            return {"noAffinity": {"moment": moment}}
        marked = {**reply[2], "state": "pendingDeletion"}
        mark, _ = yield from write(tries, ("update", marked, reply[1]))
        if mark is None:
            continue
        read, _ = yield ("get", f"block/{cidr}")
        again, _ = yield ("get", key)
        if again[0] != "found" or again[1] != mark:
            tries.lose()
            continue
        if read[0] == "found":
            block = Block(read[2])
            block.node, block.sequence = None if block.node == node else block.node, block.sequence + 1
            call = ("update", block.body(), read[1])
        else:
            call = ("create", Block.fresh(cidr, None))
        if (yield from write(tries, call))[0] is None:
            continue
        if (yield from write(tries, ("delete", key, mark)))[0] is not None:
            return "released"


def collect(tries, request):
    scope = request["scope"]

    def owners(rows):
        for _, body in rows:
            block = Block(body)
            for n in sorted(block.held):
                attributes, stamp = block.held[n]
                pairs = attributes["secondary"]
                if scope is None or all(pairs.get(k) == scope[k] for k in ("network", "node")):
                    yield block.cidr, n, attributes["handle_id"], stamp

    reply, b1 = yield ("list", "block")
    kept = [one for one in owners(reply[1]) if one[2] not in request["live"]]
    live = yield None
    reply, b2 = yield ("list", "block")
    there = {(str(c), n, h, s) for c, n, h, s in owners(reply[1])}
    items = []
    for cidr, n, handle, stamp in kept:
        if (str(cidr), n, handle, stamp) in there and handle not in live:
            amount = yield from freed(tries, handle, cidr, stamped(n, handle, stamp))
            address = address_text(cidr.family, cidr.base + n)
            items.append({"address": address, "freed": amount > 0, "handle": handle, "stamp": stamp})
    return {"collected": {"b1": b1, "b2": b2, "items": items}}


def pool_refusal(pools, new):
    cidr, size = Cidr.read(new["cidr"]), new["blockSize"]
    same = [p for p in pools if p["name"] == new["name"]]
    if same:
        return (1, new["name"])
    for pool in pools:
        if Cidr.read(pool["cidr"]).overlaps(cidr):
            return (2, pool["name"])
    if not (20 <= size <= 32 if cidr.family == 4 else 116 <= size <= 128):
        return (3, new["name"])
    if cidr.prefix > size:
        return (4, new["name"])
    return (5, new["name"]) if len(pools) >= 64 else None


def change(tries, what, request):
    """A change of one record by an operator."""
    key = {"pool": "pools", "disable": "pools", "reserve": "reservations", "unreserve": "reservations"}.get(what, "config")
    while True:
        reply, _ = yield ("get", key)
        empty = DEFAULT_CONFIG if key == "config" else {key: []}
        body = json.loads(json.dumps(found(reply, empty)))
        refused = CHANGES[what](body, request)
        if refused:
            return {"refused": {"name": refused[1], "number": refused[0]}}
        call = ("update", body, reply[1]) if reply[0] == "found" else ("create", body)
        revision, _ = yield from write(tries, call)
        if revision is not None:
            return {"done": {"revision": revision}}


def change_pool(body, request):
    new = {"blockSize": request["size"], "cidr": request["cidr"], "disabled": request["disabled"], "name": request["name"]}
    if request["mode"] == "Manual":
        new["assignmentMode"] = "Manual"
    selector = selector_text(Parser(request["selector"]).whole())
    if selector != "all()":
        new["nodeSelector"] = selector
    for place, pool in enumerate(body["pools"]):
        if all(pool[k] == new[k] for k in ("name", "cidr", "blockSize")):
            body["pools"][place] = new
            return None
    refused = pool_refusal(body["pools"], new)
    if refused is None:
        body["pools"].append(new)
    return refused


def change_disabled(body, request):
    for pool in body["pools"]:
        if pool["name"] == request["name"]:
            pool["disabled"] = request["disabled"]
            return None
    return (6, request["name"])


def change_reserved(body, request):
    new = {"name": request["name"], "reservedCIDRs": request["cidrs"]}
    for place, one in enumerate(body["reservations"]):
        if one["name"] == request["name"]:
            body["reservations"][place] = new
            return None
    if len(body["reservations"]) >= 256:
        return (7, request["name"])
    body["reservations"].append(new)
    return None


def change_unreserved(body, request):
    left = [one for one in body["reservations"] if one["name"] != request["name"]]
    if len(left) == len(body["reservations"]):
        return (8, request["name"])
    body["reservations"][:] = left
    return None


def change_config(body, request):
    body.update(request)


CHANGES = {
    "pool": change_pool,
    "disable": change_disabled,
    "reserve": change_reserved,
    "unreserve": change_unreserved,
    "config": change_config,
}

FAMILIES = {"ipv4": True, "ipv6": False, "labels": {}, "pools4": [], "pools6": []}
DEFAULTS = {
    "add": {**FAMILIES, "secondary": {}},
    "probe": FAMILIES,
    "collect": {"at": 0, "grace": 0, "scope": None},
    "pool": {"disabled": False, "mode": "Automatic", "selector": "all()"},
    "config": DEFAULT_CONFIG,
}
SERVED = {"del": delete, "check": check, "release": release, "collect": collect, "probe": probe}


def begun(what, request, tries):
    if what == "add":
        return (add_this if "address" in request else add)(tries, request)
    if what in SERVED:
        return SERVED[what](tries, request)
    return change(tries, what, request)
