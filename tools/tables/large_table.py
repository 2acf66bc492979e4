"""Sessions of many handles and blocks, and a script at the limits of a datastore, for `tools/check`.

The lists of the store stand on pages of 128 rows: so handles are made in descending order, and every second one is
deleted; and 600 blocks change their node and their holder, in an order in which neighbours are far apart.
"""

from second_records import LAST_REVISION, MOST_BLOCKS, MOST_ROWS, Block, Cidr, compact

HANDLES, BLOCKS, EVERY = 1024, 600, 200
NODES = ["b", "a", "host.c", "a.1", None]


def request(word, **members):
    return compact({"request": {word: members}})


def page(kind, after=None):
    return compact({"rows": kind, **({"after": after} if after else {})})


# ---- handles


def handle_steps():
    """The handles from the last to the first, and the deletion of every second one."""
    yield request("pool", cidr="10.0.0.0/16", name="p", size=26)
    for number in reversed(range(HANDLES)):
        yield request("add", address=f"10.0.{number // 256}.{number % 256}", handle=f"{number:06}", node="a")
    for number in range(1, HANDLES, 2):
        yield request("del", handle=f"{number:06}")


def handles():
    """The lines of the session, with pages of handles and of blocks between them."""
    for step, line in enumerate(handle_steps()):
        yield line
        if step % EVERY == 0:
            yield from (page("handle"), page("handle", "handle/000500"), page("block"))
    yield from (page("handle"), page("affinity"))


# ---- blocks


def address_of(number):
    return f"10.0.{number // 256}.{number % 256}"


def made(number, turn):
    """A block of one address is claimed and held, and then maybe given back, or left by its node."""
    node, handle, address = NODES[(number // 2 + turn) % 5], f"n.c{number}", address_of(number)
    yield request("add", address=address, handle=handle, node=node or "z")
    if (number + turn) % 3:
        yield request("del", handle=handle)
    if node is None:
        yield request("release", cidr=f"{address}/32", node="z")


def left(number, turn):
    """What the block had is given back, and its node leaves it."""
    yield request("del", handle=f"n.c{number}")
    yield request("release", cidr=f"{address_of(number)}/32", node=NODES[(number // 2 + turn) % 5] or "z")


def chosen(node):
    """An address of the node's choice, which it gives back."""
    yield request("add", handle="n.x", node=node)
    yield request("del", handle="n.x")


def block_steps():
    for turn in range(3):
        for step in range(BLOCKS):
            number = step * 7 % BLOCKS
            if turn:
                yield from left(number, turn - 1)
            if turn < 2:
                yield from made(number, turn)
            if step % EVERY == 0:
                yield from chosen(NODES[(step // EVERY + turn) % 4])
                yield from (page("block"), page("affinity"), page("block", f"block/{address_of(number)}/32"))


def blocks():
    """The lines of the session: each block is made, changed and left, with choices and pages between them."""
    yield request("pool", cidr="10.0.0.0/22", name="p", size=32)
    yield from block_steps()
    yield from (page("block"), page("affinity"), page("handle"))


# ---- the limits


def slot_of(number):
    return f"10.{number >> 14}.{number >> 6 & 255}.{number % 64 * 4}/30"


def full_rows():
    """As many rows as there may be, with as many blocks: the first one holds two addresses. Each with its key and body."""
    yield "1 pools", '{"pools":[{"blockSize":30,"cidr":"10.0.0.0/12","disabled":false,"name":"p"}]}'
    for name in ("n.c1", "n.c2"):
        yield f"1 handle/{name}", f'{{"block":{{"10.0.0.0/30":1}},"handleID":"{name}"}}'
    for slot in map(slot_of, range(MOST_ROWS - MOST_BLOCKS - 3)):
        yield f"1 affinity/a/{slot}", f'{{"cidr":"{slot}","node":"a","state":"pending"}}'
    for number in range(MOST_BLOCKS):
        block = Block(Block.fresh(Cidr.read(slot_of(number)), None))
        if number == 0:
            owners = [({"handle_id": name, "secondary": {}}, stamp) for stamp, name in ((1, "n.c1"), (2, "n.c2"))]
            block.held, block.queue, block.sequence = {0: owners[0], 3: owners[1]}, [1, 2], 2
        yield f"3 block/{block.cidr}", compact(block.body())


def turns(slot, count, word, **members):
    """A request of a slot and its first calls."""
    return f"begin {slot} {compact({word: members})}\nturn {slot} {count}\n"


def assigns(slot, count, address, node):
    return turns(slot, count, "add", address=address, handle="n.c9", node=node)


def release_of(address):
    return {"cidr": f"{address}/30", "node": "a"}


FIRST, THIRD, FOURTH, FIFTH = map(release_of, ("10.0.0.0", "10.0.0.8", "10.0.0.12", "10.0.0.16"))
FULL = [
    # no row more, and no block more: an operator's record, an affinity, a handle, a block
    turns(0, 2, "config"),
    assigns(0, 5, "10.0.0.5", "b"),
    assigns(0, 5, "10.0.0.1", "a"),
    assigns(0, 5, "10.1.56.128", "a"),
    # these have read what is there now
    turns(1, 4, "add", address="10.0.0.1", handle="n.c9", node="a"),
    turns(2, 1, "config"),
    turns(3, 1, "config"),
    turns(4, 1, "release", **THIRD),
    turns(5, 1, "release", **THIRD),
    # a handle goes, and a record takes its place
    turns(0, 5, "del", handle="n.c1"),
    turns(0, 2, "config"),
    "turn 1 1\nturn 2 3\n",
    # an affinity goes: the update of another request finds none, and the deletion of another neither
    "turn 4 5\nturn 5 2\n",
    turns(4, 5, "release", **FOURTH),
    turns(5, 6, "release", **FOURTH),
    "turn 4 2\n",
    # of two that read the record, one comes too late
    turns(0, 1, "config"),
    turns(1, 1, "config"),
    turns(2, 1, "config"),
    turns(6, 1, "release", **FIRST),
    turns(7, 5, "release", **FIFTH),
    "turn 0 1\nturn 1 3\n",
    # the last revision, and one that comes too late: an older fault is told before this one
    turns(0, 2, "config"),
    "turn 2 3\nturn 3 3\nturn 6 1\nturn 7 1\n",
    turns(0, 2, "config"),
    assigns(0, 5, "10.0.0.1", "a"),
    assigns(0, 5, "10.1.56.128", "a"),
    turns(0, 1, "release", **THIRD),
    turns(0, 1, "release", **{**THIRD, "node": "b"}),
]


def full():
    """A script over all rows that there may be, a few revisions from the last."""
    rows = "".join(f"row {key} {body}\n" for key, body in full_rows())
    return f"counter {LAST_REVISION - 17}\n{rows}" + "".join(FULL)


def last_block():
    """A script of two requests that create the last block that there may be: the second one finds that it exists."""
    rows = "".join(f"row {key} {body}\n" for key, body in full_rows() if key.startswith(("1 pools", "3 block/")))
    first, *others = rows.split("row 3 block/10.0.0.0/30 ")
    rows = first + "".join(it.split("\n", 1)[1] for it in others)
    asks = [turns(slot, 5, "add", address="10.0.0.1", handle=f"n.c{slot}", node=node) for slot, node in enumerate("ab")]
    return rows + "".join(asks) + "turn 0\nturn 1 2\n"
