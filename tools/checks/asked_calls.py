"""What a CNI call is read as, told by what it does over rows that are chosen so that each member of it matters.

Each call runs over some sets of rows; its reply and the rows afterwards have to be those of the second allocator.
"""

import functools
import itertools
import json

import bad_environment
import bad_input
from bad_links import rows_of
from second_records import Cidr, compact
from second_session import MESSAGES, Sessions, asked, error

MESSAGES[106] = "bad datastore"
BROKEN = {"config": (1, {})}


# ---- rows


def pool(name, cidr, selector=None):
    size = max(30 if "." in cidr else 126, int(cidr.partition("/")[2]))
    chosen = {"nodeSelector": selector} if selector else {}
    return {"blockSize": size, "cidr": cidr, "disabled": False, "name": name, **chosen}


def rows_of_pools(pools):
    return {"pools": (1, {"pools": pools})}


def of_network(network, node="a"):
    return {"node": node, "secondary": {"network": network, "node": node}}


def held(handle, network, addresses):
    """The requests by which the handle comes to hold these addresses."""
    return [("add", {"address": one, "handle": handle, **of_network(network)}) for one in addresses]


ROOM = [pool("p", "10.0.0.0/28"), pool("q", "2001:db8::/124")]
OTHER_POOLS = [pool("first4", "203.0.113.0/30"), pool("first6", "2001:db8:ffff::/126")]
OTHERS = [
    *[("add", {"handle": f"net.{one}", **of_network("net")}) for one in ("c2", "c3", "c4", "x")],
    ("add", {"handle": "other.c2", **of_network("other")}),
    ("add", {"handle": "net.c7", **of_network("net", "b")}),
]


@functools.lru_cache(maxsize=None)
def rows_behind(pools, requests):
    """The rows behind these requests, each of which has to be done. Both are JSON."""
    second = Sessions(rows_of_pools(json.loads(pools)), False, 1)
    for word, request in json.loads(requests):
        answer = second.reply_to_request((word, request), None)["answer"]
        assert {"done", "added", "addedThis"} & set(answer), (request, answer)
    return second.cluster.store.rows


def behind(pools, *requests):
    return dict(rows_behind(json.dumps(pools), json.dumps(requests)))


# ---- the sets of rows


def held_sets(handle, network, addresses):
    """The handle has all of the addresses; then each time all but one; then none. Others have some too."""
    yield behind(ROOM, *held(handle, network, addresses or ["10.0.0.9"]), *OTHERS)
    for one in addresses:
        yield behind(ROOM, *held(handle, network, [other for other in addresses if other != one]), *OTHERS)
    yield behind(ROOM, *OTHERS)


def named_pool(place, name, family):
    """A pool that is named so: by its name, or by its CIDR."""
    if "/" in name:
        return pool(f"of{family}-{place}", str(Cidr.read(name)))
    return pool(name, f"10.{64 + place}.0.0/29" if family == "4" else f"fd00:{place + 1:x}::/125")


def apart(pools):
    """The pools without those that overlap one before them."""
    kept = []
    for one in pools:
        cidr = Cidr.read(one["cidr"])
        if not any(cidr.overlaps(Cidr.read(other["cidr"])) for other in kept):
            kept.append(one)
    return kept


def named_sets(request):
    """All pools that are named, and each time all but one; beside them is one of each family that is not named. Then
    the pools for nodes without a zone, and those of which one node alone is given addresses."""
    names = [(*pair, family) for family in "46" for pair in enumerate(request[f"pools{family}"])]
    named = [named_pool(*one) for one in names]
    others = [] if len(named) > 62 else OTHER_POOLS
    for left_out in [None, *range(len(named))]:
        yield rows_of_pools(apart([one for place, one in enumerate(named) if place != left_out] + others))
    yield rows_of_pools(apart([{**one, "nodeSelector": "!has(zone)"} for one in named]))
    yield from sets_of_nodes(apart(named + others), families(request))


def families(request):
    return {name: request[name] for name in ("ipv4", "ipv6", "pools4", "pools6")}


def sets_of_nodes(pools, wishes):
    """One node has a block, and no other is given one."""
    for node in ("a", "b"):
        claims = ("add", {"handle": "n.c0", "node": node, **wishes})
        yield behind(pools, claims, ("config", {"autoAllocateBlocks": False, "strictAffinity": True}))


def wishing_sets(request):
    """Pools of both families with and without blocks; of one family; for these labels; and of one node alone."""
    yield behind(ROOM, *OTHERS)
    yield behind(ROOM[:1], ("reserve", {"cidrs": ["10.0.0.0/31"], "name": "r"}))
    yield behind(ROOM[1:])
    for label, text in request["labels"].items():
        yield rows_of_pools([pool("p", "10.0.0.0/28", f"{label} == '{text}'")])
    yield rows_of_pools([{**one, "nodeSelector": "!has(zone)"} for one in ROOM])
    yield from sets_of_nodes(ROOM, families(request))


def sets_of(word, request):
    if word in ("del", "check"):
        network = request["handle"].rpartition(".")[0]
        return held_sets(request["handle"], network, request.get("addresses", []))
    if word == "collect":
        return held_sets("net.c1", "net", [])
    return named_sets(request) if request["pools4"] or request["pools6"] else wishing_sets(request)


# ---- the calls


def run(program, env, stdin):
    """The status and standard output of the call. A variable may come twice, and then the last one counts."""
    data = stdin.encode("utf-8", "surrogatepass")
    if len({name for name, _ in env}) == len(env):
        return program.run(["cni"], data, dict(env))
    named = [f"{name}={value}".encode() for name, value in [*env, ("IPAM_DB", str(bad_input.DATABASE))]]
    return bad_environment.run(program.path, [b"cni"], named, data)[:2]


def refused(answer):
    """The status and standard output of a call of which the tables tell this refusal."""
    _, version, code, details = answer.split(" ", 3)
    status, told = error(version, int(code), details)
    return status, told.encode()


def ask_over(program, reader, env, stdin, rows):
    bad_input.with_rows([(key, revision, compact(body)) for key, (revision, body) in rows.items()])
    second = Sessions(rows, False, max(revision for revision, _ in rows.values()))
    said = second.reply_to_call((env, stdin), None)
    found = run(program, env, stdin), rows_of(bad_input.DATABASE)
    wanted = (said["status"], said["stdout"].encode()), second.cluster.store.rows
    program.want(reader, (env, stdin), found, wanted)


SEEN = set()


def ask(program, reader, env, stdin):
    """Asks the call: over broken rows, where it has to tell its version, and over its sets of rows. A configuration
    that comes again with other variables is asked over the first of them."""
    call = asked(env, stdin)
    bad_input.with_rows([(key, revision, compact(body)) for key, (revision, body) in BROKEN.items()])
    if len(call) == 2:
        program.want(reader, (env, stdin), run(program, env, stdin), (call[0], call[1].encode()))
        return
    version, word, request = call
    program.want(reader, (env, stdin), run(program, env, stdin), refused(f"refused {version} 106 OR1 config"))
    whole = None if (word, stdin) not in SEEN else 1
    SEEN.add((word, stdin))
    for rows in itertools.islice(sets_of(word, request), whole):
        ask_over(program, reader, env, stdin, rows)
