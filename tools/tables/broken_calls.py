"""Scenarios of CNI calls with one thing broken each, and their replies. `tools/checks/command_cases.py` plays them.

In each call one thing is broken: a member, a variable, a version or the input (the calls of
tools/tables/cni_table.py with code and details), the rows, or what the call asks of the rows. This script states
the code and the details of each reply and builds its bytes. It runs nothing of the program. Each command
is also called with nothing broken, and succeeds.
"""

import json

from cni_table import GONE, good_config, good_env, stated_calls, text_of, with_member, with_variable

MESSAGES = {
    1: "incompatible CNI version",
    4: "invalid environment variable",
    6: "cannot decode network configuration",
    7: "invalid network configuration",
    100: "no address available",
    102: "address not recorded",
    104: "handle count full",
    105: "revisions spent",
    106: "bad datastore",
    107: "no such pool",
    108: "address not in a usable pool",
    109: "address taken",
    110: "block not affine to this node",
    112: "plugin not available",
}


def compact(value):
    return json.dumps(value, ensure_ascii=False, separators=(",", ":"))


def refusal(version, code, details):
    error = {"cniVersion": version, "code": code, "details": details, "msg": MESSAGES[code]}
    return "1 " + compact(error)


def call(env, stdin, reply):
    pairs = "¦".join(f"{name}={value}" for name, value in env)
    assert "⇒" not in pairs + stdin and "\n" not in pairs + stdin
    return [f"bare cni⇒{pairs}⇒{stdin}", f"= {reply}"]


def unchanged(lines):
    return ["keep"] + lines + ["same", "= same"]


# ---- rows


def pool(**changes):
    return {"blockSize": 30, "cidr": "10.0.0.0/29", "disabled": False, "name": "p"} | changes


def pools(*list_of_pools):
    return compact({"pools": [dict(sorted(one.items())) for one in list_of_pools]})


def affinity(node, cidr, state="confirmed"):
    return compact({"cidr": cidr, "node": node, "state": state})


def handle(name, counts):
    return compact({"block": counts, "handleID": name})


def config(auto, most, strict):
    return compact({"autoAllocateBlocks": auto, "maxBlocksPerHost": most, "strictAffinity": strict})


def block(**changes):
    """The block of node a whose first address is that of the container c1."""
    whole = {
        "affinity": "host:a",
        "allocations": [0, None, None, None],
        "attributes": [{"handle_id": "net.c1", "secondary": {"network": "net", "node": "a"}}],
        "cidr": "10.0.0.0/30",
        "sequenceNumber": 1,
        "sequenceNumberForAllocation": {"0": 1},
        "unallocated": [1, 2, 3],
    } | changes
    return compact({name: value for name, value in whole.items() if value is not GONE})


POOLS, AFFINITY, HANDLE, BLOCK = "pools", "affinity/a/10.0.0.0/30", "handle/net.c1", "block/10.0.0.0/30"

GOOD_ROWS = {
    POOLS: (1, pools(pool())),
    AFFINITY: (2, affinity("a", "10.0.0.0/30")),
    HANDLE: (3, handle("net.c1", {"10.0.0.0/30": 1})),
    BLOCK: (4, block()),
}

LAST_REVISION = 2**62


def rows(changes):
    """The lines of the good rows with these changes, each a revision and a body or none."""
    found = GOOD_ROWS | changes
    return [f"row {row[0]} {key} {row[1]}" for key, row in found.items() if row is not None]


# a name, what is changed of the good rows, and the rule and the key that are told
BROKEN_ROWS = [
    ("no member of the pools", {POOLS: (1, "{}")}, "OR1 pools"),
    ("a body with a space", {POOLS: (1, pools(pool()).replace(":", ": ", 1))}, "OR1 pools"),
    ("a body that is no JSON", {BLOCK: (4, block()[:-1])}, f"OR1 {BLOCK}"),
    ("a key of no kind", {"pool": (5, pools(pool()))}, "OR1 pool"),
    ("a key whose CIDR is not spelled as it is printed", {"affinity/a/10.0.0.4/030": (5, affinity("a", "10.0.0.4/30"))},
     "OR1 affinity/a/10.0.0.4/030"),
    ("a state of no name", {AFFINITY: (2, affinity("a", "10.0.0.0/30", "ready"))}, f"OR1 {AFFINITY}"),
    ("a member that no block has", {BLOCK: (4, block(zone="w"))}, f"OR1 {BLOCK}"),
    ("a block without its queue", {BLOCK: (4, block(unallocated=GONE))}, f"OR1 {BLOCK}"),
    ("an affinity under the key of another node", {"affinity/b/10.0.0.4/30": (5, affinity("a", "10.0.0.4/30", "pending"))},
     "OR2 affinity/b/10.0.0.4/30"),
    ("a handle under the key of another one", {"handle/net.c2": (5, handle("net.c3", {"10.0.0.0/30": 1}))},
     "OR2 handle/net.c2"),
    ("pools that overlap", {POOLS: (1, pools(pool(), pool(cidr="10.0.0.0/24", name="q")))}, "OR3 pools"),
    ("two pools of one name", {POOLS: (1, pools(pool(), pool(cidr="10.1.0.0/29")))}, "OR3 pools"),
    ("an affinity for no slot", {"affinity/a/10.0.0.8/30": (5, affinity("a", "10.0.0.8/30", "pending"))},
     "OR4 affinity/a/10.0.0.8/30"),
    ("blocks of another size", {POOLS: (1, pools(pool(blockSize=31)))}, f"OR4 {AFFINITY}"),
    ("an address that is held and queued", {BLOCK: (4, block(unallocated=[0, 1, 2, 3]))}, f"OR5 {BLOCK}"),
    ("an address that is queued twice", {BLOCK: (4, block(unallocated=[1, 2, 2]))}, f"OR5 {BLOCK}"),
    ("an address that is neither held nor queued", {BLOCK: (4, block(unallocated=[1, 2]))}, f"OR5 {BLOCK}"),
    ("a stamp above the sequence number", {BLOCK: (4, block(sequenceNumberForAllocation={"0": 2}))}, f"OR5 {BLOCK}"),
    ("a sequence number that is the revision", {BLOCK: (4, block(sequenceNumber=4))}, f"OR5 {BLOCK}"),
    ("an address without a handle", {HANDLE: None}, f"OR6 {HANDLE}"),
    ("a handle that counts another block", {HANDLE: (3, handle("net.c1", {"10.0.0.4/30": 1}))}, f"OR6 {HANDLE}"),
    ("a block without its affinity", {AFFINITY: None}, f"OR7 {BLOCK}"),
    ("a block of a node without an affinity", {AFFINITY: (2, affinity("a", "10.0.0.0/30", "pending")),
                                               BLOCK: (4, block(affinity="host:b"))}, f"OR7 {BLOCK}"),
    ("a confirmed affinity without a block", {"affinity/a/10.0.0.4/30": (5, affinity("a", "10.0.0.4/30"))},
     "OR8 affinity/a/10.0.0.4/30"),
    ("a confirmed affinity for a block of nobody", {BLOCK: (4, block(affinity=None))}, f"OR8 {AFFINITY}"),
    ("a row of the revision 0", {AFFINITY: (0, affinity("a", "10.0.0.0/30"))}, f"OR10 {AFFINITY}"),
    ("a row past the last revision", {AFFINITY: (LAST_REVISION + 1, affinity("a", "10.0.0.0/30"))}, f"OR10 {AFFINITY}"),
    ("a counter past the last revision", {POOLS: (LAST_REVISION + 1, pools(pool()))}, "OR10 counter"),
]

# ---- calls


def made(command, members=(), variables=()):
    """A good call with these members and variables set: its environment, its version and its input."""
    found, env = good_config(command), good_env(command)
    if command == "CHECK":
        found["prevResult"] = {"ips": [{"address": "10.0.0.0/30"}]}
    for path, value in members:
        found = with_member(found, path, value)
    for name, value in variables:
        env = with_variable(env, name, value)
    return env, found["cniVersion"], text_of(found)


ONLY_IPV6 = [(("ipam", "assign_ipv4"), False), (("ipam", "assign_ipv6"), True)]
BOTH = [(("ipam", "assign_ipv6"), True)]
PREVIOUS = ("prevResult", "ips")
SPENT = {POOLS: (LAST_REVISION, pools(pool()))}


def named(family, *names):
    return [(("ipam", f"ipv{family}_pools"), list(names))]


def asking(address, container="c2"):
    return [("CNI_CONTAINERID", container), ("CNI_ARGS", f"IP={address}")]


# a name, what is changed of the good rows, the command, its members and variables, and code and details
BROKEN_WISHES = [
    ("no pools", {key: None for key in GOOD_ROWS}, "ADD", [], [], 100, "IPv4"),
    ("a pool that is disabled", {POOLS: (1, pools(pool(disabled=True)))}, "ADD", [], [], 100, "IPv4"),
    ("a pool for those that name it", {POOLS: (1, pools(pool(assignmentMode="Manual")))}, "ADD", [], [], 100, "IPv4"),
    ("a pool for other nodes", {POOLS: (1, pools(pool(nodeSelector="zone == 'west'")))}, "ADD", [], [], 100, "IPv4"),
    ("a pool whose selector the labels miss", {POOLS: (1, pools(pool(nodeSelector="zone == 'west'")))}, "ADD",
     [(("nodeLabels",), {"zone": "east"})], [], 100, "IPv4"),
    ("all reserved", {"reservations": (5, compact({"reservations": [{"name": "r", "reservedCIDRs": ["10.0.0.0/8"]}]}))},
     "ADD", [], [], 100, "IPv4"),
    ("a node without a block, and none to be claimed or borrowed", {"config": (5, config(False, 0, True))}, "ADD",
     [(("nodename",), "b")], [], 100, "IPv4"),
    ("no pool of IPv6", {}, "ADD", ONLY_IPV6, [], 100, "IPv6"),
    ("pools of the other family", {POOLS: (1, pools(pool(), pool(cidr="2001:db8::/120", blockSize=122, name="q")))},
     "ADD", ONLY_IPV6 + named(6, "p"), [], 107, "p"),
    ("an address that is free", {}, "CHECK", [(PREVIOUS, [{"address": "10.0.0.1/30"}])], [], 102, "10.0.0.1"),
    ("an address of another container", {}, "CHECK", [], [("CNI_CONTAINERID", "c2")], 102, "10.0.0.0"),
    ("an address of another network", {}, "CHECK", [(("name",), "other")], [], 102, "10.0.0.0"),
    ("an address of no pool", {}, "CHECK", [(PREVIOUS, [{"address": "10.9.0.0/30"}])], [], 102, "10.9.0.0"),
    ("an address of the other family", {}, "CHECK", [(PREVIOUS, [{"address": "2001:DB8::1/64"}])], [], 102, "2001:db8::1"),
    ("a second address that is free", {}, "CHECK", [(PREVIOUS, [{"address": "10.0.0.0/8"}, {"address": "10.0.0.3/8"}])], [],
     102, "10.0.0.3"),
    ("a count at its limit", {HANDLE: (3, handle("net.c1", {"10.0.0.0/30": 2**32 - 1}))}, "ADD", [], [], 104, ""),
    ("a count at its limit, and one address asked for", {HANDLE: (3, handle("net.c1", {"10.0.0.0/30": 2**32 - 1}))}, "ADD",
     [], asking("10.0.0.2", "c1"), 104, ""),
    ("no revision for an ADD", SPENT, "ADD", [], [], 105, ""),
    ("no revision for a DEL", SPENT, "DEL", [], [], 105, ""),
    ("no revision for GC", SPENT, "GC", [], [], 105, ""),
    ("a pool of no such name", {}, "ADD", named(4, "x"), [], 107, "x"),
    ("a pool of no such CIDR", {}, "ADD", named(4, "10.0.0.0/30"), [], 107, "10.0.0.0/30"),
    ("a second pool of no such name", {}, "ADD", named(4, "p", "x", "y"), [], 107, "x"),
    ("a pool that is named and disabled", {POOLS: (1, pools(pool(disabled=True)))}, "ADD", named(4, "p"), [], 107, "p"),
    ("an address of no pool is asked for", {}, "ADD", [], asking("10.9.0.1"), 108, "10.9.0.1"),
    ("an address behind the pool is asked for", {}, "ADD", [], asking("10.0.0.8"), 108, "10.0.0.8"),
    ("an address of IPv6 is asked for", {}, "ADD", [], asking("2001:db8:0:0::5"), 108, "2001:db8::5"),
    ("an address of a disabled pool is asked for", {POOLS: (1, pools(pool(disabled=True)))}, "ADD", [], asking("10.0.0.1"),
     108, "10.0.0.1"),
    ("an address of a pool for other nodes is asked for", {POOLS: (1, pools(pool(nodeSelector="has(gpu)")))}, "ADD", [],
     asking("10.0.0.1"), 108, "10.0.0.1"),
    ("an address is asked for that is held", {}, "ADD", [], asking("10.0.0.0"), 109, "net.c1"),
    ("an address is asked for by who holds it", {}, "ADD", [], asking("10.0.0.0", "c1"), 109, "net.c1"),
    ("an address of a block of another node is asked for", {"config": (5, config(True, 0, True))}, "ADD",
     [(("nodename",), "b")], asking("10.0.0.1"), 110, "10.0.0.0/30"),
    ("STATUS without pools", {key: None for key in GOOD_ROWS}, "STATUS", [], [], 112, "IPv4"),
    ("STATUS of a pool that is disabled", {POOLS: (1, pools(pool(disabled=True)))}, "STATUS", [], [], 112, "IPv4"),
    ("STATUS of a pool for other nodes", {POOLS: (1, pools(pool(nodeSelector="!has(gpu)")))}, "STATUS",
     [(("nodeLabels",), {"gpu": ""})], [], 112, "IPv4"),
    ("STATUS of both families", {}, "STATUS", BOTH, [], 112, "IPv6"),
    ("STATUS of a pool of no such name", {}, "STATUS", named(4, "x"), [], 112, "x"),
]


def scenario(title, lines):
    return "\n".join([title + "."] + lines)


def stated_scenarios():
    """The calls of tools/tables/cni_table.py, those of one code together."""
    by_code = {}
    for env, stdin, want in stated_calls():
        word, version, code, details = want.split(" ", 3)
        assert word == "refused"
        by_code.setdefault(int(code), []).append((env, stdin, refusal(version, int(code), details)))
    for code, calls in sorted(by_code.items()):
        lines = [line for env, stdin, reply in calls for line in call(env, stdin, reply)]
        yield scenario(f"Each is refused with the code {code}", rows({}) + unchanged(lines))


GOOD_REPLIES = {
    "ADD": '0 {"cniVersion":"1.0.0","ips":[{"address":"10.0.0.1/32"}]}',
    "DEL": "0 |",
    "CHECK": "0 |",
    "GC": "0 |",
    "STATUS": "0 |",
}


def good_scenario():
    """Nothing is broken: each command succeeds, on rows of its own."""
    for command, reply in GOOD_REPLIES.items():
        env, _, stdin = made(command)
        yield scenario(f"{command} with nothing broken succeeds", rows({}) + call(env, stdin, reply))


def row_scenarios():
    commands = ("ADD", "DEL", "CHECK", "GC", "STATUS")
    for place, (title, changes, details) in enumerate(BROKEN_ROWS):
        env, version, stdin = made(commands[place % len(commands)])
        yield scenario(f"Rows have {title}", rows(changes) + unchanged(call(env, stdin, refusal(version, 106, details))))


def wish_scenarios():
    for title, changes, command, members, variables, code, details in BROKEN_WISHES:
        env, version, stdin = made(command, members, variables)
        yield scenario(f"There is {title}", rows(changes) + unchanged(call(env, stdin, refusal(version, code, details))))


def all_scenarios():
    for made in (stated_scenarios(), good_scenario(), row_scenarios(), wish_scenarios()):
        yield from made
