"""The table of what an operator is shown of thirteen datastores.

Each datastore is made of pools, blocks and reservations, and its rows are written from them. What must be
shown is counted from the same values, address by address, and not from the rows.
"""

import collections
import ipaddress
import json
import re

def J(v): return json.dumps(v, separators=(',', ':'), ensure_ascii=False)
def net(c): return ipaddress.ip_network(c)
def size(c): return net(c).num_addresses
def ctext(c):
    n = net(c); return f"{n.network_address.compressed}/{n.prefixlen}"
class Base:
    def __init__(s, pools=(), blocks=(), reservations=(), affinities=None, config=None, above=(), uses=None):
        # blocks: (cidr, node, {ordinal: (handle, pairs)}); above: by how much a handle's count of a block is too high;
        # uses: disabled and manual pools; config: the three settings by their names
        s.pools, s.blocks, s.res, s.above, s.uses = list(pools), list(blocks), list(reservations), list(above), uses or {}
        s.aff = affinities if affinities is not None else [(n, c, "confirmed") for c, n, h in s.blocks if n]
        s.config = config
    def rows(s):
        rows = {}
        if s.pools: rows["pools"] = J({"pools": [s.pool_row(*pool) for pool in s.pools]})
        if s.config: rows["config"] = J(dict(sorted(s.config.items())))
        if s.res: rows["reservations"] = J({"reservations": [{"name": n, "reservedCIDRs": l} for n, l in s.res]})
        handles = collections.defaultdict(dict)
        for c, n, h in s.blocks:
            attrs, alloc = [], []
            for o in range(size(c)):
                if o in h:
                    a = {"handle_id": h[o][0], "secondary": dict(sorted(h[o][1].items()))}
                    if a not in attrs: attrs.append(a)
                    alloc.append(attrs.index(a))
                    handles[h[o][0]][c] = handles[h[o][0]].get(c, 0) + 1
                else: alloc.append(None)
            rows["block/" + c] = J({"affinity": "host:" + n if n else None, "allocations": alloc, "attributes": attrs, "cidr": c,
                "sequenceNumber": 5, "sequenceNumberForAllocation": dict(sorted((str(o), 5) for o in h)), "unallocated": [o for o in range(size(c)) if o not in h]})
        for i, c, more in s.above:
            handles[i][c] = handles[i].get(c, 0) + more
        for n, c, st in s.aff:
            rows[f"affinity/{n}/{c}"] = J({"cidr": c, "node": n, "state": st})
        for i, m in handles.items():
            rows["handle/" + i] = J({"block": dict(sorted(m.items())), "handleID": i})
        return [(k, 9 + at % 5, rows[k]) for at, k in enumerate(sorted(rows, key=lambda k: k.encode()))]
    def pool_row(s, name, cidr, size):
        manual = {"assignmentMode": "Manual"} if "manual" in s.uses.get(name, "") else {}
        return {**manual, "blockSize": size, "cidr": cidr, "disabled": "disabled" in s.uses.get(name, ""), "name": name}
    def use(s, name): return s.uses.get(name, "usable").split()[0]
    def left(s, pool):
        """The slots of the pool that no block with a node has."""
        slots = size(pool[1]) // size(f"{net(pool[1]).network_address}/{pool[2]}")
        return slots - sum(1 for x in s.counts() if x["node"] is not None and s.inpool(pool[1], x))
    def order(s): return sorted(s.blocks, key=lambda b: (net(b[0]).version, int(net(b[0]).network_address), net(b[0]).prefixlen))
    def reserved(s, a): return any(a in net(c) for n, l in s.res for c in l if net(c).version == a.version)
    def counts(s):
        out = []
        for c, n, h in s.order():
            base = net(c).network_address
            free = sum(1 for o in range(size(c)) if o not in h and not s.reserved(base + o))
            told = sum(1 for o in h if "node" in h[o][1])
            bor = sum(1 for o in h if "node" in h[o][1] and h[o][1]["node"] != n)
            out.append(dict(cidr=c, node=n, size=size(c), used=len(h), free=free, told=told, bor=bor))
        return out
    def inpool(s, p, c): return net(c["cidr"]).version == net(p).version and net(c["cidr"]).subnet_of(net(p))
def table(rows):
    w = [max(len(r[k].encode()) for r in rows) for k in range(len(rows[0]))]
    blanks = lambda k, text: " " * (w[k] - len(text.encode()))
    return "".join("  ".join((r[k] + blanks(k, r[k]) if k == 0 else blanks(k, r[k]) + r[k]) for k in range(len(r))) + "\n" for r in rows)
def pools(b):
    rows = [["CIDR", "NAME", "USE", "ADDRESSES", "USED", "FREE IN BLOCKS", "PERCENT USED", "BLOCKS LEFT", "BLOCKS"]]
    cs = b.counts()
    for n, c, sz in b.pools:
        mine = [x for x in cs if b.inpool(c, x)]
        u = sum(x["used"] for x in mine)
        free, percent = sum(x["free"] for x in mine), u * 100 // size(c)
        rows.append([ctext(c), n, b.use(n), *map(str, (size(c), u, free)), f"{percent}%", str(b.left((n, c, sz))), str(len(mine))])
    rows.append(["total", "", "", "", str(sum(x["used"] for x in cs)), str(sum(x["free"] for x in cs)), "", "", str(len(cs))])
    return table(rows)
def js(b):
    cs = b.counts(); l = []
    for n, c, sz in b.pools:
        mine = [x for x in cs if b.inpool(c, x)]
        l.append({
            "addresses": str(size(c)), "blocks": len(mine), "blocksLeft": str(b.left((n, c, sz))), "cidr": ctext(c),
            "freeInBlocks": sum(x["free"] for x in mine), "name": n, "use": b.use(n), "used": sum(x["used"] for x in mine)})
    return J({"blocks": len(cs), "freeInBlocks": sum(x["free"] for x in cs), "pools": l, "used": sum(x["used"] for x in cs)}) + "\n"
def blocks(b):
    rows = [["BLOCK", "NODE", "STATE", "USED", "BORROWED"]]
    for x in b.counts():
        rows.append([ctext(x["cidr"]), x["node"] or "-", state(b, x) or "-", f"{x['used']}/{x['size']}", str(x["bor"]) if x["told"] else "-"])
    return table(rows)
def state(b, x):
    return next((s for n, c, s in b.aff if n == x["node"] and c == x["cidr"]), None)
def node(b, name):
    rows = [["BLOCK", "STATE", "ADDRESSES", "USED", "FREE"]]
    mine = [x for x in b.counts() if x["node"] == name]
    for x in mine: rows.append([ctext(x["cidr"]), state(b, x) or "-", str(x["size"]), str(x["used"]), str(x["free"])])
    rows.append(["total", "", "", *(str(sum(x[key] for x in mine)) for key in ("used", "free"))])
    return table(rows) + "\n" + addresses(b, ["borrowed", name])
def node_json(b, name):
    mine = [x for x in b.counts() if x["node"] == name]
    return J({
        "blocks": [{"block": ctext(x["cidr"]), "free": x["free"], "size": x["size"], "state": state(b, x), "used": x["used"]} for x in mine],
        "borrowed": json.loads(addresses_json(b, ["borrowed", name]))["addresses"], "node": name}) + "\n"
def too_high(b, handle):
    """The counts of the handle that are too high: each with its block, the count and how many addresses there are."""
    for c, n, h in b.order():
        more = sum(more for i, at, more in b.above if i == handle and at == c)
        held = sum(1 for one, pairs in h.values() if one == handle)
        if more: yield c, held + more, held
def handle(b, name):
    rows = [["COUNT TOO HIGH IN", "COUNT", "IN USE"]]
    rows += [[ctext(c), str(count), str(held)] for c, count, held in too_high(b, name)]
    return addresses(b, ["handle", name]) + "\n" + table(rows)
def handle_json(b, name):
    return J({
        **json.loads(addresses_json(b, ["handle", name])),
        "countsTooHigh": [{"block": ctext(c), "count": count, "inUse": held} for c, count, held in too_high(b, name)], "handle": name}) + "\n"
SETTINGS = {"autoAllocateBlocks": True, "maxBlocksPerHost": 0, "strictAffinity": False}
def config(b):
    values = {**SETTINGS, **(b.config or {})}
    return table([["SETTING", "VALUE", "SET"], *([name, J(value), "yes" if b.config else "no"] for name, value in values.items())])
def config_json(b):
    return J({name: {"set": bool(b.config), "value": value} for name, value in {**SETTINGS, **(b.config or {})}.items()}) + "\n"
def metrics(b):
    cs, rows = b.counts(), b.rows()
    def family(name, told, samples):
        return f"# HELP {name} {told}\n# TYPE {name} gauge\n" + "".join(f"{name}{labels} {number}\n" for labels, number in samples)
    def pools_of(number):
        for pool in b.pools:
            yield f'{{cidr="{ctext(pool[1])}",pool="{pool[0]}"}}', number(pool, [x for x in cs if b.inpool(pool[1], x)])
    def nodes_of(number):
        for name in dict.fromkeys(x["node"] for x in cs if x["node"] is not None):
            yield f'{{node="{name}"}}', number([x for x in cs if x["node"] == name])
    def total(key): return lambda pool, mine: sum(x[key] for x in mine)
    def own(key): return lambda mine: sum(x[key] for x in mine)
    return "".join(family(*one) for one in (
        ("ipam_pool_addresses", "Addresses of the pool.", pools_of(lambda pool, mine: size(pool[1]))),
        ("ipam_pool_addresses_in_use", "Addresses of the pool that are in use.", pools_of(total("used"))),
        ("ipam_pool_addresses_free_in_blocks", "Addresses of the pool's blocks that could still be given.", pools_of(total("free"))),
        ("ipam_pool_blocks", "Blocks of the pool.", pools_of(lambda pool, mine: len(mine))),
        ("ipam_pool_blocks_left", "Blocks of the pool that a node can still take.", pools_of(lambda pool, mine: b.left(pool))),
        ("ipam_node_addresses", "Addresses of the node's blocks.", nodes_of(own("size"))),
        ("ipam_node_addresses_in_use", "Addresses of the node's blocks that are in use.", nodes_of(own("used"))),
        ("ipam_node_addresses_free_in_blocks", "Addresses of the node's blocks that could still be given.", nodes_of(own("free"))),
        ("ipam_node_blocks", "Blocks of the node.", nodes_of(len)),
        ("ipam_blocks", "Blocks.", [("", len(cs))]),
        ("ipam_blocks_limit", "Blocks that there may be.", [("", 16384)]),
        ("ipam_rows", "Rows.", [("", len(rows))]),
        ("ipam_rows_limit", "Rows that there may be.", [("", 262144)]),
        ("ipam_revision", "Greatest revision of a row.", [("", max((row[1] for row in rows), default=0))])))
def address(b, a):
    ad = ipaddress.ip_address(a); t = ad.compressed
    for c, n, h in b.blocks:
        if net(c).version == ad.version and ad in net(c):
            o = int(ad) - int(net(c).network_address)
            if o in h:
                return f"{t} in use\nhandle {h[o][0]}\nattributes {J(dict(sorted(h[o][1].items())))}\nblock {ctext(c)}\nnode {n or '-'}\n"
    if not any(net(c).version == ad.version and ad in net(c) for n, c, s in b.pools): return t + " in no pool\n"
    return t + (" reserved\n" if b.reserved(ad) else " free\n")
def uses(b):
    """The addresses in use: each with its block, the block's node, its handle and its attributes, in their order."""
    for c, n, h in b.order():
        for o in sorted(h):
            yield (net(c).network_address + o, c, n, *h[o])
def is_chosen(choice, use):
    a, c, n, handle, pairs = use
    match choice:
        case ["addresses"]: return True
        case ["addresses", "--node", node]: return pairs.get("node") == node
        case ["addresses", cidr]: return net(cidr).version == a.version and a in net(cidr)
        case ["borrowed"]: return "node" in pairs and pairs["node"] != n
        case ["borrowed", node]: return pairs.get("node") == node != n
        case ["handle", name]: return handle == name
def word(value):
    if value is None: return "-"
    return value if re.fullmatch("[A-Za-z0-9][A-Za-z0-9_.-]{0,252}", value) else J(value)
KEYS = ["network", "node", "namespace", "pod"]
def addresses(b, choice):
    chosen = [use for use in uses(b) if is_chosen(choice, use)]
    if choice[0] == "borrowed":
        rows = [["ADDRESS", "NODE", "BLOCK", "NODE OF BLOCK", "HANDLE"]]
        rows += [[a.compressed, word(pairs["node"]), ctext(c), n or "-", handle] for a, c, n, handle, pairs in chosen]
    else:
        rows = [["ADDRESS", "HANDLE", "NETWORK", "NODE", "NAMESPACE", "POD"]]
        rows += [[a.compressed, handle, *(word(pairs.get(key)) for key in KEYS)] for a, c, n, handle, pairs in chosen]
    return table(rows)
def addresses_json(b, choice):
    chosen = [use for use in uses(b) if is_chosen(choice, use)]
    return J({"addresses": [
        {"address": a.compressed, "block": ctext(c), "blockNode": n, "handle": handle, **{key: pairs.get(key) for key in sorted(KEYS)}}
        for a, c, n, handle, pairs in chosen]}) + "\n"
B = []
P = ("p", "10.0.0.0/29", 30)
B.append(Base())
B.append(Base([P]))
B.append(Base([P], [("10.0.0.0/30", "a", {0: ("n.c1", {"node": "a"}), 1: ("n.c2", {"node": "b"})})], [("r", ["10.0.0.1/32", "10.0.0.2/32"])]))
B.append(Base([P], [("10.0.0.0/30", None, {0: ("n.c1", {"node": "a"}), 3: ("n.c1", {})}), ("10.0.0.4/30", "b", {0: ("n.c2", {}), 1: ("n.c3", {"namespace": "default", "pod": "web-1"})})]))
B.append(Base([P], [("10.0.0.0/30", "a", {}), ("10.0.0.4/30", "b", {})], [("r", ["10.0.0.0/29"])], [("a", "10.0.0.0/30", "pendingDeletion"), ("b", "10.0.0.0/30", "pending"), ("b", "10.0.0.4/30", "confirmed")]))
B.append(Base([("everything", "::/0", 124), ("all-v4", "0.0.0.0/0", 30)], [("2001:db8::/124", "node-1.example", {2: ("n.c1", {"node": "node-1.example"}), 15: ("n.c9", {"node": "node-2.example"}), 7: ("n.c9", {"node": "node-2.example"})}), ("192.168.0.252/30", "node-1.example", {3: ("n.c1", {"node": "node-1.example"})})], [("half", ["::/1"]), ("v4", ["192.168.0.254/31"])]))
B.append(Base([("full", "10.1.0.0/30", 30), ("half", "10.2.0.0/30", 30), ("eighth", "10.3.0.0/29", 30), ("one", "10.4.0.1/32", 32), ("six", "fd00::/126", 126)],
  [("10.1.0.0/30", "a", {o: (f"n.c{o}", {"node": "a"}) for o in range(4)}), ("10.2.0.0/30", "a", {1: ("n.c5", {"node": "a"}), 2: ("n.c5", {"node": "c"})}), ("10.3.0.4/30", "b", {3: ("n.c6", {})}), ("10.4.0.1/32", "b", {0: ("n.c7", {"node": "a"})}), ("fd00::/126", None, {0: ("n.c8", {"node": "b"})})],
  [("r", ["10.3.0.4/31", "10.2.0.0/32"]), ("s", ["fd00::2/127", "10.3.0.5/32"])]))
B.append(Base([P], [("10.0.0.4/30", "a", {0: ("n.c1", {"a": "", "b": 'say "hi"\\', "node": "a\nb"})})]))
B.append(Base([("big", "10.0.0.0/8", 23)], [("10.16.0.0/23", "a", {o: (f"n.c{o % 7}", {"node": "ab"[o % 2]}) for o in range(0, 300, 3)})], [("r", ["10.16.0.0/24"])]))
B.append(Base([("bits", "fd00::/64", 122), ("edge", "ffff:ffff:ffff:ffff:ffff:ffff:ffff:ff00/120", 122)], [("ffff:ffff:ffff:ffff:ffff:ffff:ffff:ffc0/122", "z", {63: ("n.last", {})})]))
B.append(Base([P], [("10.0.0.0/30", "a", {0: ("net.c1", {"namespace": "default", "network": "net", "node": "b", "pod": "web-0"}), 2: ("net.c2", {"network": "", "node": "-", "pod": "a b"}), 3: ("net.c3", {"namespace": "-x", "network": "é", "node": "", "pod": "x" * 253})}),
  ("10.0.0.4/30", None, {1: ("net.c2", {"network": "net", "node": "b", "pod": "web_1.x"})})]))
B.append(Base([P], [("10.0.0.0/30", "a", {0: ("net.c1", {"node": "a"}), 1: ("net.c1", {"node": "b"}), 2: ("net.c2", {"node": "b"})}),
  ("10.0.0.4/30", "b", {1: ("net.c1", {"node": "a"}), 2: ("net.c2", {})})], [("r", ["10.0.0.3/32"])],
  config={"strictAffinity": True, "maxBlocksPerHost": 4294967295, "autoAllocateBlocks": False},
  above=[("net.c1", "10.0.0.0/30", 2), ("net.c2", "10.0.0.4/30", 1), ("net.c3", "10.0.0.4/30", 4294967295), ("net.c3", "10.0.0.0/30", 1)]))
B.append(Base([("off", "10.5.0.0/29", 30), ("named", "10.6.0.0/28", 30), ("both", "10.7.0.0/30", 30), ("all", "::/0", 128)],
  [("10.5.0.0/30", None, {}), ("10.5.0.4/30", "a", {0: ("n.c1", {})}), ("10.6.0.4/30", "b", {}), ("10.7.0.0/30", "a", {})],
  config=SETTINGS, uses={"off": "disabled", "named": "manual", "both": "disabled manual"}))
asks = ["10.0.0.0", "10.0.0.1", "10.0.0.2", "10.0.0.3", "10.0.0.4", "10.0.0.5", "10.0.0.7", "10.0.0.8", "9.255.255.255", "::a00:1", "fd00::"]
extra = {5: ["2001:db8::2", "2001:db8::", "2001:db8::f", "2001:db8::7", "8000::", "7fff:ffff::", "192.168.0.255", "192.168.0.254", "192.168.0.252", "255.255.255.255", "0.0.0.0", "::"],
  6: ["10.1.0.0", "10.1.0.3", "10.2.0.0", "10.2.0.1", "10.2.0.3", "10.3.0.0", "10.3.0.4", "10.3.0.6", "10.3.0.7", "10.4.0.1", "10.4.0.0", "fd00::", "fd00::1", "fd00::2", "fd00::3", "fd00::4"],
  8: ["10.16.0.3", "10.16.0.4", "10.16.1.41", "10.16.1.0", "10.15.255.255"],
  9: ["ffff:ffff:ffff:ffff:ffff:ffff:ffff:ffff", "ffff:ffff:ffff:ffff:ffff:ffff:ffff:fffe", "fd00:0:0:1::"]}
def choices(b):
    """Which addresses are shown: all, those of a pool, of a block and of what has a part of them, of a node."""
    yield ["addresses"]
    yield ["borrowed"]
    cidrs = [*(ctext(c) for n, c, size in b.pools[-1:]), *(ctext(c) for c, n, h in b.blocks[:1])]
    for cidr in dict.fromkeys([*cidrs, "0.0.0.0/0", "10.0.0.2/31", "10.2.0.1/32", "10.16.0.64/26"]):
        yield ["addresses", cidr]
    for node in ("a", "b", "node-2.example"):
        yield ["addresses", "--node", node]
def cases():
    """The words, the rows of a file and what must be shown of them."""
    for i, b in enumerate(B):
        rows = b.rows()
        yield ["show"], rows, pools(b)
        yield ["show", "--json"], rows, js(b)
        yield ["show", "blocks"], rows, blocks(b)
        yield ["show", "config"], rows, config(b)
        yield ["show", "config", "--json"], rows, config_json(b)
        yield ["show", "--metrics"], rows, metrics(b)
        for n in ["a", "b", "node-1.example", "c"] if i < 8 else ["a", "z"]:
            yield ["show", "node", n], rows, node(b, n)
            yield ["show", "node", n, "--json"], rows, node_json(b, n)
        for h in ["n.c1", "n.c9"] if i < 10 else ["net.c1", "net.c2", "net.c3", "x" * 507]:
            yield ["show", "handle", h], rows, handle(b, h)
            yield ["show", "handle", h, "--json"], rows, handle_json(b, h)
        for a in extra.get(i, []) + (asks if i < 5 or i == 7 else []):
            yield ["show", a], rows, address(b, a)
        for choice in choices(b):
            yield ["show", *choice], rows, addresses(b, choice)
            if choice[-1] != "b": yield ["show", *choice, "--json"], rows, addresses_json(b, choice)
