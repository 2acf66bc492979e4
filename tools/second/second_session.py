"""Sessions of the daemon by the second allocator: the reply to each line, written only from the rules and
formats. One session runs at a time, and its requests run to their answers."""

import re

import cni_table
import request_table
import session_table
from resource_table import Fault, parsed
from second_allocator import Cluster
from second_records import Block, Cidr, Datastore, compact, key_of, kind_of, order_of
from selector_table import Bad

LIVE = request_table.list_of(request_table.handle)
MOST_CHANGES = 1024
PAGE_PARTS = 4096

# the text of an opening of the datastore: seconds and a random word
OPENED = re.compile(r"[0-9]+-[0-9a-f]{16}")

# a grace that no session outlasts
LONG_GRACE = 60

MESSAGES = {
    1: "incompatible CNI version",
    4: "invalid environment variable",
    5: "input or output fault",
    6: "cannot decode network configuration",
    7: "invalid network configuration",
    11: "try again later",
    100: "no address available",
    102: "address not recorded",
    103: "datastore full",
    104: "handle count full",
    105: "revisions spent",
    107: "no such pool",
    108: "address not in a usable pool",
    109: "address taken",
    110: "block not affine to this node",
    111: "no reply from the daemon",
    112: "plugin not available",
}


def error(version, code, details):
    """The status and the bytes of a CNI error."""
    return 1, compact({"cniVersion": version, "code": code, "details": details, "msg": MESSAGES[code]}) + "\n"


# ---- routes


class Routes(Datastore):
    """A datastore that keeps the changes of its routes."""

    def __init__(self, rows, counter):
        super().__init__(rows, counter)
        self.changes, self.opened = [], counter

    def routes(self):
        bodies = [body for _, body in self.listed("affinity") if body["state"] == "confirmed"]
        return [{"cidr": body["cidr"], "node": body["node"]} for body in bodies]

    def route_at(self, key):
        """The route of the affinity that has this key, where it is confirmed."""
        body = self.rows[key][1] if key in self.rows else {}
        return {"cidr": body["cidr"], "node": body["node"]} if body.get("state") == "confirmed" else None

    def apply(self, call):
        key = call[1] if call[0] == "delete" else key_of(call[1])
        before = self.route_at(key)
        super().apply(call)
        after = self.route_at(key)
        if before != after:
            self.changes.append({**(after or before), "revision": self.counter, "up": after is not None})

    def since(self, revision):
        floor = self.changes[-MOST_CHANGES - 1]["revision"] if len(self.changes) > MOST_CHANGES else self.opened
        if revision < floor:
            return {"compacted": floor}
        if revision > self.counter:
            return {"ahead": self.counter}
        return {"changes": [one for one in self.changes if one["revision"] > revision], "revision": self.counter}


# ---- pages of rows


def parts_of(body):
    """The row, the addresses that a block has given, and the blocks of a handle."""
    held = [place for place in body.get("allocations", []) if place is not None]
    return 1 + len(held) + (len(body["block"]) if "handleID" in body else 0)


def page_of(store, kind, after):
    """The rows of the kind after the key, while there is room."""
    keys = sorted((key for key in store.rows if kind_of(key) == kind), key=order_of)
    if after is not None:
        keys = [key for key in keys if order_of(key) > order_of(after)]
    taken, parts = [], 0
    for key in keys:
        if parts >= PAGE_PARTS:
            break
        revision, body = store.rows[key]
        taken.append({"body": compact(body), "key": key, "revision": revision})
        parts += parts_of(body)
    more = {"more": True} if len(taken) < len(keys) else {}
    return {**more, "revision": store.counter, "rows": taken}


# ---- usage


def usage_of(store):
    """The pools in the order of their table, and what their blocks come to."""
    pools = store.rows["pools"][1]["pools"] if "pools" in store.rows else []
    reserved = [Cidr.read(cidr) for one in (store.rows["reservations"][1]["reservations"] if "reservations" in store.rows else []) for cidr in one["reservedCIDRs"]]
    told = []
    for pool in pools:
        cidr = Cidr.read(pool["cidr"])
        blocks = [block for block in (Block(body) for _, body in store.listed("block")) if cidr.holds(block.cidr.family, block.cidr.base)]
        kept = [any(one.holds(block.cidr.family, block.cidr.base + n) for one in reserved) for block in blocks for n in block.queue]
        told.append({
            "addresses": str(cidr.size()), "blocks": len(blocks), "cidr": pool["cidr"], "disabled": pool["disabled"],
            "free": kept.count(False), "name": pool["name"], "reserved": kept.count(True), "used": sum(len(block.held) for block in blocks),
        })
    return {"pools": told, "revision": store.counter}


# ---- CNI calls


def asked(env, stdin):
    """The version and what a call begins, as (version, word, request), or (status, bytes) of what is told at once."""
    command = cni_table.last(env, "CNI_COMMAND")
    text = "{}" if command == "VERSION" and stdin == "" else stdin
    try:
        config = parsed(text)
        told = cni_table.read(env, text)
    except Fault:
        return error("1.0.0", 6, "")
    if told.startswith("refused "):
        _, version, code, details = told.split(" ", 3)
        return error(version, int(code), details)
    if command == "VERSION":
        version = told.split(" ")[1]
        return 0, compact({"cniVersion": version, "supportedVersions": cni_table.VERSIONS}) + "\n"
    return config["cniVersion"], *begun(command, env, config)


def begun(command, env, config):
    network, node, ipam = config["name"], config["nodename"], config["ipam"]
    handle = f"{network}.{cni_table.last(env, 'CNI_CONTAINERID')}"
    if command == "DEL":
        return "del", {"handle": handle}
    if command == "CHECK":
        ips = [str(cni_table.with_prefix(one["address"])[0]) for one in config["prevResult"].get("ips", [])]
        return "check", {"addresses": ips, "handle": handle}
    if command == "GC":
        live = [f"{network}.{item['containerID']}" for item in config[cni_table.VALID]]
        return "collect", {"live": live, "scope": {"network": network, "node": node}}
    wishes = {
        "node": node,
        "labels": config.get("nodeLabels", {}),
        "ipv4": cni_table.truth(ipam.get("assign_ipv4", True)),
        "ipv6": cni_table.truth(ipam.get("assign_ipv6", False)),
        "pools4": ipam.get("ipv4_pools", []),
        "pools6": ipam.get("ipv6_pools", []),
    }
    if command == "STATUS":
        return "probe", wishes
    args = cni_table.arguments(env)
    pairs = {"network": network, "node": node, "namespace": args.get("K8S_POD_NAMESPACE"), "pod": args.get("K8S_POD_NAME")}
    wishes |= {"handle": handle, "secondary": {name: text for name, text in pairs.items() if text}}
    if args.get("IP"):
        wishes["address"] = str(cni_table.address(args["IP"]))
    return "add", wishes


def result(version, addresses):
    ips = [{"address": f"{one}/{128 if ':' in one else 32}"} for one in addresses]
    if version in ("0.3.0", "0.3.1", "0.4.0"):
        ips = [{**ip, "version": "6" if ":" in ip["address"] else "4"} for ip in ips]
    return 0, compact({"cniVersion": version, "ips": ips}) + "\n"


def told(version, word, request, answer):
    """The status and the bytes of the answer of a call's request."""
    if isinstance(answer, str):
        code = {"checked": 0, "full": 103, "spent": 105, "fault": 5}[answer]
        return error(version, code, "keeper" if answer == "fault" else "") if code else (0, "")
    ((kind, inner),) = answer.items()
    if kind in ("deleted", "collected", "ready"):
        return 0, ""
    if kind == "added":
        return result(version, [one["address"] for one in inner])
    if kind == "addedThis":
        return result(version, [inner["address"]])
    if kind == "exhausted":
        return error(version, 112 if word == "probe" else 100, f"IPv{inner['family']}")
    if kind == "noPool":
        return error(version, 112 if word == "probe" else 107, inner["name"])
    if kind == "again":
        return error(version, 11, "64 lost races" if inner["lost"] == 64 else "64 claims")
    code, details = {
        "notRecorded": (102, inner.get("address")),
        "countFull": (104, ""),
        "notInPool": (108, request.get("address")),
        "taken": (109, inner.get("holder")),
        "notAffine": (110, inner.get("cidr")),
    }[kind]
    return error(version, code, details)


# ---- lines


class Bare(Exception):
    """The line asks nothing that is known."""


def wish(line):
    """What the line asks: its word and what belongs to it."""
    try:
        value = parsed(line.decode())
        if set(value) == {"env", "stdin"}:
            env, stdin = value["env"], value["stdin"]
            if not isinstance(env, dict) or not all(isinstance(one, str) for one in [*env.values(), stdin]):
                raise Bare
            return "call", (list(env.items()), stdin)
        if "rows" in value:
            session_table.page(value)
            return "rows", (value["rows"], value.get("after"))
        ((name, inner),) = value.items()
        if name == "request":
            ((word, request),) = request_table.request(inner).items()
            if word == "collect" and "at" in inner["collect"]:
                raise Bare
            return "request", (word, request)
        if name == "feed":
            return "feed", LIVE(inner)
        if name == "routesSince" and type(inner) is int and inner >= 0:
            return "since", inner
        if name in ("stop", "routes", "opened", "usage") and inner is True:
            return name, None
    except (ValueError, RecursionError, Bad, Fault, session_table.Bad):
        pass
    raise Bare


class Sessions:
    """The sessions over one cluster, one after the other in one slot."""

    def __init__(self, rows, has_routes, counter=0):
        self.cluster, self.slot, self.has_routes = Cluster(Routes(dict(rows), counter)), 0, has_routes
        self.opened = None

    def waiting(self):
        return self.cluster.slots.get(self.slot)

    def answered(self):
        """Makes calls to the answer, or None where a collection comes to wait."""
        while self.slot in self.cluster.slots:
            if self.waiting().waits():
                return None
            answer = self.cluster.turn(self.slot)
        return answer

    def ends(self):
        if self.waiting():
            self.cluster.stop(self.slot)

    def refused(self, why):
        return {"refused": why}

    def reply(self, line, found=None):
        """The reply. What was found counts only where a clock decides."""
        try:
            word, inner = wish(line)
        except Bare:
            return self.refused("line")
        return getattr(self, f"reply_to_{word}")(inner, found)

    def reply_to_call(self, inner, _):
        if self.waiting():
            return self.refused("waiting")
        call = asked(*inner)
        if len(call) == 3:
            version, word, request = call
            self.cluster.begin(self.slot, word, request)
            answer = self.answered()
            if answer is None:
                self.cluster.feed(self.slot, 0, request["live"])
                answer = self.answered()
            call = told(version, word, request, answer)
        return {"status": call[0], "stdout": call[1]}

    def reply_to_request(self, inner, _):
        if self.waiting():
            return self.refused("waiting")
        self.cluster.begin(self.slot, *inner)
        answer = self.answered()
        return {"waiting": True} if answer is None else {"answer": answer}

    def reply_to_feed(self, live, found):
        if not self.waiting():
            return self.refused("not waiting")
        grace, soon = self.waiting().request["grace"], self.refused("too soon")
        if grace >= LONG_GRACE or grace > 0 and found == soon:
            return soon
        self.cluster.feed(self.slot, grace, live)
        return {"answer": self.answered()}

    def reply_to_stop(self, _, __):
        if not self.waiting():
            return self.refused("not waiting")
        self.cluster.stop(self.slot)
        return {"stopped": True}

    def reply_to_routes(self, _, __):
        if not self.has_routes:
            return self.refused("line")
        return {"revision": self.cluster.store.counter, "routes": self.cluster.store.routes()}

    def reply_to_rows(self, inner, _):
        return page_of(self.cluster.store, *inner)

    def reply_to_usage(self, _, __):
        return usage_of(self.cluster.store)

    def reply_to_opened(self, _, found):
        """The text of the opening, which the daemon draws: what was found first, where it has the form, and always that."""
        text = str((found or {}).get("opened"))
        if self.opened is None and OPENED.fullmatch(text):
            self.opened = text
        return {"opened": self.opened}

    def reply_to_since(self, revision, _):
        return self.cluster.store.since(revision) if self.has_routes else self.refused("line")


# ---- what the client makes of a reply

ONE_LINE = 1_048_576
VARIABLES = ("CNI_COMMAND", "CNI_CONTAINERID", "CNI_NETNS", "CNI_IFNAME", "CNI_ARGS")


def line_of_call(env, stdin):
    """The line that the client sends, or None where it is too long."""
    line = compact({"env": {name: env[name] for name in VARIABLES if name in env}, "stdin": stdin}).encode() + b"\n"
    return line if len(line) <= ONE_LINE and len(stdin.encode()) <= ONE_LINE else None


def version_of(stdin):
    try:
        said = parsed(stdin).get("cniVersion")
    except Fault:
        said = None
    return said if said in cni_table.VERSIONS else "1.0.0"


def taken(stdin, came):
    """The status and the bytes of the client, to which so much came before the input ended."""
    front, end, _ = came.partition(b"\n")
    try:
        if not end or len(front) >= ONE_LINE:
            raise Fault
        value = parsed(front.decode())
        status, stdout = value.get("status"), value.get("stdout")
        if set(value) != {"status", "stdout"} or type(status) is not int or status > 1 or not isinstance(stdout, str):
            raise Fault
        return status, stdout.encode()
    except (UnicodeDecodeError, Fault):
        status, stdout = error(version_of(stdin), 111, "reply")
        return status, stdout.encode()
