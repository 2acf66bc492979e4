"""The table of documents of resources, and what must be read from each.

The reader below is written from the format alone, over Python's own `json` and `ipaddress`. What is told
of a document is, for each resource, its line and the text of the request that it becomes, or the line of the
document's fault. The first documents are as `kubectl get .. -o json` prints them.
"""

import ipaddress
import json
import re

from selector_table import TEXT_MAX, Bad, Parser, printed

NAME = re.compile(r"[A-Za-z0-9][A-Za-z0-9_.-]{0,252}")
KINDS = ("IPPool", "IPReservation", "IPAMConfig", "IPAMConfiguration")
LISTS = ("List", "IPPoolList", "IPReservationList")
LEVELS = 127


class Fault(Exception):
    """The document is refused with this text."""


# ---- JSON


def whole(text):
    number = int(text)
    return number if 0 <= number < 2**64 and not text.startswith("-") else floating(text)


def floating(text):
    number = float(text)
    if number in (float("inf"), float("-inf")):
        raise ValueError
    return number


def constant(text):
    raise ValueError


def levels(value):
    if isinstance(value, dict):
        return 1 + max((levels(v) for v in value.values()), default=0)
    if isinstance(value, list):
        return 1 + max((levels(v) for v in value), default=0)
    return 0


def texts_of(value):
    if isinstance(value, str):
        yield value
    for inner in value if isinstance(value, list) else ():
        yield from texts_of(inner)
    for key, inner in value.items() if isinstance(value, dict) else ():
        yield key
        yield from texts_of(inner)


def parsed(text):
    try:
        value = json.loads(text, parse_int=whole, parse_float=floating, parse_constant=constant)
        for one in texts_of(value):
            one.encode()
    except (ValueError, RecursionError):
        raise Fault("not JSON")
    if not isinstance(value, dict) or levels(value) > LEVELS:
        raise Fault("not JSON")
    return value


# ---- members

MISSING = object()


def found(value, path):
    for name in path.split("."):
        if not isinstance(value, dict) or name not in value:
            return MISSING
        value = value[name]
    return value


def read(resource, path, good, default=MISSING):
    value = found(resource, path)
    if value is MISSING:
        if default is MISSING:
            raise Fault(path)
        return default
    try:
        return good(value)
    except (ValueError, Bad):
        raise Fault(path)


def of_type(value, kind):
    if type(value) is not kind:
        raise ValueError
    return value


def name(value):
    if not NAME.fullmatch(of_type(value, str)):
        raise ValueError
    return value


def truth(value):
    return of_type(value, bool)


def below(limit):
    def good(value):
        if of_type(value, int) >= limit:
            raise ValueError
        return value

    return good


def address(text):
    if "%" in text or not text.isascii():
        raise ValueError
    return ipaddress.ip_address(text)


def cidr(value):
    base, slash, prefix = of_type(value, str).partition("/")
    if not slash or not re.fullmatch(r"0|[1-9][0-9]{0,2}", prefix):
        raise ValueError
    return ipaddress.ip_network((address(base), int(prefix)))


def cidr_or_address(value):
    return cidr(value) if "/" in of_type(value, str) else ipaddress.ip_network(address(value))


def cidrs(value):
    if len(of_type(value, list)) > 64:
        raise ValueError
    return [cidr_or_address(one) for one in value]


def selector(value):
    shown = printed(Parser(of_type(value, str)).whole())
    if max(len(value.encode()), len(shown.encode())) > TEXT_MAX:
        raise ValueError
    return shown


def uses(value):
    if of_type(value, list) and "Workload" not in value:
        raise ValueError


def mode(value):
    if value not in ("Automatic", "Manual"):
        raise ValueError
    return value


# ---- resources


def pool(resource):
    called = read(resource, "metadata.name", name)
    network = read(resource, "spec.cidr", cidr)
    size = read(resource, "spec.blockSize", below(256), 26 if network.version == 4 else 122)
    disabled = read(resource, "spec.disabled", truth, False)
    chosen = read(resource, "spec.nodeSelector", selector, "all()")
    read(resource, "spec.allowedUses", uses, None)
    kept = read(resource, "spec.assignmentMode", mode, "Automatic")
    members = {"cidr": str(network), "name": called, "size": size}
    members.update({"disabled": True} if disabled else {})
    members.update({"mode": "Manual"} if kept == "Manual" else {})
    members.update({"selector": chosen} if chosen != "all()" else {})
    return called, {"pool": members}


def reservation(resource):
    called = read(resource, "metadata.name", name)
    ranges = read(resource, "spec.reservedCIDRs", cidrs)
    return called, {"reserve": {"cidrs": [str(one) for one in ranges], "name": called}}


def config(resource):
    strict = read(resource, "spec.strictAffinity", truth, False)
    auto = read(resource, "spec.autoAllocateBlocks", truth, True)
    most = read(resource, "spec.maxBlocksPerHost", below(2**32), 0)
    members = {} if auto else {"autoAllocateBlocks": False}
    members.update({"maxBlocksPerHost": most} if most else {})
    members.update({"strictAffinity": True} if strict else {})
    return read(resource, "metadata.name", name, "default"), {"config": members}


def one(resource):
    kind = found(resource, "kind")
    if not isinstance(kind, str) or kind not in KINDS:
        raise Fault("kind")
    called, request = {"IPPool": pool, "IPReservation": reservation}.get(kind, config)(resource)
    text = json.dumps(request, separators=(",", ":"), sort_keys=True, ensure_ascii=False)
    return f"applied {kind} {called}\n{text}\n"


def item(resource, place):
    try:
        return one(resource)
    except Fault as fault:
        raise Fault(f"items.{place}.{fault}")


def answer(text):
    try:
        document = parsed(text)
        kind = found(document, "kind")
        if not isinstance(kind, str) or kind not in LISTS:
            return one(document)
        items = read(document, "items", lambda v: of_type(v, list))
        return "".join(item(resource, place) for place, resource in enumerate(items))
    except Fault as fault:
        return f"refused: {fault}\n"


# ---- documents as `kubectl get .. -o json` prints them


def metadata(called, version, fields):
    return {
        "annotations": {"projectcalico.org/metadata": '{"creationTimestamp":"2024-03-05T09:12:44Z"}'},
        "creationTimestamp": "2024-03-05T09:12:44Z",
        "generation": 2,
        "managedFields": [
            {
                "apiVersion": "crd.projectcalico.org/v1",
                "fieldsType": "FieldsV1",
                "fieldsV1": {"f:metadata": {"f:annotations": {}}, "f:spec": {f"f:{f}": {} for f in fields}},
                "manager": "Go-http-client",
                "operation": "Update",
                "time": "2024-03-05T09:12:44Z",
            }
        ],
        "name": called,
        "resourceVersion": str(version),
        "uid": "5a0f0a92-0b0f-4f6b-9d8e-7f2d2f6c1a" + str(version)[:2],
    }


def crd(kind, called, version, spec):
    return {
        "apiVersion": "crd.projectcalico.org/v1",
        "kind": kind,
        "metadata": metadata(called, version, spec),
        "spec": spec,
        "status": {"conditions": [{"name": "no name of this resource", "status": "True"}]},
    }


def shown(items, kind="List"):
    document = {"apiVersion": "v1", "items": items, "kind": kind, "metadata": {"resourceVersion": ""}}
    return json.dumps(document, indent=4)


POOLS = [
    crd("IPPool", "default-ipv4-ippool", 812, {"allowedUses": ["Workload", "Tunnel"], "blockSize": 26, "cidr": "192.168.0.0/16", "ipipMode": "Always", "natOutgoing": True, "nodeSelector": "all()", "vxlanMode": "Never"}),
    crd("IPPool", "default-ipv6-ippool", 813, {"allowedUses": ["Workload", "Tunnel"], "blockSize": 122, "cidr": "fd00:10:244::/64", "ipipMode": "Never", "nodeSelector": "all()", "vxlanMode": "Never"}),
    crd("IPPool", "west", 9120, {"assignmentMode": "Manual", "blockSize": 28, "cidr": "10.9.0.0/20", "disabled": True, "nodeSelector": 'zone == "west"&&! has(gpu)'}),
]
RESERVATIONS = [
    crd("IPReservation", "gateways", 2210, {"reservedCIDRs": ["192.168.0.1", "192.168.4.0/30", "fd00:10:244::1"]}),
    crd("IPReservation", "none", 2211, {"reservedCIDRs": []}),
]
CONFIGS = [
    crd("IPAMConfig", "default", 640, {"autoAllocateBlocks": True, "maxBlocksPerHost": 20, "strictAffinity": True}),
    crd("IPAMConfiguration", "default", 641, {"autoAllocateBlocks": False, "strictAffinity": False}),
]
REAL = [shown(POOLS[:1] + POOLS[2:]), shown(RESERVATIONS, "IPReservationList"), shown(CONFIGS[:1])]

# ---- other documents


def compact(value):
    return json.dumps(value, separators=(",", ":"))


def with_member(resource, path, value):
    """A copy with the member set, or without it where the value is MISSING."""
    copied = json.loads(json.dumps(resource))
    *outer, last = path.split(".")
    part = copied
    for step in outer:
        part = part[step]
    part.pop(last, None)
    if value is not MISSING:
        part[last] = value
    return copied


POOL = {"kind": "IPPool", "metadata": {"name": "p"}, "spec": {"cidr": "10.0.0.0/24"}}
POOL6 = {"kind": "IPPool", "metadata": {"name": "six"}, "spec": {"cidr": "2001:DB8:0:0::/48"}}
RESERVED = {"kind": "IPReservation", "metadata": {"name": "r"}, "spec": {"reservedCIDRs": []}}
CONFIG = {"kind": "IPAMConfig", "metadata": {"name": "c"}, "spec": {}}

CHANGES = {
    "IPPool": [
        ("kind", [MISSING, None, 7, "ippool", "IPPool ", ["IPPool"]]),
        ("metadata", [MISSING, [], {}]),
        ("metadata.name", [None, 1, "", "-p", "a/b", "ä", "p" * 253, "p" * 254, "9.P_-"]),
        ("spec", [MISSING, None, []]),
        ("spec.cidr", [MISSING, None, 10, "10.0.0.0", "10.0.0.0/33", "10.0.0.1/24", "10.0.0.0/024", "010.0.0.0/8", "::/0"]),
        ("spec.blockSize", [None, 0, 255, 256, -1, 26.0, "26", True, 2**64]),
        ("spec.disabled", [None, True, False, "true", 0]),
        ("spec.nodeSelector", [None, " \t", "all()", "zone ==", "!has(a)&&(all())", True, "has(a)||" * 127 + "has(a)"]),
        ("spec.allowedUses", [None, [], ["Tunnel"], ["Tunnel", "Workload"], ["Workload", 1], [1], ["workload"], "Workload", {}]),
        ("spec.assignmentMode", [None, "", "Automatic", "Manual", "manual"]),
    ],
    "IPReservation": [
        ("metadata.name", [MISSING, None, "", "r/1"]),
        ("spec", [MISSING, None, "10.0.0.0/8"]),
        ("spec.reservedCIDRs", [MISSING, None, "10.0.0.1", {}, ["10.0.0.1"], ["fd00::1", "10.0.0.0/30"], ["10.0.0.1/30"], ["10.0.0.1", 5], ["10.0.0.1/"], [""], ["::1%lo"], ["::"] * 64, ["::"] * 65, ["10.0.0.1", "x"], ["0.0.0.0", "255.255.255.255", "::"]]),
    ],
    "IPAMConfig": [
        ("kind", ["IPAMConfiguration", "IPAMConfigs"]),
        ("metadata", [MISSING, None, 3, {}]),
        ("metadata.name", [MISSING, None, "", "a b", "other"]),
        ("spec", [MISSING, None, []]),
        ("spec.strictAffinity", [None, True, "false"]),
        ("spec.autoAllocateBlocks", [None, False, 0]),
        ("spec.maxBlocksPerHost", [None, 0, 1, 2**32 - 1, 2**32, -1, 1.5, "1", False]),
    ],
}

BASES = {"IPPool": POOL, "IPReservation": RESERVED, "IPAMConfig": CONFIG}


def several(items, kind="List"):
    return {"kind": kind, "items": items}


def both(resource, first, second):
    return with_member(with_member(resource, first[0], first[1]), second[0], second[1])


ORDERED = [
    both(POOL, ("spec.cidr", "x"), ("metadata.name", "")),
    both(POOL, ("spec.blockSize", "x"), ("spec.cidr", MISSING)),
    both(POOL, ("spec.disabled", 1), ("spec.blockSize", 256)),
    both(POOL, ("spec.nodeSelector", "("), ("spec.disabled", None)),
    both(POOL, ("spec.allowedUses", [1]), ("spec.nodeSelector", "(")),
    both(POOL, ("spec.assignmentMode", "x"), ("spec.allowedUses", ["Tunnel"])),
    both(RESERVED, ("spec.reservedCIDRs", 1), ("metadata.name", 1)),
    both(CONFIG, ("metadata.name", ""), ("spec.maxBlocksPerHost", -1)),
    both(CONFIG, ("spec.maxBlocksPerHost", -1), ("spec.autoAllocateBlocks", 1)),
    both(CONFIG, ("spec.autoAllocateBlocks", 1), ("spec.strictAffinity", 1)),
    both(CONFIG, ("kind", "IPAMConfiguration"), ("metadata.name", None)),
    with_member(POOL6, "spec.blockSize", 116),
    POOL6,
]

LISTED = [
    several([]),
    several([], "IPPoolList"),
    several([], "IPReservationList"),
    {"kind": "List"},
    {"kind": "List", "items": None},
    {"kind": "List", "items": {}},
    {"kind": "IPAMConfigList", "items": []},
    {"kind": "list", "items": []},
    {"items": [POOL]},
    several([POOL, POOL6, RESERVED, CONFIG]),
    several([RESERVED], "IPPoolList"),
    several([POOL, with_member(POOL, "spec.cidr", MISSING)]),
    several([with_member(POOL, "spec.cidr", "x"), with_member(POOL, "kind", "x")]),
    several([POOL, POOL, with_member(POOL, "kind", 5)]),
    several([POOL, several([POOL])]),
    several([several([], "IPPoolList")]),
    several([POOL, 5]),
    several([None]),
    several([[]], "IPReservationList"),
    several([{}]),
    several([CONFIG] * 10 + [with_member(CONFIG, "spec.strictAffinity", "no")]),
    several([with_member(RESERVED, "spec.reservedCIDRs", ["a"])]),
    several([with_member(POOL, "metadata.name", "")], "IPPoolList"),
]

GOOD = '"kind":"IPPool","metadata":{"name":"p"},"spec":{"cidr":"10.0.0.0/24"'
SPELLED = [
    "",
    " ",
    "{",
    "null",
    "[]",
    '"IPPool"',
    "{}",
    '{"kind":"IPPool",}',
    "\ufeff{" + GOOD + "}}",
    "{" + GOOD + "}} x",
    "{" + GOOD + "}}{}",
    "// pools\n{" + GOOD + "}}",
    "\t{\r\n" + GOOD + "} } ",
    "{" + GOOD + ',"blockSize":30,"blockSize":28}}',
    "{" + GOOD + ',"blockSize":28,"blockSize":"x"}}',
    "{" + GOOD + ',"blockSize":"x","blockSize":28}}',
    "{" + GOOD + "}," + '"spec":{"cidr":"10.1.0.0/24"}}',
    '{"kind":"List",' + GOOD + "}}",
    "{" + GOOD + '},"kind":"List"}',
    "{" + GOOD + ',"blockSize":-0}}',
    "{" + GOOD + ',"blockSize":2.6e1}}',
    "{" + GOOD + ',"blockSize":026}}',
    "{" + GOOD + ',"blockSize":1e999}}',
    "{" + GOOD + ',"mtu":1e999}}',
    "{" + GOOD + ',"mtu":NaN}}',
    "{" + GOOD + ',"mtu":18446744073709551616}}',
    "{" + GOOD + ',"note":"\\ud800"}}',
    "{" + GOOD + ',"note":"\\ud83d\\ude00 \\u0000"}}',
    "{" + GOOD + ',"note":"a\tb"}}',
    '{"k\\u0069nd":"IPPoo\\u006c","metadata":{"name":"\\u0070"},"spec":{"cidr":"10.0.0.0\\/24"}}',
    "{" + GOOD + '},"deep":' + "[" * 126 + "]" * 126 + "}",
    "{" + GOOD + '},"deep":' + "[" * 127 + "]" * 127 + "}",
]


def all_documents():
    changed = [
        compact(with_member(BASES[kind], path, value))
        for kind, members in CHANGES.items()
        for path, values in members
        for value in values
    ]
    others = [compact(document) for document in [POOL, RESERVED, CONFIG] + ORDERED + LISTED]
    return REAL, changed + others + SPELLED
