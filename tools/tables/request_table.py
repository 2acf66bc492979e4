"""The table of texts of requests and of live lists, and what is read from each.

The reader below was written only from the format, over Python's own `json` and `ipaddress`. A text is
answered by the printed text of what it is read as, or by `unreadable`.
"""

import json
import re
import sys
from pathlib import Path

TOP = Path(__file__).resolve().parents[2]
sys.path.append(str(TOP / "tools/second"))
# pylint: disable=wrong-import-position
from resource_table import Fault, address, below, cidr, levels, mode, name, of_type, selector, texts_of, truth
from resource_table import constant, floating, whole
from second_records import Cidr, address_text
from selector_table import Bad

HANDLE = re.compile(r"[A-Za-z0-9][A-Za-z0-9_.-]{0,506}")
LABEL = re.compile(r"[A-Za-z0-9_./-]{1,317}")
LEVELS = 127
MISSING = object()


# ---- the reader


def parsed(text):
    value = json.loads(text, parse_int=whole, parse_float=floating, parse_constant=constant)
    for one in texts_of(value):
        one.encode()
    if levels(value) > LEVELS:
        raise ValueError
    return value


def handle(value):
    if not HANDLE.fullmatch(of_type(value, str)):
        raise ValueError
    return value


def shown_address(value):
    found = address(of_type(value, str))
    return address_text(found.version, int(found))


def shown_cidr(value):
    found = cidr(value)
    return str(Cidr(found.version, int(found.network_address), found.prefixlen))


def list_of(item, most=None):
    def good(value):
        if most is not None and len(of_type(value, list)) > most:
            raise ValueError
        return [item(one) for one in of_type(value, list)]

    return good


def pool_name(value):
    if "/" in of_type(value, str):
        cidr(value)
        return value
    return name(value)


def pairs(most, is_key):
    def good(value):
        if len(of_type(value, dict)) > most:
            raise ValueError
        for key, text in value.items():
            if not is_key(key) or len(of_type(text, str).encode()) > 253:
                raise ValueError
        return value

    return good


def scope(value):
    return members(value, {"network": name, "node": name}, {})


def members(value, needed, others):
    """The members of an object that has these, and none but those that are not as without them."""
    if set(of_type(value, dict)) - set(needed) - set(others) or set(needed) - set(value):
        raise ValueError
    out = {one: good(value[one]) for one, good in needed.items()}
    for one, (good, default) in others.items():
        found = good(value[one]) if one in value else default
        if found != default:
            out[one] = found
    return out


WISHES = {
    "ipv4": (truth, True),
    "ipv6": (truth, False),
    "labels": (pairs(64, LABEL.fullmatch), {}),
    "pools4": (list_of(pool_name, 64), []),
    "pools6": (list_of(pool_name, 64), []),
}
SECONDARY = pairs(8, lambda key: 1 <= len(key.encode()) <= 63)
OBJECTS = {
    "del": ({"handle": handle}, {}),
    "check": ({"addresses": list_of(shown_address, 64), "handle": handle}, {}),
    "release": ({"cidr": shown_cidr, "node": name}, {}),
    "collect": (
        {"live": list_of(handle)},
        {"at": (below(2**64), 0), "grace": (below(2**64), 0), "scope": (scope, None)},
    ),
    "pool": (
        {"cidr": shown_cidr, "name": name, "size": below(256)},
        {"disabled": (truth, False), "mode": (mode, "Automatic"), "selector": (selector, "all()")},
    ),
    "disable": ({"disabled": truth, "name": name}, {}),
    "reserve": ({"cidrs": list_of(shown_cidr, 64), "name": name}, {}),
    "unreserve": ({"name": name}, {}),
    "config": (
        {},
        {
            "autoAllocateBlocks": (truth, True),
            "maxBlocksPerHost": (below(2**32), 0),
            "strictAffinity": (truth, False),
        },
    ),
    "probe": ({"node": name}, WISHES),
}


def add(value):
    needed = {"handle": handle, "node": name}
    if "address" in of_type(value, dict):
        needed["address"] = shown_address
    out = members(value, needed, {**WISHES, "secondary": (SECONDARY, {})})
    if "address" not in out:
        some_family(out)
    return out


def some_family(out):
    if not out.get("ipv4", True) and not out.get("ipv6", False):
        raise ValueError


def request(value):
    ((what, inner),) = of_type(value, dict).items()
    if what == "add":
        return {what: add(inner)}
    if what not in OBJECTS:
        raise ValueError
    out = members(inner, *OBJECTS[what])
    if what == "probe":
        some_family(out)
    return {what: out}


def printed(value):
    return json.dumps(value, separators=(",", ":"), sort_keys=True, ensure_ascii=False)


def answer(text, reader):
    try:
        shown = printed(reader(parsed(text)))
        assert printed(reader(parsed(shown))) == shown, text
        return shown
    except (ValueError, RecursionError, Bad, Fault):
        return "unreadable"


# ---- texts


def compact(value):
    return json.dumps(value, separators=(",", ":"), ensure_ascii=False)


def with_member(inner, member, value):
    copied = dict(inner)
    copied.pop(member, None)
    if value is not MISSING:
        copied[member] = value
    return copied


NAMES = [MISSING, None, 7, "", ".a", "a b", "a/b", "ä", "9._-", "a" * 253, "a" * 254]
IDS = [MISSING, None, [], "", "-c", "k8s-pod-network.c1", "n.c1/x", "h" * 507, "h" * 508]
TRUTHS = [None, 0, "true", True, False]
POOL_NAMES = [None, "p", {}, [], ["p", "q"], ["p", 1], [""], ["10.0.0.0/24"], ["2001:DB8:0::/48", "p"], ["10.0.0.1/24"], ["10.0.0.0/33"], ["::1/128/"], ["p"] * 64, ["p"] * 65]
LABELS = [None, [], {}, {"zone": "west", "a/b.c-d_e": ""}, {"a b": ""}, {"": "x"}, {"k": 1}, {"k" * 317: "v"}, {"k" * 318: "v"}, {"k": "ä" * 126 + "x"}, {"k": "ä" * 127}, {f"k{i}": "" for i in range(64)}, {f"k{i}": "" for i in range(65)}]
PAIRS = [None, [], {}, {"node": "a", "pod": "web-0", "network": "n"}, {"ä": "\n\"\\\u0001"}, {"": ""}, {"k": None}, {"ä" * 31 + "x": "v"}, {"ä" * 32: "v"}, {"k": "v" * 253}, {"k": "v" * 254}, {f"k{i}": "v" for i in range(8)}, {f"k{i}": "v" for i in range(9)}]
CIDRS = [MISSING, None, 10, "", "10.0.0.0/30", "10.0.0.0", "10.0.0.0/33", "10.0.0.1/30", "10.0.0.0/030", "010.0.0.0/8", "2001:DB8:0:0::/48", "::/0", "::ffff:1.2.3.4/128"]
ADDRESSES = [None, 7, "", "10.0.0.1", "10.0.0.256", "10.0.0.01", "1:2:3:4:5:6:7::", "2001:DB8::1:0:0:1", "::ffff:1.2.3.4", "1::2::3", "::1%lo", "10.0.0.1/32"]
TIMES = [None, 0, 1, 18446744073709551615, 18446744073709551616, -1, 1.0, "1", True]

FAMILIES = [("ipv4", TRUTHS), ("ipv6", TRUTHS), ("labels", LABELS), ("pools4", POOL_NAMES), ("pools6", POOL_NAMES[:5])]
REQUESTS = {
    "add": ({"handle": "n.c1", "node": "a"}, [("handle", IDS), ("node", NAMES), ("address", ADDRESSES), *FAMILIES, ("secondary", PAIRS), ("mode", ["Manual"])]),
    "del": ({"handle": "n.c1"}, [("handle", IDS), ("node", ["a"])]),
    "check": ({"addresses": ["10.0.0.1"], "handle": "n.c1"}, [("addresses", [MISSING, None, {}, [], [None], ["10.0.0.1", "2001:DB8::0:1"], ["10.0.0.1", "x"], ["::"] * 64, ["::"] * 65]), ("handle", [MISSING, "."])]),
    "release": ({"cidr": "10.0.0.0/30", "node": "a"}, [("cidr", CIDRS), ("node", NAMES)]),
    "collect": ({"live": []}, [("live", [MISSING, None, {}, "n.c1", ["n.c1", "n.c1"], ["n.c1", ""], [1]]), ("at", TIMES), ("grace", TIMES), ("scope", [None, [], {}, {"network": "n"}, {"network": "n", "node": "a"}, {"network": "", "node": "a"}, {"network": "n", "node": "a b"}, {"network": "n", "node": "a", "pod": "p"}])]),
    "probe": ({"node": "a"}, [("node", NAMES), *FAMILIES, ("handle", ["n.c1"]), ("secondary", [{}])]),
    "pool": ({"cidr": "10.0.0.0/24", "name": "p", "size": 26}, [("cidr", CIDRS), ("name", NAMES), ("size", [MISSING, None, 0, 255, 256, -1, 26.0, "26"]), ("disabled", TRUTHS), ("mode", [None, "Automatic", "Manual", "manual"]), ("selector", [None, "", "all()", "has( gpu )&&zone!='west'", "zone ==", "has(a)||" * 127 + "has(a)"])]),
    "disable": ({"disabled": True, "name": "p"}, [("disabled", [MISSING, *TRUTHS]), ("name", NAMES[:4])]),
    "reserve": ({"cidrs": ["10.0.0.0/31"], "name": "r"}, [("cidrs", [MISSING, None, "10.0.0.0/31", [], ["10.0.0.1"], ["2001:DB8::/64", "10.0.0.0/30"], [7], ["::/128"] * 64, ["::/128"] * 65]), ("name", NAMES[:4])]),
    "unreserve": ({"name": "r"}, [("name", NAMES), ("cidrs", [[]])]),
    "config": ({}, [("autoAllocateBlocks", TRUTHS), ("strictAffinity", TRUTHS), ("maxBlocksPerHost", [None, 0, 1, 4294967295, 4294967296, -1, 1.5, "1"]), ("name", ["c"])]),
}

WHOLE = [
    {"add": {"address": "2001:DB8::1", "handle": "n.c1", "ipv4": False, "node": "a"}},
    {"add": {"address": "10.0.0.1", "handle": "n.c1", "ipv6": True, "node": "a", "pools4": ["p"], "secondary": {"node": "a"}}},
    {"add": {"handle": "n.c1", "ipv4": False, "ipv6": True, "node": "a"}},
    {"add": {"secondary": {"b": "2", "a": "1"}, "pools6": ["q"], "pools4": ["::/0"], "node": "a", "labels": {"z": "", "a": "b"}, "ipv6": True, "handle": "h"}},
    {"probe": {"ipv4": False, "ipv6": True, "node": "a"}},
    {"probe": {"ipv4": True, "ipv6": False, "labels": {}, "node": "a", "pools4": [], "pools6": []}},
    {"collect": {"scope": {"node": "a", "network": "n"}, "live": ["n.c2", "n.c1"], "grace": 60, "at": 100}},
    {"pool": {"size": 122, "selector": "!has(gpu)", "name": "q", "mode": "Manual", "disabled": True, "cidr": "2001:db8::/48"}},
    {"config": {"autoAllocateBlocks": False, "maxBlocksPerHost": 4294967295, "strictAffinity": True}},
    {"del": {"handle": "n.c1"}, "unreserve": {"name": "r"}},
    {"Del": {"handle": "n.c1"}},
    {"free": {"handle": "n.c1"}},
    {"del": None},
    {"del": []},
    {"del": "n.c1"},
    {"config": None},
    {"add": []},
    {"": {}},
    {},
    [],
    [{"del": {"handle": "n.c1"}}],
    "del",
    None,
]

SPELLED = [
    "",
    " ",
    "{",
    '{"del":{"handle":"n.c1"}',
    '{"del":{"handle":"n.c1",}}',
    ' {\t"del"\r\n:\n{ "handle" : "n.c1" } } ',
    '{"del":{"handle":"n.c1"}} x',
    '{"del":{"handle":"n.c1"}}{}',
    '\ufeff{"del":{"handle":"n.c1"}}',
    '{"del":{"handle":"n.c1","handle":"n.c2"}}',
    '{"del":{"handle":7,"handle":"n.c2"}}',
    '{"del":{"handle":"n.c2","handle":7}}',
    '{"del":{"handle":"n.c1"},"del":{"handle":"n.c2"}}',
    '{"del":{},"del":{"handle":"n.c2"}}',
    '{"d\\u0065l":{"handle":"n\\u002ec1"}}',
    '{"del":{"handle":"n.c1\\n"}}',
    "{'del':{'handle':'n.c1'}}",
    '{"collect":{"at":1e2,"live":[]}}',
    '{"collect":{"at":-0,"live":[]}}',
    '{"collect":{"at":1e999,"live":[]}}',
    '{"collect":{"at":01,"live":[]}}',
    '{"collect":{"at":NaN,"live":[]}}',
    '{"collect":{"live":[],"scope":null}}',
    '{"config":{"maxBlocksPerHost":3,"maxBlocksPerHost":0}}',
    '{"add":{"handle":"n.c1","node":"a","secondary":{"k":"\\ud83d\\ude00\\u001f\\u007f\\b\\/"}}}',
    '{"add":{"handle":"n.c1","node":"a","secondary":{"k":"\\ud800"}}}',
    '{"add":{"handle":"n.c1","node":"a","secondary":{"k":"a\tb"}}}',
    '{"add":{"handle":"n.c1","node":"a","secondary":{"b":"1","a":"2","b":"3"}}}',
    '{"pool":{"cidr":"10.0.0.0\\/24","name":"p","size":26}}',
    '{"deep":' + "[" * 126 + "]" * 126 + "}",
    "[" * 128 + "]" * 128,
]

LIVE = [
    "[]",
    " [ ] ",
    '["n.c1"]',
    '["n.c2","n.c1","n.c2"]',
    '[ "n.c1" , "k8s-pod-network.0" ]\n',
    '["\\u006e.c1"]',
    compact(["h" * 507]),
    compact(["h" * 508]),
    "",
    "[",
    "[,]",
    '["n.c1",]',
    '["n.c1"]]',
    '["n.c1"] x',
    "{}",
    "null",
    "7",
    '"n.c1"',
    "[7]",
    "[null]",
    "[[]]",
    '["n.c1",["n.c2"]]',
    '[""]',
    '["n.c1",".c2"]',
    '["n.c1","n c2"]',
    '["n/c1"]',
    '["\u00e4"]',
    '["\\ud800"]',
    "['n.c1']",
]


def all_requests():
    changed = [
        compact({what: with_member(inner, member, value)})
        for what, (inner, changes) in REQUESTS.items()
        for member, values in changes
        for value in values
    ]
    plain = [compact({what: inner}) for what, (inner, _) in REQUESTS.items()]
    return plain + changed + [compact(one) for one in WHOLE] + SPELLED
