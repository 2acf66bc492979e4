"""The table of lines of a session, and what must be read from each.

The reader below was written only from the format, over Python's own `json`. A line is answered by what it
asks, or by `line` if it asks for nothing that is known.
"""

import ipaddress
import json
import re

from resource_table import Fault, parsed

NAME = re.compile(r"[A-Za-z0-9][A-Za-z0-9_.-]{0,252}")
KIND = re.compile("config|pools|reservations|block|affinity|handle")
HANDLE = re.compile(r"[A-Za-z0-9][A-Za-z0-9_.-]{0,506}")


class Bad(Exception):
    """The line asks nothing that is known."""


# ---- the reader


def compact(value):
    return json.dumps(value, ensure_ascii=False, separators=(",", ":"), sort_keys=True)


def matching(value, form):
    if not isinstance(value, str) or not form.fullmatch(value):
        raise Bad
    return value


def whole(value):
    if type(value) is not int or value < 0:
        raise Bad
    return value


def members(value, wanted, optional=()):
    if not isinstance(value, dict) or not set(wanted) <= set(value) <= {*wanted, *optional}:
        raise Bad
    return value


def handles(value):
    if not isinstance(value, list):
        raise Bad
    return [matching(one, HANDLE) for one in value]


def deletion(value):
    return {"handle": matching(members(value, ("handle",))["handle"], HANDLE)}


def collection(value):
    members(value, ("live",), ("grace", "scope"))
    told = {"live": handles(value["live"])}
    if whole(value.get("grace", 0)):
        told["grace"] = value["grace"]
    if "scope" in value:
        scope = members(value["scope"], ("network", "node"))
        told["scope"] = {name: matching(text, NAME) for name, text in scope.items()}
    return told


def removal(value):
    return {"name": matching(members(value, ("name",))["name"], NAME)}


REQUESTS = {"del": deletion, "collect": collection, "unreserve": removal}


def request(value):
    if not isinstance(value, dict) or len(value) != 1:
        raise Bad
    ((name, inner),) = value.items()
    if name not in REQUESTS:
        raise Bad
    return "request " + compact({name: REQUESTS[name](inner)})


def call(value):
    members(value, ("env", "stdin"))
    if not isinstance(value["env"], dict) or not isinstance(value["stdin"], str):
        raise Bad
    if not all(isinstance(one, str) for one in value["env"].values()):
        raise Bad
    return "call " + compact({"env": value["env"], "stdin": value["stdin"]})


def cidr(text):
    try:
        if str(ipaddress.ip_network(text)) == text:
            return
    except ValueError:
        pass
    raise Bad


def key_of(kind, key):
    if not isinstance(key, str):
        raise Bad
    if kind in ("config", "pools", "reservations"):
        matching(key, re.compile(kind))
    elif kind == "block":
        cidr(matching(key, re.compile("block/.*")).partition("/")[2])
    elif kind == "affinity":
        _, node, block = matching(key, re.compile("affinity/[^/]*/.*")).split("/", 2)
        matching(node, NAME)
        cidr(block)
    else:
        matching(matching(key, re.compile("handle/.*"))[len("handle/") :], HANDLE)
    return key


def page(value):
    members(value, ("rows",), ("after",))
    kind = matching(value["rows"], KIND)
    return f"rows {kind}" + (f" after {key_of(kind, value['after'])}" if "after" in value else "")


def flag(word):
    def told(value):
        if value is not True:
            raise Bad
        return word

    return told


ONE = {
    "request": request,
    "feed": lambda value: "feed " + compact(handles(value)),
    "stop": flag("stop"),
    "routes": flag("routes"),
    "opened": flag("opened"),
    "usage": flag("usage"),
    "routesSince": lambda value: f"since {whole(value)}",
}


def told(line):
    try:
        value = parsed(line)
        if "rows" in members(value, (), value):
            return page(value)
        if len(value) == 1:
            ((name, inner),) = value.items()
            return ONE[name](inner)
        return call(value)
    except (Bad, Fault, KeyError):
        return "line"


# ---- the lines

GOOD = [
    '{"env":{"CNI_COMMAND":"ADD","CNI_IFNAME":"eth0"},"stdin":"{\\"cniVersion\\":\\"1.0.0\\"}\\n"}',
    '{"env":{},"stdin":""}',
    '{"env":{"A":"1","a":"ü","":"x"},"stdin":"\\u00fc\\ud83d\\ude00\\t"}',
    '{"request":{"del":{"handle":"n.c1"}}}',
    '{"request":{"collect":{"live":[]}}}',
    '{"request":{"collect":{"grace":60,"live":["n.c1","n.c1","a"]}}}',
    '{"request":{"collect":{"live":["n.c1"],"scope":{"network":"n","node":"a"}}}}',
    '{"request":{"unreserve":{"name":"r"}}}',
    '{"feed":[]}',
    '{"feed":["n.c1","n.c2"]}',
    '{"stop":true}',
    '{"routes":true}',
    '{"routesSince":0}',
    '{"routesSince":18446744073709551615}',
    '{"opened":true}',
    '{"usage":true}',
    '{"rows":"config"}',
    '{"rows":"pools","after":"pools"}',
    '{"rows":"reservations"}',
    '{"rows":"block","after":"block/10.0.0.0/30"}',
    '{"rows":"affinity","after":"affinity/a/2001:db8::/122"}',
    '{"rows":"handle","after":"handle/n.c1"}',
]
SPELLINGS = [
    (' { "stop" : true } '),
    '\t{"routesSince"\t:\t7}\r',
    '{"st\\u006fp":true}',
    '{"stdin":"in","env":{"B":"2","A":"1"}}',
    '{"env":{"A":"1","A":"2"},"stdin":"x"}',
    '{"env":{"A":1,"A":"2"},"stdin":"x"}',
    '{"stop":false,"stop":true}',
    '{"feed":0,"feed":["a"]}',
    '{"after":"handle/n.c1","rows":"handle"}',
    '{"rows":"x","rows":"handle"}',
    '{"rows":"block","after":"block/10.0.0.0/29","after":"block/10.0.0.0/30"}',
    '{"request":{"collect":{"grace":0,"live":[]}}}',
    '{"request":{"del":{"handle":"a"},"del":{"handle":"b"}}}',
    '{"env":{"CNI_COMMAND":"VERSION","CNI_COMMAND":"ADD"},"stdin":"{\\"cniVersion\\":\\"\\u00fc\\ud83d\\ude00\\\\t\\"}"}',
    '{"request":{"collect":{"live":["n.c1","n.c1","a"]}}}',
]
BAD = [
    "", " ", "{}", "[]", "null", "true", '"stop"', "0", "{", '{"stop"}', '{"stop":true', '{"stop":true}}',
    '{"stop":true} x', '{"stop":tru}', '{"Stop":true}', '{"stop":false}', '{"stop":1}', '{"stop":"true"}',
    '{"stop":null}', '{"stop":true,"stop":false}', '{"stop":true,"routes":true}', '{"routes":false}',
    '{"routes":[]}', '{"routes":true,"x":0}', '{"opened":false}', '{"opened":1}', '{"routesSince":-1}', '{"routesSince":1.0}',
    '{"routesSince":1e2}', '{"routesSince":-0}', '{"routesSince":18446744073709551616}',
    '{"routesSince":"1"}', '{"routesSince":01}', '{"routesSince":true}', '{"routesSince":null}',
    '{"rows":true}', '{"rows":"rows"}', '{"rows":"Block"}', '{"rows":""}', '{"rows":null}', '{"rows":["block"]}',
    '{"after":"block/10.0.0.0/30"}', '{"rows":"block","after":null}', '{"rows":"block","after":1}', '{"rows":"block","after":""}',
    '{"rows":"block","after":"block"}', '{"rows":"block","after":"block/"}', '{"rows":"block","after":"10.0.0.0/30"}',
    '{"rows":"block","after":"handle/n.c1"}', '{"rows":"handle","after":"block/10.0.0.0/30"}',
    '{"rows":"block","after":"block/10.0.0.1/30"}', '{"rows":"block","after":"block/10.0.0.0/030"}',
    '{"rows":"affinity","after":"affinity/10.0.0.0/30"}', '{"rows":"affinity","after":"affinity/a b/10.0.0.0/30"}',
    '{"rows":"handle","after":"handle/"}', '{"rows":"handle","after":"handle/-a"}', '{"rows":"pools","after":"config"}',
    '{"rows":"pools","after":"pools/"}', '{"rows":"block","limit":5}', '{"rows":"block","after":"block/10.0.0.0/30","x":0}',
    '{"rows":"block","opened":true}', '{"rows":"block","env":{},"stdin":""}', '{"rows":"x","after":"block/10.0.0.0/30"}',
    '{"usage":false}', '{"usage":1}', '{"usage":"p"}', '{"usage":true,"rows":"block"}',
    '{"feed":{}}', '{"feed":"a"}', '{"feed":[1]}', '{"feed":[""]}', '{"feed":["a b"]}', '{"feed":["-a"]}',
    '{"feed":["a",null]}', '{"feed":["a"],"at":5}', '{"feed":[["a"]]}', '{"feed":["é"]}',
    '{"env":{}}', '{"stdin":""}', '{"env":{},"stdin":0}', '{"env":[],"stdin":""}', '{"env":{"A":1},"stdin":""}',
    '{"env":{"A":null},"stdin":""}', '{"env":{},"stdin":"","x":0}', '{"env":{},"stdin":"","feed":[]}',
    '{"env":{},"stdin":"\\ud800"}', '{"env":{},"stdin":"a\tb"}', '{"Env":{},"stdin":""}',
    '{"request":{}}', '{"request":null}', '{"request":"del"}', '{"request":{"del":{}}}',
    '{"request":{"del":{"handle":"n.c1","x":0}}}', '{"request":{"del":{"handle":""}}}',
    '{"request":{"del":{"handle":"n.c1"}},"stop":true}', '{"request":{"gc":{"live":[]}}}',
    '{"request":{"del":{"handle":"n.c1"},"unreserve":{"name":"r"}}}',
    '{"request":{"collect":{"at":0,"live":[]}}}', '{"request":{"collect":{"at":100,"grace":60,"live":[]}}}',
    '{"request":{"collect":{"at":null,"live":[]}}}', '{"request":{"collect":{"grace":-1,"live":[]}}}',
    '{"request":{"collect":{"live":[],"scope":{"node":"a"}}}}', '{"request":{"collect":{}}}',
    '{"request":{"collect":{"live":[],"scope":{"network":"n","node":""}}}}',
]  # fmt: skip


def cases():
    long_handle = "h" * 507
    limits = [f'{{"feed":["{long_handle}"]}}', f'{{"feed":["{long_handle}h"]}}']
    deep = ['{"stop":' + "[" * n + "]" * n + "}" for n in (126, 127)]
    cut = [line[:-1] for line in GOOD]
    behind = [line + "," for line in GOOD[:4]]
    return GOOD + SPELLINGS + BAD + limits + deep + cut + behind
