"""The table of CNI calls, and what must be read of each.

The reader below is written from the rules alone. It answers the environment and standard input by what the
call asks, or by `refused`, the version, the code and the details. The first calls have one thing broken each,
with the code and the details stated by hand. The last ones have several things broken, so that the order shows.
"""

import copy
import ipaddress
import json
import re

RANDOM_LINES = 90
VERSIONS = ["0.3.0", "0.3.1", "0.4.0", "1.0.0", "1.1.0"]
COMMANDS = ["ADD", "DEL", "CHECK", "VERSION", "GC", "STATUS"]
VALID = "cni.dev/valid-attachments"
GONE = object()


class Refused(Exception):
    def __init__(self, code, details):
        super().__init__(code, details)
        self.code, self.details = code, details


# ---- the reader


def is_name(text):
    return isinstance(text, str) and re.fullmatch(r"[A-Za-z0-9][A-Za-z0-9_.-]{0,252}", text, re.A) is not None


def address(text):
    if not isinstance(text, str) or "%" in text:
        return None
    try:
        return ipaddress.ip_address(text)
    except ValueError:
        return None


def with_prefix(text):
    """The address and the prefix of `A/P`."""
    if not isinstance(text, str):
        return None
    host, slash, digits = text.partition("/")
    found = address(host)
    if not slash or found is None or not re.fullmatch(r"0|[1-9][0-9]{0,2}", digits, re.A):
        return None
    return (found, int(digits)) if int(digits) <= found.max_prefixlen else None


def is_cidr(text):
    found = with_prefix(text)
    return found is not None and int(found[0]) % 2 ** (found[0].max_prefixlen - found[1]) == 0


def truth(value):
    return {True: True, False: False, "true": True, "false": False}.get(value) if isinstance(value, (bool, str)) else None


def last(env, name):
    return ([""] + [value for key, value in env if key == name])[-1]


def arguments(env):
    found = {}
    for item in last(env, "CNI_ARGS").split(";"):
        if item:
            key, equals, value = item.partition("=")
            if not equals:
                raise Refused(4, "CNI_ARGS")
            found[key] = value
    asked = found.get("IP", "")
    if asked and address(asked) is None:
        raise Refused(4, "CNI_ARGS")
    for key in ("K8S_POD_NAMESPACE", "K8S_POD_NAME"):
        if len(found.get(key, "").encode()) > 253:
            raise Refused(4, "CNI_ARGS")
    return found


def test_environment(command, env):
    if command in ("GC", "STATUS"):
        return {}
    if not is_name(last(env, "CNI_CONTAINERID")):
        raise Refused(4, "CNI_CONTAINERID")
    if command != "DEL" and not last(env, "CNI_NETNS"):
        raise Refused(4, "CNI_NETNS")
    interface = last(env, "CNI_IFNAME")
    if not 1 <= len(interface.encode()) <= 15 or re.search(r"[/: \t\n\f\r]", interface) or interface in (".", ".."):
        raise Refused(4, "CNI_IFNAME")
    return arguments(env)


def are_labels(labels):
    return isinstance(labels, dict) and len(labels) <= 64 and all(
        re.fullmatch(r"[A-Za-z0-9_./-]{1,317}", key, re.A) and isinstance(value, str) and len(value.encode()) <= 253
        for key, value in labels.items()
    )


def are_pools(pools):
    return isinstance(pools, list) and len(pools) <= 64 and all(is_name(pool) or is_cidr(pool) for pool in pools)


def are_ips(ips):
    return isinstance(ips, list) and len(ips) <= 64 and all(
        isinstance(ip, dict) and with_prefix(ip.get("address")) for ip in ips
    )


def demand(good, path):
    if not good:
        raise Refused(7, path)


def test_configuration(command, config):
    demand(is_name(config.get("name")), "name")
    demand(is_name(config.get("nodename")), "nodename")
    demand(are_labels(config.get("nodeLabels", {})), "nodeLabels")
    ipam = config.get("ipam")
    demand(isinstance(ipam, dict), "ipam")
    demand(ipam.get("type") == "calico-ipam", "ipam.type")
    if command == "GC":
        items = config.get(VALID)
        demand(isinstance(items, list), VALID)
        for index, item in enumerate(items):
            demand(isinstance(item, dict), f"{VALID}.{index}")
            demand(is_name(item.get("containerID")), f"{VALID}.{index}.containerID")
            demand(isinstance(item.get("ifname"), str), f"{VALID}.{index}.ifname")
        return
    demand(truth(ipam.get("assign_ipv4", True)) is not None, "ipam.assign_ipv4")
    demand(truth(ipam.get("assign_ipv6", False)) is not None, "ipam.assign_ipv6")
    demand(truth(ipam.get("assign_ipv4", True)) or truth(ipam.get("assign_ipv6", False)), "ipam.assign_ipv4")
    demand(are_pools(ipam.get("ipv4_pools", [])), "ipam.ipv4_pools")
    demand(are_pools(ipam.get("ipv6_pools", [])), "ipam.ipv6_pools")
    if command == "CHECK":
        earlier = config.get("prevResult")
        demand(isinstance(earlier, dict), "prevResult")
        demand(are_ips(earlier.get("ips", [])), "prevResult.ips")


def pairs(found):
    return ",".join(f"{key}={value}" for key, value in sorted(found.items(), key=lambda pair: pair[0].encode()))


def wishes(config):
    ipam = config["ipam"]
    families = "".join(
        " ipv" + family
        for family, default in (("4", True), ("6", False))
        if truth(ipam.get("assign_ipv" + family, default))
    )
    pools = ";".join(",".join(ipam.get(f"ipv{family}_pools", [])) for family in "46")
    return f"{config['nodename']}{families} pools:{pools} labels:{pairs(config.get('nodeLabels', {}))}"


def asked(command, version, env, config, args):
    if command == "VERSION":
        return f"version {version}"
    if command == "GC":
        live = ",".join(f"{config['name']}.{item['containerID']}" for item in config[VALID])
        return f"gc {version} {config['name']} {config['nodename']} live:{live}"
    if command == "STATUS":
        return f"status {version} {wishes(config)}"
    handle = f"{config['name']}.{last(env, 'CNI_CONTAINERID')}"
    if command == "DEL":
        return f"del {version} {handle}"
    if command == "CHECK":
        ips = ",".join(str(with_prefix(ip["address"])[0]) for ip in config["prevResult"].get("ips", []))
        return f"check {version} {handle} ips:{ips}"
    kept = {"network": config["name"], "node": config["nodename"]}
    kept |= {"namespace": args["K8S_POD_NAMESPACE"]} if args.get("K8S_POD_NAMESPACE") else {}
    kept |= {"pod": args["K8S_POD_NAME"]} if args.get("K8S_POD_NAME") else {}
    wanted = str(address(args["IP"])) if args.get("IP") else "-"
    return f"add {version} {handle} {wishes(config)} secondary:{pairs(kept)} address:{wanted}"


def read(env, stdin):
    command = last(env, "CNI_COMMAND")
    version = "1.0.0"
    try:
        text = "{}" if command == "VERSION" and stdin == "" else stdin
        try:
            config = json.loads(text)
        except ValueError:
            config = None
        if not isinstance(config, dict):
            raise Refused(6, "")
        said = config.get("cniVersion")
        version = said if said in VERSIONS else "1.0.0"
        if command == "VERSION":
            return asked(command, version, env, config, {})
        lacks = command == "CHECK" and said in ("0.3.0", "0.3.1") or command in ("GC", "STATUS") and said != "1.1.0"
        if said not in VERSIONS or lacks:
            raise Refused(1, said if isinstance(said, str) else "")
        if command not in COMMANDS:
            raise Refused(4, "CNI_COMMAND")
        test_configuration(command, config)
        args = test_environment(command, env)
        return asked(command, version, env, config, args)
    except Refused as refusal:
        return f"refused {version} {refusal.code} {refusal.details}"


# ---- the calls


def good_config(command):
    config = {
        "cniVersion": "1.1.0" if command in ("GC", "STATUS") else "1.0.0",
        "name": "net",
        "nodename": "a",
        "ipam": {"type": "calico-ipam"},
    }
    if command == "CHECK":
        config["prevResult"] = {"ips": [{"address": "10.0.0.1/32"}, {"address": "2001:db8::1/64"}]}
    if command == "GC":
        config[VALID] = [{"containerID": "c2", "ifname": "eth0"}, {"containerID": "c3", "ifname": ""}]
    return config


def good_env(command):
    return [
        ("CNI_COMMAND", command),
        ("CNI_CONTAINERID", "c1"),
        ("CNI_NETNS", "/x"),
        ("CNI_IFNAME", "eth0"),
    ]


def text_of(config):
    return json.dumps(config, ensure_ascii=False, separators=(",", ":"))


def with_member(config, path, value):
    """A copy with the member at the path set, or taken away. A path is a tuple of names and indexes."""
    config = copy.deepcopy(config)
    inner = config
    for step in path[:-1]:
        inner = inner[step] if isinstance(step, int) else inner.setdefault(step, {})
    if value is GONE:
        inner.pop(path[-1], None)
    elif isinstance(inner, list) and path[-1] == len(inner):
        inner.append(value)
    else:
        inner[path[-1]] = value
    return config


def with_variable(env, name, value):
    return [pair for pair in env if pair[0] != name] + ([] if value is GONE else [(name, value)])


ALL = ("ADD", "DEL", "CHECK", "GC", "STATUS")
WISHING = ("ADD", "DEL", "CHECK", "STATUS")
NAMES = [GONE, None, 7, "", ".a", "-", "a b", "a/b", "é", "a" * 254]

# a member's path, its bad values, the path that is told, and the commands that test it
BAD_MEMBERS = [
    (("name",), NAMES, "name", ALL),
    (("nodename",), NAMES, "nodename", ALL),
    (("nodeLabels",), [None, [], "zone", {"": "x"}, {"a b": "x"}, {"a": 1}, {"a" * 318: "x"}, {"a": "v" * 254},
                       {"k%d" % k: "" for k in range(65)}], "nodeLabels", ALL),
    (("ipam",), [GONE, None, [], "calico-ipam"], "ipam", ALL),
    (("ipam", "type"), [GONE, "host-local", 1, "calico-ipam "], "ipam.type", ALL),
    (("ipam", "assign_ipv4"), [None, 1, "yes", "True", False, "false"], "ipam.assign_ipv4", WISHING),
    (("ipam", "assign_ipv6"), [None, 0, "", "TRUE"], "ipam.assign_ipv6", WISHING),
    (("ipam", "ipv4_pools"), [None, "p", {}, [1], [""], ["10.0.0.1/24"], ["10.0.0.0/33"], ["10.0.0.0/024"],
                              ["p%d" % k for k in range(65)]], "ipam.ipv4_pools", WISHING),
    (("ipam", "ipv6_pools"), [None, ["::/129"], ["p", "a/b"]], "ipam.ipv6_pools", WISHING),
    (("prevResult",), [GONE, None, []], "prevResult", ("CHECK",)),
    (("prevResult", "ips"), [None, {}, [1], [{}], [{"address": 1}], [{"address": "10.0.0.1"}],
                             [{"address": "10.0.0.1/33"}], [{"address": "10.0.0.1/08"}], [{"address": "10.0.0.01/8"}],
                             [{"address": "::1%eth0/64"}], [{"address": "::1/129"}], [{"address": "10.0.0.1/"}],
                             [{"address": "10.0.0.1/32"}] * 65], "prevResult.ips", ("CHECK",)),
    ((VALID,), [GONE, None, {}, "c1"], VALID, ("GC",)),
    ((VALID, 0), [None, "c1", []], VALID + ".0", ("GC",)),
    ((VALID, 1, "containerID"), [GONE, "", 1, "a/b"], VALID + ".1.containerID", ("GC",)),
    ((VALID, 1, "ifname"), [GONE, None, 0], VALID + ".1.ifname", ("GC",)),
]

ATTACHED = ("ADD", "DEL", "CHECK")
BAD_VARIABLES = [
    ("CNI_CONTAINERID", [GONE, "", "-c", "c 1", "c" * 254], ATTACHED),
    ("CNI_NETNS", [GONE, ""], ("ADD", "CHECK")),
    ("CNI_IFNAME", [GONE, "", ".", "..", "eth/0", "eth:0", "eth 0", "eth\t0", "abcdefghijklmnop"], ATTACHED),
    ("CNI_ARGS", ["IP", "a=b;c", "IP=x", "IP=10.0.0.1;IP=10.0.0", "IP=10.0.0.1/32",
                  "K8S_POD_NAME=" + "p" * 254, "K8S_POD_NAMESPACE=" + "p" * 254], ATTACHED),
]

GOOD_MEMBERS = [
    (("cniVersion",), ["0.4.0", "1.1.0"]),
    (("name",), ["n", "9", "A_b.c-d", "a" * 253]),
    (("nodeLabels",), [{}, {"zone": "west"}, {"b": "", "a/b.c_d-e": "1", "A": "é"}, {"a" * 317: "v"}, {"a": "v" * 253}]),
    (("ipam", "assign_ipv6"), [True, "true", False, "false"]),
    (("ipam", "assign_ipv4"), [True, "true"]),
    (("ipam", "ipv4_pools"), [[], ["p", "10.0.0.0/24"], ["0.0.0.0/0"], ["p%d" % k for k in range(64)]]),
    (("ipam", "ipv6_pools"), [["2001:db8::/48", "2001:DB8:0:0:0:0:0:0/32"], ["q"]]),
    (("prevResult",), [{}, {"ips": []}, {"ips": [{"address": "10.0.0.9/24", "interface": 1}]}]),
    ((VALID,), [[], [{"containerID": "x", "ifname": "i", "more": 1}]]),
]

GOOD_VARIABLES = [
    ("CNI_ARGS", ["", ";;", "a=", "=b", "IP=", "IP=x;IP=", "IP=x;IP=10.0.0.1", "IP=2001:db8::5", "a=b=c;;IP=10.0.0.2;",
                  "IgnoreUnknown=1;K8S_POD_NAMESPACE=default;K8S_POD_NAME=web-0;K8S_POD_INFRA_CONTAINER_ID=c1",
                  "K8S_POD_NAME=a=b", "K8S_POD_NAME=" + "p" * 253, "ip=x"]),
    ("CNI_IFNAME", ["e", "abcdefghijklmno", "...", "eth\v0"]),
    ("CNI_CONTAINERID", ["c" * 253, "0"]),
]

BAD_INPUTS = ["", " ", "{", "[]", "null", "7", '"x"', "{}{}", '{"cniVersion":"1.0.0","na', '{"a":1e999}', "{'a':1}"]


def stated_calls():
    """Calls with one thing broken, and what is told of each."""
    for path, values, told, commands in BAD_MEMBERS:
        for place, value in enumerate(values):
            command = commands[place % len(commands)]
            config = with_member(good_config(command), path, value)
            version = config["cniVersion"]
            yield good_env(command), text_of(config), f"refused {version} 7 {told}"
    for name, values, commands in BAD_VARIABLES:
        for place, value in enumerate(values):
            command = commands[place % len(commands)]
            env = with_variable(good_env(command), name, value)
            yield env, text_of(good_config(command)), f"refused 1.0.0 4 {name}"
    for value in (GONE, "", "add", "ADD ", "MOVE"):
        env = with_variable(good_env("ADD"), "CNI_COMMAND", value)
        yield env, text_of(good_config("ADD")), "refused 1.0.0 4 CNI_COMMAND"
    for place, stdin in enumerate(BAD_INPUTS):
        yield good_env(ALL[place % len(ALL)]), stdin, "refused 1.0.0 6 "
    for command in ALL:
        for said in ("2.0.0", "0.2.0", "1.0", "", 1, None, GONE):
            config = with_member(good_config(command), ("cniVersion",), said)
            yield good_env(command), text_of(config), f"refused 1.0.0 1 {said if isinstance(said, str) else ''}"
    for command, versions in (("CHECK", VERSIONS[:2]), ("GC", VERSIONS[:4]), ("STATUS", VERSIONS[:4])):
        for said in versions:
            config = with_member(good_config(command), ("cniVersion",), said)
            yield good_env(command), text_of(config), f"refused {said} 1 {said}"
    for stdin in ("[]", "{", '"1.0.0"'):
        yield good_env("VERSION"), stdin, "refused 1.0.0 6 "


def good_calls():
    for command in ALL:
        yield good_env(command), text_of(good_config(command))
    for path, values in GOOD_MEMBERS:
        for place, value in enumerate(values):
            command = {"prevResult": "CHECK", VALID: "GC"}.get(path[0], ("ADD", "STATUS")[place % 2])
            config = good_config(command)
            if command != "STATUS" or path != ("cniVersion",):
                yield good_env(command), text_of(with_member(config, path, value))
    for name, values in GOOD_VARIABLES:
        for value in values:
            yield with_variable(good_env("ADD"), name, value), text_of(good_config("ADD"))
    twice = [("CNI_COMMAND", "DEL"), ("CNI_CONTAINERID", "")] + good_env("ADD") + [("CNI_CONTAINERID", "c9")]
    yield twice, text_of(good_config("ADD"))
    yield good_env("ADD"), '{"name":1,' + text_of(good_config("ADD"))[1:]
    yield with_variable(good_env("DEL"), "CNI_NETNS", GONE), text_of(good_config("DEL"))
    yield [("CNI_COMMAND", "GC")], text_of(good_config("GC"))
    yield [("CNI_COMMAND", "STATUS")], text_of(good_config("STATUS"))
    for stdin in ("", "{}", '{"cniVersion":"0.3.1"}', '{"cniVersion":"2.0.0"}', '{"cniVersion":1,"name":[]}'):
        yield good_env("VERSION"), stdin
    only_ipv6 = {"type": "calico-ipam", "assign_ipv4": "false", "assign_ipv6": "true"}
    yield good_env("ADD"), text_of(with_member(good_config("ADD"), ("ipam",), only_ipv6))
    for command, names in (("ADD", ["2001:DB8:0:0:0:0:0:0/48", "q"]), ("STATUS", ["q"])):
        both = {"type": "calico-ipam", "assign_ipv6": "true", "ipv6_pools": names}
        yield good_env(command), text_of(with_member(good_config(command), ("ipam",), both))


def mixed_calls(draw):
    """Calls with two to four things broken."""
    for _ in range(RANDOM_LINES):
        command = draw.choice(COMMANDS + ["MOVE"])
        config, env = good_config(command), good_env(command)
        for _ in range(draw.randrange(2, 5)):
            if draw.randrange(3):
                path, values, _, _ = draw.choice(BAD_MEMBERS)
                try:
                    config = with_member(config, path, draw.choice([v for v in values if len(str(v)) < 99]))
                except (TypeError, AttributeError, IndexError, KeyError):
                    pass
            elif draw.randrange(5):
                name, values, _ = draw.choice(BAD_VARIABLES)
                env = with_variable(env, name, draw.choice([v for v in values if len(str(v)) < 99]))
            else:
                config["cniVersion"] = draw.choice(VERSIONS + ["2.0.0", 3])
        yield env, text_of(config)
