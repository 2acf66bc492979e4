"""Bad input for the two readers behind a socket: a session of the daemon, and the client."""

import json
import sqlite3

import cni_table
from changes import changed_json, changed_text
from links import Daemon, Seeming
from second_records import compact
from second_session import Sessions, error, line_of_call, taken

MEGABYTE = 2**20
PATIENCE = 60


def encoded(text):
    return text.encode("utf-8", "surrogatepass")


# ---- sessions


def call_line(command, container="c1", args=None, **members):
    env = dict(cni_table.good_env(command), CNI_CONTAINERID=container, **({"CNI_ARGS": args} if args else {}))
    config = {**cni_table.good_config(command), **members}
    return compact({"env": env, "stdin": compact(config)})


def request_line(word, **request):
    return compact({"request": {word: request}})


ONE_POOL = request_line("pool", cidr="10.0.0.0/28", name="p", size=30)
GC_NONE = call_line("GC", **{cni_table.VALID: []})
GOOD = [
    [ONE_POOL, call_line("ADD"), call_line("ADD", "c2", "IP=10.0.0.1"), call_line("DEL"), call_line("STATUS")],
    [call_line("ADD"), call_line("CHECK", prevResult={"ips": [{"address": "10.0.0.0/32"}]}), GC_NONE, call_line("VERSION")],
    [request_line("add", handle="net.c3", node="b"), request_line("collect", live=["net.c3"]), '{"feed":["net.c1"]}', GC_NONE],
    [request_line("collect", live=[]), call_line("ADD", "c4"), '{"routes":true}', '{"stop":true}', '{"stop":true}', ONE_POOL],
    [request_line("collect", grace=3600, live=[]), '{"feed":[]}', ONE_POOL, '{"stop":true}', '{"routesSince":1}'],
    [request_line("reserve", cidrs=["10.0.0.0/31"], name="r"), request_line("probe", node="a"), request_line("unreserve", name="r")],
    [request_line("disable", disabled=True, name="p"), call_line("STATUS"), request_line("disable", disabled=False, name="p")],
    [request_line("release", cidr="10.0.0.0/30", node="a"), request_line("config", strictAffinity=True), call_line("ADD", "c5")],
    [request_line("check", addresses=["10.0.0.0"], handle="net.c1"), request_line("del", handle="net.c3"), request_line("config")],
]  # fmt: skip


def changed_line(draw, line):
    value = json.loads(line)
    if "stdin" in value and draw.random() < 0.5:
        return compact({**value, "stdin": changed_json(draw, value["stdin"])})
    return changed_json(draw, line)


def changed_session(draw):
    """The bytes of a session of which one line is changed, and maybe some bytes and the last line end."""
    lines = list(draw.choice(GOOD))
    at = draw.randrange(len(lines))
    lines[at] = changed_line(draw, lines[at])
    data = encoded("\n".join(lines) + "\n")
    how = draw.random()
    if how < 0.1:
        at = draw.randrange(len(data))
        data = data[:at] + bytes([draw.choice([0, 9, 10, 13, 0x80, 0xC0, 0xED, 0xFF])]) + data[at + draw.choice([0, 1]) :]
    elif how < 0.2:
        data = data[: draw.randrange(len(data))]
    return data


def rows_of(database):
    with sqlite3.connect(database) as opened:
        rows = opened.execute("SELECT key, revision, body FROM rows").fetchall()
    opened.close()
    return {key: (revision, json.loads(body)) for key, revision, body in rows}


class Served:
    """A daemon and its second: what each session is replied, and how it ends."""

    def __init__(self, program, place):
        self.program, self.database = program, place / "served.db"
        for file in place.glob("served.db*"):
            file.unlink()
        self.daemon = Daemon(program.path, self.database)
        self.has_routes = self.daemon.session(b'{"routes":true}\n')[0] != b'{"refused":"line"}\n'
        self.second = Sessions({}, self.has_routes)

    def wanted(self, data, found):
        """The replies and the end; what was found counts only where a clock decides."""
        *lines, rest = data.split(b"\n")
        came = found.split(b"\n")
        replies = []
        for place, line in enumerate(lines):
            said = json.loads(came[place]) if place < len(came) - 1 else None
            replies.append(compact(self.second.reply(line, said)) + "\n")
        self.second.ends()
        return "".join(replies).encode(), "session ended early" if rest else "session closed"

    def tried(self, data):
        found = self.daemon.session(data)
        wrong = self.program.wrong
        self.program.want("sessions", repr(data), found, self.wanted(data, found[0]))
        return self.program.wrong == wrong

    def ended(self):
        """Ends the daemon, whose file has to have the rows of the second."""
        self.daemon.stop()
        self.program.want("rows of sessions", "", rows_of(self.database), self.second.cluster.store.rows)


def try_sessions(program, draw, count, place):
    served = Served(program, place)
    for _ in range(count):
        if not served.tried(changed_session(draw)):
            served.ended()
            served = Served(program, place)
    served.ended()
    if not served.has_routes:
        print("sessions: this program refuses lines that ask for routes, as lines that it does not read")


# ---- replies

REPLIES = [
    {"status": 0, "stdout": '{"cniVersion":"1.0.0","ips":[{"address":"10.0.0.0/32"}]}\n'},
    {"status": 1, "stdout": error("1.0.0", 100, "IPv4")[1]},
    {"status": 0, "stdout": ""},
    {"status": 0, "stdout": "é\t\"\\\u0001\U0001f600"},
]  # fmt: skip


def changed_reply(draw):
    value = draw.choice(REPLIES)
    if draw.random() < 0.4:
        value = {"stdout": changed_text(draw, value["stdout"]), "status": draw.choice([0, 1])}
        text = json.dumps(value, ensure_ascii=draw.random() < 0.5, sort_keys=draw.random() < 0.5)
    else:
        text = changed_json(draw, compact(value))
    data = encoded(text + "\n")
    how = draw.random()
    if how < 0.1:
        return data[:-1]
    if how < 0.2:
        return data[: draw.randrange(len(data))]
    if how < 0.3:
        return data + draw.choice([b"\n", b"x", b'{"status":1,"stdout":""}\n', b"\xff"])
    if how < 0.4:
        at = draw.randrange(len(data))
        return data[:at] + bytes([draw.choice([0, 9, 10, 13, 0x80, 0xC0, 0xED, 0xFF])]) + data[at + draw.choice([0, 1]) :]
    return data


def client(program, seeming, reply, env, stdin, is_reset=False):
    """What the client answers, and the line that it sent."""
    seeming.answers(reply, is_reset)
    found = program.run(["call", seeming.address], stdin, env)
    seeming.served.wait(PATIENCE)
    return found, seeming.line


def try_replies(program, draw, count):
    seeming = Seeming()
    for _ in range(count):
        command = draw.choice(cni_table.COMMANDS)
        env = dict(cni_table.good_env(command), CNI_PATH="/opt/cni/bin")
        stdin = compact(cni_table.good_config(command))
        reply, is_reset = changed_reply(draw), False
        wanted = taken(stdin, reply)
        if b"\n" not in reply and draw.random() < 0.5:
            is_reset = True
            status, told = error("1.1.0" if command in ("GC", "STATUS") else "1.0.0", 111, "link")
            wanted = status, told.encode()
        found = client(program, seeming, reply, env, encoded(stdin), is_reset)
        program.want("replies", repr(reply), found, (wanted, line_of_call(env, stdin)))


# ---- long input


def deep(size):
    return b'{"stop":' + b"[" * (size - 8)


def one_byte(size):
    return b"x" * size


def surrogates(size):
    return b'{"stop":"' + b"\\ud800" * (size // 6 - 3) + b'"}'


def digits(size):
    return b'{"routesSince":' + b"7" * (size - 16) + b"}"


def repeated(member, last):
    """A member 100,000 times, or as often as there is room for it, and the last ones behind it."""
    return lambda size: b"{" + member * min(100_000, (size - 64) // len(member)) + last + b"}"


def variables(size):
    member = b'"CNI_COMMAND":"x",'
    return b'{"env":{' + member * min(100_000, (size - 64) // len(member)) + b'"CNI_COMMAND":"VERSION"},"stdin":""}'


def handles(size):
    return b'{"feed":["n.c1"' + b',"n.c1"' * (size // 7 - 4) + b"]}"


def ended_line(make):
    return lambda size: make(size - 1) + b"\n"


SHORT = [MEGABYTE // 8, MEGABYTE - 1]
LINE = {"refused": "line"}
VERSIONS = {"status": 0, "stdout": compact({"cniVersion": "1.0.0", "supportedVersions": cni_table.VERSIONS}) + "\n"}
LONG_LINES = [
    ("200 or more [", deep, LINE),
    ("lone surrogates", surrogates, LINE),
    ("a number of a million digits", digits, LINE),
    ("a member 100,000 times", repeated(b'"stop":0,', b'"stop":0'), LINE),
    ("a member 100,000 times, good last", repeated(b'"stop":0,', b'"stop":true'), {"refused": "not waiting"}),
    ("a variable as often as there is room", variables, VERSIONS),
    ("live handles", handles, {"refused": "not waiting"}),
    ("one byte", one_byte, LINE),
]


def try_long_lines(compared, program, place):
    """Long lines of sessions: `compared` tells the times of what runs."""
    daemon = Daemon(program.path, place / "long.db")

    def runs(data):
        start = daemon.spent()
        found = daemon.session(data)
        return found, daemon.spent() - start

    def counts(data):
        (came, end), took = runs(data)
        return (came == (compact(LINE) + "\n").encode() * len(data), end), took

    def shown(name, make, sizes, reply, end):
        # (over TCP the first byte of all has to be one that a line can begin with)
        begins = make(sizes[0])[:1] in (b"{", b" ", b"\t", b"\r", b"\n")
        wanted = (reply, end) if begins else (b"", "connection closed: it did not begin as a session does")
        compared(program, "serve", name, make, sizes, runs, wanted)

    for name, make, reply in LONG_LINES:
        shown(name, ended_line(make), SHORT, compact(reply).encode() + b"\n", "session closed")
    shown("one byte, and no line end", one_byte, [MEGABYTE - 1], b"", "session ended early")
    shown("one byte, and no line end", one_byte, [MEGABYTE, 16 * MEGABYTE, 64 * MEGABYTE], b"", "session ended early")
    shown("deep, and no line end", deep, [64 * MEGABYTE], b"", "session ended early")
    sizes = [MEGABYTE // 64, MEGABYTE // 8]
    compared(program, "serve", "empty lines", lambda size: b"\n" * size, sizes, counts, (True, "session closed"))
    daemon.stop()


def output(size):
    return b'{"status":0,"stdout":"' + b"x" * (size - 25) + b'"}\n'


SHORTEST = b'{"status":0,"stdout":""}\n'
NO_REPLY = (1, error("1.0.0", 111, "reply")[1].encode())
LONG_REPLIES = [
    ("200 or more [", deep, NO_REPLY),
    ("lone surrogates", surrogates, NO_REPLY),
    ("a number of a million digits", digits, NO_REPLY),
    ("a member 100,000 times", repeated(b'"status":7,', b'"stdout":""'), NO_REPLY),
    ("a member 100,000 times, good last", repeated(b'"status":7,', b'"status":1,"stdout":"x"'), (1, b"x")),
    ("one byte", one_byte, NO_REPLY),
]


def try_long_replies(compared, program, spent):
    """Long replies to the client; `spent` gives the processor seconds of all programs so far."""
    seeming = Seeming()
    env, stdin = dict(cni_table.good_env("ADD")), encoded(compact(cni_table.good_config("ADD")))

    def runs(data):
        start = spent()
        found, _ = client(program, seeming, data, env, stdin)
        return found, spent() - start

    def asks(data):
        start = spent()
        return client(program, seeming, b"", env, data), spent() - start

    def shown(name, make, sizes, wanted):
        compared(program, "call", name, make, sizes, runs, wanted)

    undecodable = (1, error("1.0.0", 6, "")[1].encode())
    compared(program, "call", "one byte as standard input", one_byte, [MEGABYTE, 64 * MEGABYTE], asks, (undecodable, b""))

    for name, make, wanted in LONG_REPLIES:
        shown(name, ended_line(make), SHORT, wanted)
    shown("an output", output, SHORT, lambda found: found[0] == 0 and set(found[1]) == {ord("x")})
    shown("blanks before a reply", lambda size: b" " * size + SHORTEST, [MEGABYTE // 8, MEGABYTE - len(SHORTEST)], (0, b""))
    shown("a reply of one byte too many", lambda size: b" " * size + SHORTEST, [MEGABYTE - len(SHORTEST) + 1], NO_REPLY)
    shown("one byte, and no line end", one_byte, [MEGABYTE, 16 * MEGABYTE, 64 * MEGABYTE], NO_REPLY)
    shown("one byte behind a reply", lambda size: SHORTEST + one_byte(size), [MEGABYTE, 64 * MEGABYTE], (0, b""))
