#!/usr/bin/env python3
"""Bad input for every reader of bytes that the program reaches, and long input for its times.

For each reader the script makes a hundred inputs from good ones by random changes, and gives them to the
program. The second readers of the tables and Python's `json` decide what the program has to answer. The
seed is fixed, so two runs try the same. Lines of a session go to the daemon. The client reads the replies
of a small server that imitates a daemon. Then come inputs that are deep, long or many, in two sizes each,
with their times. The script reports an input that takes much longer than its added bytes explain.

    tools/checks/bad_input.py              by ./ipam, all of it
    tools/checks/bad_input.py PROGRAM [COUNT [SEED]]
"""

import atexit
import json
import random
import re
import resource
import shutil
import sqlite3
import subprocess
import sys
import tempfile
from pathlib import Path

TOP = Path(__file__).resolve().parents[2]
sys.path += [str(TOP / "tools/second"), str(TOP / "tools/tables")]
# pylint: disable=wrong-import-position
import cni_table
import request_table
import resource_table
from bad_links import try_long_lines, try_long_replies, try_replies, try_sessions
from changes import changed_json, changed_text, changed_value
from play_table import BASE, COLLECT, HELD, POOLS, add, add_this, begin, delete
from second_allocator import Refused, Script
from second_opening import first_fault
from second_records import compact

PLACE = Path(tempfile.mkdtemp(prefix="ipam-bad-"))
atexit.register(shutil.rmtree, PLACE, ignore_errors=True)
DATABASE = PLACE / "rows.db"
SEED, COUNT = 24, 100

# ---- the program


class Program:
    def __init__(self, path):
        self.path, self.tried, self.wrong = path, 0, 0

    def run(self, words, data, env=None):
        told = subprocess.run(
            [self.path, *words], input=data, capture_output=True, env={"IPAM_DB": str(DATABASE), **(env or {})}, timeout=300
        )
        return told.returncode, told.stdout

    def want(self, reader, given, found, wanted):
        """Tells where what was found is not what is wanted."""
        self.tried += 1
        if not (wanted(found) if callable(wanted) else found == wanted):
            self.wrong += 1
            text = given if isinstance(given, str) else repr(given)
            print(f"{reader}: {text[:400]!r}\n  found {found!r}\n  wanted {wanted!r}"[:1600])


def without_rows():
    for file in PLACE.glob("rows.db*"):
        file.unlink()


def put_rows(path, rows):
    """Makes a file of these rows."""
    with sqlite3.connect(path) as database:
        # (these files need not outlive a loss of power)
        database.execute("PRAGMA synchronous = OFF")
        database.execute("CREATE TABLE rows(key TEXT PRIMARY KEY, revision INTEGER NOT NULL, body TEXT NOT NULL)")
        database.executemany("INSERT INTO rows VALUES(?, ?, ?)", rows)
    database.close()


def with_rows(rows):
    without_rows()
    put_rows(DATABASE, rows)


# ---- scripts

NUMBER = re.compile(r"0|[1-9][0-9]*")


def number(word, least, most):
    if not NUMBER.fullmatch(word) or not least <= int(word) <= most:
        raise ValueError
    return word


def slot(word):
    return number(word, 0, 63)


def read_json(text, reader):
    shown = request_table.answer(text, reader)
    if shown == "unreadable":
        raise ValueError
    return shown


LIVE = request_table.list_of(request_table.handle)


def canonical(line):
    """The line in its printed spelling, or ValueError where it has no form of a line."""
    word, space, rest = line.partition(" ")
    if word == "restart" and not space:
        return line
    first, more, rest = rest.partition(" ")
    if word == "counter" and not more:
        return f"counter {number(first, 0, 2**64 - 1)}"
    if word == "row" and more:
        key, body, text = rest.partition(" ")
        if not body or not key:
            raise ValueError
        return f"row {number(first, 0, 2**64 - 1)} {key} {text}"
    if word == "turn":
        return f"turn {slot(first)} {number(rest, 1, 100_000)}" if more else f"turn {slot(first)}"
    if word in ("fail", "lose", "stop") and not more:
        return f"{word} {slot(first)}"
    if word == "begin" and more:
        return f"begin {slot(first)} {read_json(rest, request_table.request)}"
    if word == "feed" and more:
        return f"feed {slot(first)} {feed_of(rest)}"
    raise ValueError


def feed_of(rest):
    at, space, live = rest.partition(" ")
    if space and NUMBER.fullmatch(at):
        return f"{number(at, 0, 2**64 - 1)} {read_json(live, LIVE)}"
    return read_json(rest, LIVE)


def played(lines):
    """What is written of the lines, by the second allocator, and the status."""
    script, last, status = Script(), "", 0
    for place, line in enumerate(lines, 1):
        try:
            script.line(canonical(line))
        except ValueError:
            last, status = f"line {place}: unreadable\n", 8
            break
        except Refused as why:
            last, status = f"line {place}: {why.args[0]}\n", 8
            break
    journal = script.cluster.journal if script.cluster else []
    return status, ("".join(f"{one}\n" for one in journal) + last).encode()


SCRIPTS = [
    BASE + add("n.c1", "a") + "turn 0 8\n" + delete("n.c1") + "turn 0 5\n",
    BASE + add("n.c1", "a") + add("n.c2", "b", slot=1) + "turn 0 5\nturn 1 5\nstop 1\nfail 0\nrestart\n",
    HELD + COLLECT + "turn 0\nfeed 0 []\nturn 0 5\n",
    POOLS + add("n.c1", "a") + "turn 0 7\n" + begin(1, '{"release":{"cidr":"10.0.0.0/30","node":"a"}}') + "turn 1 6\nlose 0\n",
    BASE + 'begin 0 {"reserve":{"cidrs":["10.0.0.0/31"],"name":"r"}}\nturn 0 2\n' + add_this("10.0.0.1", "n.c1", "a") + "turn 0 6\n",
]  # fmt: skip


def try_lines(program, draw, count):
    for _ in range(count):
        lines = draw.choice(SCRIPTS).splitlines()
        first = next(n for n, line in enumerate(lines) if not line.startswith("row "))
        at = draw.randrange(first, len(lines))
        lines[at] = changed_text(draw, lines[at]).replace("\n", "").replace("\r", "")
        if at == first and canonical_or_none(lines[at]) and lines[at].split(" ")[0] in ("row", "counter"):
            continue
        program.want("lines", lines[at], program.run(["play"], "".join(f"{line}\n" for line in lines).encode()), played(lines))


def canonical_or_none(line):
    try:
        return canonical(line)
    except ValueError:
        return None


REQUESTS = [text for text in request_table.all_requests() if request_table.answer(text, request_table.request) != "unreadable"]


def try_requests(program, draw, count):
    for _ in range(count):
        text = changed_json(draw, draw.choice(REQUESTS)).replace("\n", " ").replace("\r", " ")
        shown = request_table.answer(text, request_table.request)
        wanted = (8, b"line 1: unreadable\n") if shown == "unreadable" else (0, f"0 began {shown}\n".encode())
        program.want("requests", text, program.run(["play"], f"begin 0 {text}\n".encode()), wanted)


# ---- CNI

TEXTS = {1: "incompatible CNI version", 4: "invalid environment variable"}
TEXTS |= {6: "cannot decode network configuration", 7: "invalid network configuration"}
MAY = {"ADD": (0, 100, 107, 108, 109), "DEL": (0,), "CHECK": (0, 102), "VERSION": (0,), "GC": (0,), "STATUS": (0, 112)}


def cni_wanted(env, stdin):
    """What the call has to be answered: the error, or one of the codes of what it asks."""
    text = "{}" if cni_table.last(env, "CNI_COMMAND") == "VERSION" and stdin == "" else stdin
    try:
        resource_table.parsed(text)
        told = cni_table.read(env, text)
    except resource_table.Fault:
        told = "refused 1.0.0 6 "
    if not told.startswith("refused "):
        return MAY[cni_table.last(env, "CNI_COMMAND")]
    _, version, code, details = told.split(" ", 3)
    error = {"cniVersion": version, "code": int(code), "details": details, "msg": TEXTS[int(code)]}
    return 1, f"{compact(error)}\n".encode()


def code_of(found):
    """The code of an answer: 0 of a success."""
    status, written = found
    return json.loads(written)["code"] if status else status


def try_call(program, reader, env, stdin):
    with_rows([("pools", 1, '{"pools":[{"blockSize":26,"cidr":"10.0.0.0/24","disabled":false,"name":"p"}]}')])
    found = program.run(["cni"], stdin.encode("utf-8", "surrogatepass"), dict(env))
    wanted = cni_wanted(env, stdin)
    if isinstance(wanted[-1], bytes):
        program.want(reader, (env, stdin), found, wanted)
    else:
        program.want(reader, (env, stdin), found, lambda answer: code_of(answer) in wanted)


def try_configurations(program, draw, count):
    for _ in range(count):
        command = draw.choice(cni_table.COMMANDS)
        config = cni_table.text_of(cni_table.good_config(command))
        try_call(program, "configurations", cni_table.good_env(command), changed_json(draw, config))


def try_environments(program, draw, count):
    for _ in range(count):
        command = draw.choice(cni_table.COMMANDS)
        env = cni_table.good_env(command) + [("CNI_ARGS", "IgnoreUnknown=1;IP=10.0.0.7;K8S_POD_NAMESPACE=x;K8S_POD_NAME=y")]
        at = draw.randrange(len(env))
        env[at] = (env[at][0], changed_text(draw, env[at][1]).replace("\0", ""))
        try_call(program, "environments", env, cni_table.text_of(cni_table.good_config(command)))


# ---- resources

DOCUMENTS = [text for texts in resource_table.all_documents() for text in texts if not resource_table.answer(text).startswith("refused")]


def resources_told(text):
    """The first lines that the document may be answered by."""
    told = resource_table.answer(text)
    if told.startswith("refused"):
        return lambda found: found == (1, told.encode())
    names = [line[len("applied ") :] for line in told.splitlines() if line.startswith("applied ")]

    def is_told(found):
        status, lines = found[0], found[1].decode().splitlines()
        applied = [f"applied {one}" for one in names]
        if status == 0:
            return lines == applied
        before, last = lines[:-1], lines[-1]
        return status == 1 and before == applied[: len(before)] and last.startswith(f"refused {names[len(before)]}: ")

    return is_told


def try_resources(program, draw, count):
    for _ in range(count):
        without_rows()
        text = changed_json(draw, draw.choice(DOCUMENTS))
        program.want("resources", text, program.run(["apply"], text.encode()), resources_told(text))


# ---- records

ROWS = [
    ("affinity/a/10.0.0.0/30", 2, '{"cidr":"10.0.0.0/30","node":"a","state":"confirmed"}'),
    ("affinity/b/10.0.0.4/30", 8, '{"cidr":"10.0.0.4/30","node":"b","state":"pending"}'),
    (
        "block/10.0.0.0/30",
        6,
        '{"affinity":"host:a","allocations":[null,0,null,null],"attributes":[{"handle_id":"n.c1","secondary":{"node":"a"}}],'
        '"cidr":"10.0.0.0/30","sequenceNumber":3,"sequenceNumberForAllocation":{"1":3},"unallocated":[2,3,0]}',
    ),
    ("config", 7, '{"autoAllocateBlocks":true,"maxBlocksPerHost":4,"strictAffinity":false}'),
    ("handle/n.c1", 5, '{"block":{"10.0.0.0/30":1},"handleID":"n.c1"}'),
    (
        "pools",
        1,
        '{"pools":[{"blockSize":30,"cidr":"10.0.0.0/29","disabled":false,"name":"p"},{"assignmentMode":"Manual",'
        '"blockSize":122,"cidr":"2001:db8::/48","disabled":true,"name":"six","nodeSelector":"zone == \'west\'"}]}',
    ),
    ("reservations", 3, '{"reservations":[{"name":"r","reservedCIDRs":["10.0.0.2/31"]}]}'),
]


def changed_rows(draw):
    rows = list(ROWS)
    at = draw.randrange(len(rows))
    key, revision, body = rows[at]
    how = draw.random()
    if how < 0.15:
        key = changed_text(draw, key).replace("\0", "")
    elif how < 0.25:
        revision = draw.choice([0, 1, 3, 9, 2**62, 2**62 + 1])
    elif how < 0.3:
        return rows[:at] + rows[at + 1 :]
    elif how < 0.7:
        body = compact(changed_value(draw, json.loads(body)))
    else:
        body = changed_text(draw, body).replace("\0", "")
    rows[at] = (key, revision, body)
    return rows


def try_records(program, draw, count):
    for _ in range(count):
        rows = changed_rows(draw)
        if len({key for key, _, _ in rows}) < len(rows):
            continue
        with_rows(rows)
        fault = first_fault(rows)
        lines = [f"{key} {revision} {body}\n" for key, revision, body in sorted(rows, key=lambda row: row[0].encode())]
        wanted = (7, f"datastore OR{fault[0]} {fault[1]}\n") if fault else (0, "".join(lines))
        changed = [row for row in rows if row not in ROWS]
        program.want("records", changed, program.run(["get"], b""), (wanted[0], wanted[1].encode()))


def try_lines_of_sessions(program, draw, count):
    try_sessions(program, draw, count, PLACE)


READERS = [try_lines, try_requests, try_configurations, try_environments, try_resources, try_records]
READERS += [try_lines_of_sessions, try_replies]


# ---- long input

CALL = dict(cni_table.good_env("ADD"))
UNDECODABLE = b'{"cniVersion":"1.0.0","code":6,"details":"","msg":"cannot decode network configuration"}\n'
MEGABYTE = 2**20


def deep(size):
    return b'{"x":' + b"[" * (size - 5)


def one_byte(size):
    return b"x" * size


def surrogates(size):
    return b'{"x":"' + b"\\ud800" * (size // 6 - 2) + b'"}'


def digits(size):
    return b'{"x":' + b"7" * (size - 6) + b"}"


def repeated(size):
    """A member 100,000 times, or as often as there is room for it."""
    member = b'"kind":"IPPool",' if size > 2 * MEGABYTE else b'"kind":1,'
    return b"{" + member * min(100_000, size // len(member) - 2) + b'"cniVersion":"9"}'


def line_of(data):
    return b"begin 0 " + data + b"\n"


def spent():
    """The processor seconds of all programs so far."""
    took = resource.getrusage(resource.RUSAGE_CHILDREN)
    return took.ru_utime + took.ru_stime


def running(program, words, env=None):
    """What runs these words with input, and gives the answer and its processor seconds."""

    def runs(data):
        without_rows()
        start = spent()
        answer = program.run(words, data, env)
        return answer, spent() - start

    return runs


def times(program, word, data, runs, wanted):
    """The least of three times of the processor, each with the answer that is wanted."""
    found = []
    for _ in range(3):
        answer, took = runs(data)
        found.append(took)
        program.want("long " + word, data[:40].decode(), answer, wanted)
    return min(found)


def compared(program, word, name, make, sizes, runs, wanted):
    """Tells the times of inputs of these sizes."""
    data = [make(size) for size in sizes]
    took = [times(program, word, one, runs, wanted) for one in data]
    told = ", ".join(f"{len(one) / MEGABYTE:.1f} MiB {1000 * t:.0f} ms" for one, t in zip(data, took))
    print(f"{word:6} {name:38} {told}", flush=True)
    growth = len(data[-1]) / len(data[0])
    if took[-1] > 0.02 + 2 * growth * took[0]:
        program.wrong += 1
        print("  this grows faster than the bytes")


def refused(text):
    return 1, f"refused: {text}\n".encode()


def try_long(program):
    def shown(name, make, words, sizes, wanted, env=None):
        compared(program, words[0], name, make, sizes, running(program, words, env), wanted)

    short, whole = [MEGABYTE // 8, MEGABYTE - 16], [4 * MEGABYTE, 16 * MEGABYTE, 64 * MEGABYTE]
    # (a number that no float reaches is no JSON)
    for name, make in [("200 or more [", deep), ("lone surrogates", surrogates), ("a number of a million digits", digits)]:
        shown(name, make, ["cni"], short, (1, UNDECODABLE), CALL)
        shown(name, make, ["apply"], whole, refused("not JSON"))
        shown(name, lambda size: line_of(make(size - 16)), ["play"], short, (8, b"line 1: unreadable\n"))
    shown("a member 100,000 times", repeated, ["cni"], [MEGABYTE // 8, MEGABYTE - 32], lambda f: code_of(f) == 1, CALL)
    shown("a member 100,000 times", repeated, ["apply"], [4 * MEGABYTE], refused("metadata.name"))
    shown("a member 100,000 times", lambda size: line_of(repeated(size - 32)), ["play"], short, (8, b"line 1: unreadable\n"))
    shown("one byte", one_byte, ["cni"], [MEGABYTE, 16 * MEGABYTE, 64 * MEGABYTE], (1, UNDECODABLE), CALL)
    shown("one byte", one_byte, ["apply"], [*whole[:2], 64 * MEGABYTE], refused("not JSON"))
    shown("one byte, and one more", one_byte, ["apply"], [64 * MEGABYTE + 1], refused("long"))
    shown("one byte", one_byte, ["play"], [2 * MEGABYTE, 64 * MEGABYTE], (8, b"line 1: long\n"))
    shown("lines that each stop all", lambda size: b"restart\n" * (size // 8), ["play"], whole, (0, b""))


def main():
    words = sys.argv[1:]
    program = Program(words[0] if words else str(TOP / "ipam"))
    count, seed = int(words[1]) if len(words) > 1 else COUNT, int(words[2]) if len(words) > 2 else SEED
    for reader in READERS:
        before = program.tried, program.wrong
        reader(program, random.Random(f"{seed} {reader.__name__}"), count)
        print(f"{reader.__name__[4:]}: {program.tried - before[0]} tried, {program.wrong - before[1]} wrong", flush=True)
    try_long(program)
    try_long_lines(compared, program, PLACE)
    try_long_replies(compared, program, spent)
    print(f"{program.tried} tried, {program.wrong} wrong")
    return 1 if program.wrong else 0


if __name__ == "__main__":
    sys.exit(main())
