#!/usr/bin/env python3
"""Asks a daemon of the program the cases of `daemon_cases.txt`, and compares what is told with what is wanted there.

    tools/checks/daemon_cases.py [PROGRAM]        else release/ipam

A case has a title, whose first words say of which kind it is, steps, and the lines `= TEXT` that are wanted of them.
Each one that failed is told with the lines that came. The last line is `N passed, M failed`. It needs Linux.

| Kind | What its steps are |
|---|---|
| `session ROWS` | sessions of a daemon over these rows. `> TEXT` is a line, `. TEXT` a text without a line feed, and `fill N` are N bytes. `= session END` ends one |
| `pages` | the same over many handles. `page FIRST..END` writes their rows in a page so |
| `daemon both` or `file` or `tcp` | clients of a daemon at a socket file, over TCP, or at both, by the words of `Play` |
| `deaf` | one client that reads no reply |
| `crowd N` | so many sessions that ask at once |
| `heavy N` | so many sessions with a long line at once |
| `serving ROWS` | how `serve` ends `at ADDRESS` at once, maybe with so many bytes of `room` for its line, or of `memory` |
| `unreached` | `call ADDRESS⇒STANDARD INPUT` where nobody is. With `fail` the input is a folder |
| `late SECONDS` | a call whose reply comes after so many seconds |
| `opening` | whether two openings have a text each, which is the same for two workers |
| `file NAME` | who may `listen` at a path, and what is there then |
"""

import concurrent.futures
import contextlib
import errno
import functools
import itertools
import json
import os
import re
import resource
import select
import signal
import socket
import stat
import subprocess
import sys
import tempfile
import threading
import time
from pathlib import Path

import failing_calls
from bad_input import TOP, Program, put_rows
from links import PATIENCE, PIECE, Daemon, connected, free_port, received, sent

CASES = Path(__file__).with_suffix(".txt")
AT_ONCE = 12
MEGABYTE = 2**20

# ---- rows

POOL = '1 pools {"pools":[{"blockSize":30,"cidr":"10.0.0.0/29","disabled":false,"name":"p"}]}'
AFFINITY = '2 affinity/a/10.0.0.0/30 {"cidr":"10.0.0.0/30","node":"a","state":"confirmed"}'
HANDLE = '4 handle/n.c1 {"block":{"10.0.0.0/30":1},"handleID":"n.c1"}'
ONE_OWNER = '"attributes":[{"handle_id":"n.c1","secondary":{}}],"cidr":"10.0.0.0/30"'
NO_ADDRESS = (
    '3 block/10.0.0.0/30 {"affinity":"host:a","allocations":[null,null,null,null],"attributes":[],"cidr":"10.0.0.0/30",'
    '"sequenceNumber":0,"sequenceNumberForAllocation":{},"unallocated":[0,1,2,3]}'
)
ONE_ADDRESS = (
    f'3 block/10.0.0.0/30 {{"affinity":"host:a","allocations":[0,null,null,null],{ONE_OWNER},'
    '"sequenceNumber":1,"sequenceNumberForAllocation":{"0":1},"unallocated":[1,2,3]}'
)
# (the handle counts one address, and has two)
TWO_ADDRESSES = (
    f'3 block/10.0.0.0/30 {{"affinity":null,"allocations":[0,0,null,null],{ONE_OWNER},'
    '"sequenceNumber":2,"sequenceNumberForAllocation":{"0":1,"1":2},"unallocated":[2,3]}'
)
FREE = [POOL, AFFINITY, NO_ADDRESS]
LAST_REVISION = 3
# A collection of so many blocks is at work for a second or more.
LEAKING = 150


def handles(first, end):
    return ['%d handle/n.c%d {"block":{"10.0.0.0/30":1},"handleID":"n.c%d"}' % (at, at, at) for at in range(first, end)]


def leaks(blocks):
    """Blocks of 64 addresses, each address of a handle of its own, and these handles."""
    for number in range(blocks):
        cidr, names = f"10.1.{number // 4}.{number % 4 * 64}/26", [f"n.l{number}x{at}" for at in range(64)]
        yield from (f'2 handle/{name} {{"block":{{"{cidr}":1}},"handleID":"{name}"}}' for name in names)
        body = {"affinity": None, "allocations": list(range(64))}
        body |= {"attributes": [{"handle_id": name, "secondary": {}} for name in names], "cidr": cidr, "sequenceNumber": 64}
        body |= {"sequenceNumberForAllocation": dict(sorted((str(at), at + 1) for at in range(64))), "unallocated": []}
        yield f"65 block/{cidr} {json.dumps(body, separators=(',', ':'))}"


ROWS = {
    "free": FREE,
    "held": [POOL, AFFINITY, ONE_ADDRESS, HANDLE],
    "broken": [POOL, TWO_ADDRESSES, HANDLE],
    "pages": FREE + handles(1000, 3100),
    "many": FREE + handles(1000, 21_000),
    "leaks": [POOL.replace("10.0.0.0/29", "10.0.0.0/15").replace(":30", ":26"), *leaks(LEAKING)],
}


def database_of(folder, name):
    """A file of the rows of this name, or one that is no database."""
    path = folder / "rows.db"
    if name == "unloadable":
        path.write_text("no database")
    else:
        rows = (row.split(" ", 2) for row in ROWS[name])
        put_rows(path, [(key, int(revision), body) for revision, key, body in rows])
    return path


# ---- the program, within limits

LIMITED = """
import os, resource, signal, sys
signal.signal(signal.SIGPIPE, signal.SIG_DFL)
for pair in sys.argv[1].split(","):
    what, soft = map(int, pair.split("="))
    resource.setrlimit(what, (soft, resource.getrlimit(what)[1]))
os.execv(sys.argv[2], sys.argv[2:])
"""
STACK, FIRST_ROOM = 256 * MEGABYTE, 16 * MEGABYTE


def limited(*limits):
    """Words that start a program within these limits. A file that would grow too large is a fault of the write."""
    return [sys.executable, "-IS", "-c", LIMITED, ",".join(f"{what}={soft}" for what, soft in limits)]


def with_threads(count):
    """Words that start a program which gets so many more threads. There is no room for the stack of another."""
    hard = resource.getrlimit(resource.RLIMIT_STACK)[1]
    stack = STACK if hard == resource.RLIM_INFINITY else min(STACK, hard)
    room = FIRST_ROOM + count * stack + stack // 2
    return limited((resource.RLIMIT_STACK, stack), (resource.RLIMIT_AS, room))


def change_limit(process, what, soft=None):
    """Gives the process this limit, or none of its own."""
    hard = resource.prlimit(process.pid, what)[1]
    resource.prlimit(process.pid, what, (hard if soft is None else soft, hard))


def told_end(status, output):
    return f"{status} {json.dumps(output, ensure_ascii=False)}"


def told_run(program, words, data, env=None):
    status, output = program.run(words, data, env)
    return told_end(status, output.decode())


CONFIGURATION = b'{"cniVersion":"1.0.0","name":"n","nodename":"a","ipam":{"type":"calico-ipam"}}'


HOSTS = itertools.count(1)


def own_address():
    """A port of the loopback, at an address that nobody else uses, so that the port stays free."""
    host = f"127.77.{os.getpid() % 250 + 1}.{next(HOSTS)}"
    return f"{host}:{free_port(host)}"


def environment(command):
    return {"CNI_COMMAND": command, "CNI_CONTAINERID": "c1", "CNI_NETNS": "/x", "CNI_IFNAME": "eth0"}


# ---- what is told

OPENING = re.compile(r'\{"opened":"[0-9]+-[0-9a-f]{16}"\}')
ENDS = {"Closed": "session closed"}


def normal(reply):
    """The reply, with one text for each opening."""
    return OPENING.sub('{"opened":"7-00000000000000fe"}', reply)


def part_of(reply, steps):
    """The part of the reply that a line `part TEXT` of the steps says, or all of it."""
    for line in steps:
        if line.startswith("part ") and line[5:] in reply:
            return line[5:]
    return normal(reply)


def wanted_of(steps):
    """The lines that are wanted, with the words of the log for the end of a session."""
    return [re.sub("^session ([A-Z].*)", logged_as, line[2:]) for line in steps if line.startswith("= ")]


def logged_as(end):
    return ENDS.get(end[1], "session ended early")


def told_rows(program, database, steps):
    """The rows whose keys begin as a line `get START` says."""
    starts = tuple(line[4:] for line in steps if line.startswith("get "))
    if not starts:
        return []
    status, output = program.run(["get"], b"", {"IPAM_DB": str(database)})
    return [line for line in output.decode().splitlines() if line.startswith(starts)] if status == 0 else [f"status {status}"]


# ---- sessions


def session_of(steps):
    """The bytes of a session."""
    data = b""
    for line in steps:
        word, _, rest = line.partition(" ")
        if word in (">", "."):
            data += rest.encode() + (b"\n" if word == ">" else b"")
        elif word == "fill":
            data += b"x" * int(rest)
    return data


def sessions_of(steps):
    """The steps of each session."""
    first = 0
    for at, line in enumerate(steps):
        if line.startswith("= session "):
            yield steps[first:at]
            first = at + 1


def told_sessions(program, folder, rows, steps):
    database, told = database_of(folder, rows), []
    with serving(program, database, str(folder / "s")) as daemon:
        for one in sessions_of(steps):
            came, end = daemon.session(session_of(one))
            told += [*(normal(reply) for reply in came.decode().splitlines()), end]
    return told + told_rows(program, database, steps)


@contextlib.contextmanager
def serving(program, database, address, workers=1, env=None):
    """A daemon at this address, which is stopped."""
    daemon = Daemon(program.path, database, workers, env, address=address)
    try:
        yield daemon
    finally:
        daemon.stop()


def in_page(row):
    revision, key, body = row.split(" ", 2)
    return f',{{"body":{json.dumps(body)},"key":"{key}","revision":{revision}}}'


def told_pages(program, folder, _, steps):
    told = told_sessions(program, folder, "pages", steps)
    for line in steps:
        if line.startswith("page "):
            page = "".join(map(in_page, handles(*map(int, line[5:].split("..")))))
            told = [one.replace(page, line[5:]) for one in told]
    return told


def told_deaf(program, folder, _name, _steps):
    """A client that reads nothing, so that at some time there is no more room for a reply, and the write of it fails."""
    database = database_of(folder, "free")
    with serving(program, database, str(folder / "s")) as daemon:
        deaf = daemon.connect()
        threading.Thread(target=ask_on, args=(deaf,), daemon=True).start()
        end = daemon.end()
        replied = received(deaf).count(b"\n")
        deaf.close()
    pools = program.run(["get", "pools"], b"", {"IPAM_DB": str(database)})[1]
    done = int(pools.split()[1]) - LAST_REVISION
    return [end, "one more is done than was replied to" if done == replied + 1 else f"{done} done, {replied} replied to"]


def ask_on(connection):
    """Asks for one change after the other, until nobody takes them."""
    lines = b"".join(b'{"request":{"disable":{"disabled":%s,"name":"p"}}}\n' % word for word in (b"true", b"false"))
    with contextlib.suppress(OSError):
        while True:
            connection.sendall(lines)


# ---- many sessions at once

# (were nobody woken who waits in the queue, it would take many times as long)
MOST_CROWD = 5
LINES_EACH = 40
# The memory of a long line goes back to the system, as under the unit. To read one takes some 30 MB.
ONE_HEAP = {"MALLOC_ARENA_MAX": "1", "MALLOC_TRIM_THRESHOLD_": "1048576"}
HEAVY, REFUSED = '{"x":[' + ",".join(['{"a":1}'] * 32_000) + "]}", '{"refused":"line"}'


def told_crowd(program, folder, name, _steps):
    """Sessions whose requests wait for each other in the queue, whether all are answered, and whether that is quick."""
    with serving(program, database_of(folder, "free"), str(folder / "s"), int(name)) as daemon:
        clients = [Client(daemon.connect()) for _ in range(int(name))]
        begin = time.monotonic()
        for number, client in enumerate(clients):
            client.send(added_and_deleted(number) * (LINES_EACH // 2))
        answered = sum(client.line().startswith('{"answer":') for client in clients for _ in range(LINES_EACH))
        took = time.monotonic() - begin
    return [f"{answered} answers", "soon" if took < MOST_CROWD else f"after {took:.1f} s"]


def added_and_deleted(number):
    added = {"request": {"add": {"handle": f"n.c{number}", "node": "a"}}}
    deleted = {"request": {"del": {"handle": f"n.c{number}"}}}
    return f"{json.dumps(added)}\n{json.dumps(deleted)}\n"


def told_heavy(program, folder, name, _steps):
    """A long line by one session, and then by many at once: whether they take the memory of one, and give it back."""
    with serving(program, database_of(folder, "free"), str(folder / "s"), int(name), ONE_HEAP) as daemon:
        clients = [Client(daemon.connect()) for _ in range(int(name))]
        first = memory_of(daemon, "VmRSS")
        replies = replies_to_heavy(clients[:1])
        one = memory_of(daemon, "VmHWM") - first
        replies += replies_to_heavy(clients)
        many, kept = memory_of(daemon, "VmHWM") - first, memory_of(daemon, "VmRSS") - first
    told = [f"{replies.count(REFUSED)} refused"]
    told.append("with the memory of one" if many * 2 < one * 3 else f"{many} kB, and {one} kB for one")
    return [*told, "which is given back" if kept * 2 < one else f"{kept} kB of {one} kB stay"]


def replies_to_heavy(clients):
    senders = [threading.Thread(target=client.send, args=(HEAVY, "\n")) for client in clients]
    for sender in senders:
        sender.start()
    replies = [client.line() for client in clients]
    for sender in senders:
        sender.join()
    return replies


def memory_of(daemon, field):
    """The kilobytes that the system tells of the daemon's process."""
    lines = Path(f"/proc/{daemon.process.pid}/status").read_text().splitlines()
    return next(int(line.split()[1]) for line in lines if line.startswith(f"{field}:"))


# ---- clients of a daemon


class Client:
    """A client that is connected."""

    def __init__(self, connection):
        self.connection, self.came, self.began = connection, b"", None

    def send(self, text, end=""):
        """Sends the text and its end in one write, with a carriage return and a line feed for each sign of them."""
        self.began = self.began or time.monotonic()
        sent(self.connection, (text.replace("␍␊", "\r\n") + end).encode(), False)

    def line(self):
        """The next line, or that there is none."""
        while b"\n" not in self.came:
            try:
                part = self.connection.recv(PIECE)
            except socket.timeout:
                return "no reply"
            except ConnectionError:
                part = b""
            if not part:
                return "half a line" if self.came else "end"
            self.came += part
        line, _, self.came = self.came.partition(b"\n")
        return line.decode()

    def later(self, grace, text):
        """The reply once it isn't refused as too soon, which it has to be for the grace. The daemon's clock is of whole
        seconds."""
        reply = too_soon = '{"refused":"too soon"}'
        while reply == too_soon:
            time.sleep(0.01)
            self.send(text, "\n")
            reply = self.line()
        return reply if time.monotonic() - self.began > grace - 1 else "too early"

    def drip(self, text):
        """Sends the text, and then blanks until nobody takes them."""
        self.send(text)
        threading.Thread(target=self.send_blanks, daemon=True).start()

    def send_blanks(self):
        with contextlib.suppress(OSError):
            while True:
                time.sleep(0.2)
                self.connection.sendall(b" ")

    def waits(self):
        """Whether there is no reply so far."""
        return "a reply" if self.came or select.select([self.connection], [], [], 0)[0] else "no reply so far"

    def reset(self):
        self.connection.setsockopt(socket.SOL_SOCKET, socket.SO_LINGER, (1).to_bytes(4, "little") + bytes(4))
        self.connection.close()

    def call(self, program, command):
        """What the program tells of this call, whose line and reply go over this connection."""
        with socket.create_server(("127.0.0.1", 0)) as between:
            between.settimeout(PATIENCE)
            passes = threading.Thread(target=self.pass_on, args=(between,))
            passes.start()
            told = told_run(program, ["call", f"127.0.0.1:{between.getsockname()[1]}"], CONFIGURATION, environment(command))
            passes.join()
        return told

    def pass_on(self, between):
        """Passes a line on, and its reply back."""
        with between.accept()[0] as caller:
            self.send(Client(caller).line(), "\n")
            sent(caller, f"{self.line()}\n".encode(), True)


class Play:
    """The steps of clients of a daemon, and what is told.

    `serve N M` starts a daemon of N workers, which M clients reach. With no workers the system makes no thread, and
    with `alone` none but the workers, so that they write what is told. With `aborted` some connections are given up
    before they are accepted. Each client has a letter: `a > TEXT` sends a line, `a . TEXT` a text without a line feed,
    `a drips TEXT` a text and blanks behind it, one after the other, `a <` reads a line, `a within SECONDS` one that comes
    in time, `a later SECONDS TEXT` sends a line again while it is refused as too soon, `a waits` tells whether there is
    no reply so far, `a call COMMAND` makes a call over the connection, `a reset` resets it, and `a !` closes it.

    `call COMMAND` makes a call by a connection of its own. `gone` moves the file of the database away, and `full` lets
    the daemon open no more files until `room`. `unlinked` removes the socket file and waits for another, `taken` puts a
    file in its place, and `there` tells what has its path. `knock` connects and leaves. `paused` stops the daemon and
    lets it go on. `waits SECONDS` waits, and `works` tells whether the daemon is still at work. `ended` tells its status
    and output, `logged` what it logged of clients and calls, `warned` what else, and `get START` rows at the end.
    """

    def __init__(self, program, folder, rows, over_tcp):
        self.program, self.database = program, database_of(folder, rows)
        self.address = own_address() if over_tcp else str(folder / "s")
        self.daemon, self.clients, self.calls, self.told = None, {}, 0, []

    def played(self, steps):
        try:
            for line in steps:
                if not line.startswith(("= ", "part ", "get ")):
                    self.step(line, steps)
        finally:
            self.end()
        return self.told + told_rows(self.program, self.database, steps)

    def step(self, line, steps):
        word, _, rest = line.partition(" ")
        if word in self.clients:
            reply = self.act(word, *rest.partition(" ")[::2])
            self.told += [] if reply is None else [part_of(reply, steps)]
        else:
            self.told += getattr(self, word)(*rest.split()) or []

    def act(self, name, word, text):
        """Does what the word says, and gives the line that is told of it, if there is one."""
        client = self.clients[name]
        if word in (">", "."):
            return client.send(text, "\n" if word == ">" else "")
        if word == "!":
            return client.connection.close()
        if word == "later":
            seconds, _, line = text.partition(" ")
            return client.later(int(seconds), line)
        if word == "drips":
            return client.drip(text)
        if word == "within":
            client.connection.settimeout(int(text))
        return {"<": client.line, "within": client.line, "waits": client.waits, "reset": client.reset, "call": lambda: client.call(self.program, text)}[word]()

    def serve(self, workers, clients, how=None):
        workers, is_limited = int(workers), how == "alone" or workers == "0"
        more = {"before": with_threads(workers)} if is_limited else {}
        if how == "aborted":
            more["start"] = functools.partial(failing_calls.start, fate=aborts())
        self.daemon = Daemon(self.program.path, self.database, max(workers, 1), address=self.address, **more)
        self.clients = {name: Client(self.daemon.connect()) for name in "abcde"[: int(clients)]}
        threads = len(os.listdir(f"/proc/{self.daemon.process.pid}/task"))
        if is_limited:
            change_limit(self.daemon.process, resource.RLIMIT_AS)
        return [] if threads == 1 + workers + (not is_limited) else [f"{threads} threads"]

    def call(self, command):
        self.calls += 1
        return [told_run(self.program, ["call", self.daemon.address], CONFIGURATION, environment(command))]

    def gone(self):
        self.database.rename(f"{self.database}.away")

    def full(self):
        change_limit(self.daemon.process, resource.RLIMIT_NOFILE, 3)

    def room(self):
        change_limit(self.daemon.process, resource.RLIMIT_NOFILE)

    def unlinked(self):
        os.remove(self.address)
        until = time.monotonic() + PATIENCE
        while not os.path.exists(self.address) and time.monotonic() < until:
            time.sleep(0.01)

    def taken(self):
        other = Path(f"{self.address}.other")
        other.write_text("text")
        other.replace(self.address)

    def there(self):
        return [what_is_at(Path(self.address))]

    def waits(self, seconds):
        time.sleep(float(seconds))

    def paused(self):
        """Stops the daemon while it waits, and lets it go on: then what it waits for fails as interrupted."""
        process = self.daemon.process
        time.sleep(0.1)
        process.send_signal(signal.SIGSTOP)
        os.waitid(os.P_PID, process.pid, os.WSTOPPED)
        process.send_signal(signal.SIGCONT)

    def knock(self):
        with contextlib.suppress(ConnectionError, FileNotFoundError):
            connected(self.daemon.address).close()

    def works(self):
        return ["at work" if self.daemon.process.poll() is None else "ended"]

    def ended(self):
        """How the daemon ended."""
        return [told_end(self.daemon.process.wait(PATIENCE), Path(f"{self.database}.out").read_text())]

    def logged(self):
        """The lines of the log after that of the first connection, by their texts: sessions end in any order."""
        until, count = time.monotonic() + PATIENCE, 1 + len(self.clients) + self.calls
        lines = []
        while len(lines) < count and time.monotonic() < until:
            time.sleep(0.001)
            lines = [line for line in self.lines() if "session" in line]
        return sorted(lines[1:count])

    def warned(self):
        """The lines of the log that are of no session and no connection's first byte."""
        until, lines = time.monotonic() + PATIENCE, []
        while not lines and time.monotonic() < until:
            lines = [line for line in self.lines() if "session" not in line]
            time.sleep(0.01)
        return lines

    def lines(self):
        return self.daemon.log.read_text().split("\n")[:-1]

    def end(self):
        """Stops the daemon, and brings the file of its database back."""
        for client in self.clients.values():
            client.connection.close()
        if self.daemon is not None:
            self.daemon.stop()
        away = Path(f"{self.database}.away")
        if away.exists():
            away.rename(self.database)


def aborts():
    """Connections are given up before they are accepted, a few times."""
    return failing_calls.Call("accept4", 2, 3, 4, error=errno.ECONNABORTED)


def told_daemon(program, folder, name, steps):
    place, _, rows = name.partition(" ")
    return Play(program, folder, rows or "free", place == "tcp").played(steps)


# ---- ends at once


def told_serving(program, folder, name, steps):
    database = database_of(folder, name)
    room, memory, told = None, None, []
    with socket.create_server(("127.0.0.1", 0)) as taken:
        for line in steps:
            word, _, rest = line.partition(" ")
            if word == "room":
                room = int(rest)
            elif word == "memory":
                memory = int(rest)
            elif word == "at":
                address = f"127.0.0.1:{taken.getsockname()[1]}" if rest == "taken" else rest
                told.append(told_serve(program, database, address, room, memory))
    return told


def told_serve(program, database, address, room, memory):
    """The status of the daemon, and its output, which is a file: with room for so many bytes if it is limited."""
    before = [] if memory is None else limited((resource.RLIMIT_AS, memory))
    start = 0 if room is None else MEGABYTE - room
    if room is not None:
        before = limited((resource.RLIMIT_FSIZE, MEGABYTE))
    with open(f"{database}.out", "w+b") as out:
        out.truncate(start)
        out.seek(start)
        words, env = [*before, program.path, "serve", address, "2"], {"IPAM_DB": str(database)}
        ended = subprocess.run(words, stdout=out, stderr=subprocess.DEVNULL, env=env, timeout=PATIENCE, check=False)
        out.seek(start)
        return told_end(ended.returncode, out.read().decode())


def told_unreached(program, folder, _, steps):
    told = []
    for line in steps:
        word, _, rest = line.partition(" ")
        if word in ("call", "fail"):
            address, _, text = rest.partition("⇒")
            address = own_address() if address == "left" else address
            told.append(told_call(program, folder, address, text, word == "fail"))
    return told


def told_call(program, folder, address, text, is_failing):
    env = {**environment("ADD"), "IPAM_CONNECT_SECONDS": "0"}
    if not is_failing:
        return told_run(program, ["call", address], text.encode(), env)
    given = os.open(folder, os.O_RDONLY)
    called = subprocess.run([program.path, "call", address], stdin=given, stdout=subprocess.PIPE, env=env, check=False)
    os.close(given)
    return told_end(called.returncode, called.stdout.decode())


def told_late(program, _folder, name, _steps):
    with socket.create_server(("127.0.0.1", 0)) as listener:
        replies = threading.Thread(target=reply_late, args=(listener, int(name)))
        replies.start()
        told = told_run(program, ["call", f"127.0.0.1:{listener.getsockname()[1]}"], CONFIGURATION, environment("DEL"))
        replies.join()
    return [told]


def reply_late(listener, seconds):
    with listener.accept()[0] as caller:
        Client(caller).line()
        time.sleep(seconds)
        sent(caller, b'{"status":0,"stdout":""}\n', True)


def told_opening(program, folder, _name, _steps):
    """Whether two openings have a text each, which two sessions of one have alike, and of which form it is."""
    database, found = database_of(folder, "free"), []
    for _ in range(2):
        with serving(program, database, str(folder / "s"), 2) as daemon:
            found.append(opening_texts(daemon))
    (one, same), (other, _) = found
    seconds, _, word = one.partition("-")
    told = [one == same, word != other.partition("-")[2], bool(re.fullmatch("[0-9]+", seconds)), len(word)]
    return [" ".join(str(part).lower() for part in [*told, bool(re.fullmatch("[0-9A-Fa-f]*", word))])]


def opening_texts(daemon):
    """The texts that two sessions have at once, each of which keeps a worker, since its collection waits."""
    with daemon.connect() as one, daemon.connect() as other:
        clients = [Client(one), Client(other)]
        for client in clients:
            client.send('{"request":{"collect":{"live":[]}}}', "\n")
            client.line()
        for client in clients:
            client.send('{"opened":true}', "\n")
        return [json.loads(client.line())["opened"] for client in clients]


# ---- the socket file

WRITE = b'{"request":{"pool":{"cidr":"10.9.0.0/24","name":"p","size":26}}}\n'


class Listening:
    """A path at which daemons are to listen: `listen` starts one beside who does already, `leave` kills it, and `close` ends
    it. `modeless` starts one that may set no mode. `make` makes a file that is no socket, and `remove` removes it. After
    each step it is told what is there."""

    def __init__(self, program, folder, path):
        self.program, self.folder, self.path, self.daemon, self.count = program, folder, path, None, 0
        self.database = None

    def listen(self):
        self.count += 1
        database = self.folder / f"{self.count}.db"
        if self.daemon is None:
            with contextlib.suppress(ConnectionError, FileNotFoundError):
                self.daemon = Daemon(self.program.path, database, address=str(self.path))
                self.database = database
                return "listens, "
        told = told_run(self.program, ["serve", str(self.path), "1"], b"", {"IPAM_DB": str(database)})
        return "refused, " if told == told_end(9, "listen fault\n") else f"{told}, "

    def modeless(self):
        words = ["timeout", str(PATIENCE), self.program.path, "serve", str(self.path), "1"]
        more = {"env": {**os.environ, "IPAM_DB": str(self.folder / "modeless.db")}, "stderr": subprocess.DEVNULL}
        with open(self.folder / "modeless.out", "w+b") as out:
            status = failing_calls.run(words, failing_calls.Call("chmod", 1, error=errno.EPERM), stdout=out, **more)
        return f"{status}, "

    def leave(self):
        self.daemon.process.kill()
        self.daemon.process.wait()
        self.daemon = None
        return ""

    def close(self):
        """Takes its database away and asks for a write, which ends it."""
        self.database.rename(f"{self.database}.gone")
        with contextlib.suppress(ConnectionError), connected(str(self.path)) as connection:
            connection.sendall(WRITE)
            connection.recv(1)
        self.daemon.process.wait(PATIENCE)
        self.daemon = None
        return ""

    def make(self):
        self.path.write_text("")
        return ""

    def remove(self):
        self.path.unlink()
        return ""


def what_is_at(path):
    """What has the path: of a socket its mode."""
    if not os.path.lexists(path):
        return "nothing"
    mode = path.lstat().st_mode
    return "a file" if stat.S_ISREG(mode) else "a folder" if stat.S_ISDIR(mode) else f"{stat.S_IMODE(mode):o}"


def told_file(program, folder, name, steps):
    path = folder / name
    if name == "folder":
        path.mkdir()
    listening = Listening(program, folder, path)
    try:
        return [getattr(listening, line)() + what_is_at(path) for line in steps if not line.startswith("= ")]
    finally:
        if listening.daemon is not None:
            listening.daemon.stop()


# ---- cases

KINDS = {
    "session": told_sessions, "pages": told_pages, "deaf": told_deaf, "daemon": told_daemon, "serving": told_serving,
    "unreached": told_unreached, "opening": told_opening, "file": told_file, "crowd": told_crowd, "heavy": told_heavy,
    "late": told_late,
}  # fmt: skip


def all_cases():
    """Each case: its title, its kind, the words behind that, and its steps. A case of two places is two."""
    for case in CASES.read_text().rstrip("\n").split("\n\n"):
        title, *steps = case.split("\n")
        kind, _, name = title.partition(":")[0].partition(" ")
        for place in ("tcp", "file") if name.startswith("both") else (None,):
            yield title, kind, name if place is None else name.replace("both", place), steps


def told(program, kind, name, steps):
    """What is told of a case, in a folder of its own."""
    with tempfile.TemporaryDirectory(prefix="ipam-cases-") as folder:
        return KINDS[kind](program, Path(folder), name, steps)


def main():
    if os.access("/dev/shm", os.W_OK):
        tempfile.tempdir = "/dev/shm"
    program = Program(os.path.abspath(sys.argv[1] if len(sys.argv) > 1 else TOP / "release/ipam"))
    cases = list(all_cases())
    with concurrent.futures.ThreadPoolExecutor(AT_ONCE) as pool:
        found = [pool.submit(told, program, kind, name, steps) for _, kind, name, steps in cases]
        for (title, _, name, steps), one in zip(cases, found):
            try:
                program.want(name, title, one.result(), wanted_of(steps))
            except failing_calls.NotThere:
                print(f"{title}: left out, since nobody may answer the calls of another program here")
            except (OSError, ValueError, subprocess.SubprocessError) as fault:
                program.want(name, title, repr(fault), wanted_of(steps))
    print(f"{program.tried - program.wrong} passed, {program.wrong} failed")
    return 1 if program.wrong or not program.tried else 0


if __name__ == "__main__":
    sys.exit(main())
