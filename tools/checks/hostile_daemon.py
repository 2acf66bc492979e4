#!/usr/bin/env python3
"""Does to a built program what its surroundings may do to it, and prints what it saw.

  tools/checks/hostile_daemon.py [--quick] [--plugin PATH] PROGRAM [COUNT]

PROGRAM is the built program, and COUNT how many calls are killed in each part that kills calls (1,000). PATH is the
plugin as `install` makes it, without a daemon, and its database has a pool: 32 calls of it are made at once. Each line
says what was tried and what was seen, and ends with `ok` or `FAILED`, with `not supported` where the program has no
such thing, or with `not promised over TCP`, where a count is told that nothing bounds. The last line is `N passed, M
failed`, and the status is 1 where one failed. It needs Python alone, and some minutes; what waits for a limit waits
for as long as the program does (`--quick` leaves those out).
"""

import argparse
import concurrent.futures
import fcntl
import json
import os
import random
import re
import resource
import selectors
import shutil
import signal
import socket
import stat
import subprocess
import sys
import tempfile
import threading
import time

sys.path.insert(0, os.path.join(os.path.dirname(os.path.abspath(__file__)), "..", "..", "bench"))
from kill_client import line_of, owners  # noqa: E402

PATIENCE = 30
FIRST_LINE = 10        # seconds that the daemon waits for a first line, and for the rest of a line
REPLY = 30             # seconds that a call waits for its reply
AT_ONCE = 3            # seconds in which a daemon ends whose database is gone, and in which it looks at its socket file
MB = 1 << 20
STACK = 256 * MB       # bytes of the stack of a thread, where only so many find room
MOST_PEAK = 600        # MB of memory at the peak of sixteen long lines
MOST_AFTER = 60        # MB that stay
FRESH = 2              # seconds in which a call is answered, however many connections are kept
TURN = 20              # seconds in which each of many connections that are kept is answered
FILES = 1024           # files that a process may have open where nothing else is set
POOL = {"kind": "IPPool", "metadata": {"name": "pods"}, "spec": {"cidr": "10.0.0.0/16"}}


class Seen:
    """What was seen, and how often it was right."""

    def __init__(self):
        self.passed, self.failed = 0, 0

    def say(self, what, seen, is_right):
        self.passed, self.failed = self.passed + bool(is_right), self.failed + (not is_right)
        print(f"{what}: {seen}: {'ok' if is_right else 'FAILED'}", flush=True)

    def say_promised(self, what, seen, is_right, over_tcp):
        """The same of what is promised at a socket file alone. Over TCP it is neither right nor wrong."""
        if over_tcp:
            print(f"{what}: {seen}: not promised over TCP", flush=True)
        else:
            self.say(what, seen, is_right)

    @staticmethod
    def lacks(what):
        print(f"{what}: not supported", flush=True)


class Daemon:
    """A daemon of the program in a folder of its own, at a socket file or a port of the loopback."""

    def __init__(self, program, workers=4, over_tcp=False, folder=None, env=None):
        self.program, self.workers = program, workers
        self.folder = folder or tempfile.mkdtemp(prefix="ipam-hostile-")
        self.env = {**os.environ, "IPAM_DB": os.path.join(self.folder, "ipam.db"), **(env or {})}
        self.address = f"127.0.0.1:{free_port()}" if over_tcp else os.path.join(self.folder, "s")
        self.log, self.process = os.path.join(self.folder, "log"), None

    def apply(self):
        subprocess.run([self.program, "apply"], env=self.env, input=json.dumps(POOL), text=True, check=True,
                       stdout=subprocess.DEVNULL)
        return self

    def start(self, errors=None, before=None):
        """Starts it. `errors` is where its standard error goes, and `before` is called in its process before it."""
        with open(self.log, "ab") as log:
            words = [self.program, "serve", self.address, str(self.workers)]
            self.process = subprocess.Popen(words, env=self.env, stdout=log, stderr=log if errors is None else errors,
                                            preexec_fn=before)
        end = time.monotonic() + PATIENCE
        while time.monotonic() < end:
            try:
                self.connect().close()
                return self
            except OSError:
                if self.process.poll() is not None:
                    return None
                time.sleep(0.01)
        return None

    def connect(self):
        if self.address.startswith("/"):
            made = socket.socket(socket.AF_UNIX, socket.SOCK_STREAM)
            made.settimeout(PATIENCE)
            made.connect(self.address)
            return made
        host, port = self.address.rsplit(":", 1)
        made = socket.create_connection((host, int(port)), timeout=PATIENCE)
        made.setsockopt(socket.IPPROTO_TCP, socket.TCP_NODELAY, 1)
        return made

    def call(self, command, container, **more):
        """A plugin's call that is begun."""
        env = {**self.env, "CNI_COMMAND": command, "CNI_CONTAINERID": container, "CNI_IFNAME": "eth0",
               "CNI_NETNS": "/run/netns/x", **more}
        return subprocess.Popen([self.program, "call", self.address], env=env, stdin=subprocess.PIPE,
                                stdout=subprocess.PIPE, stderr=subprocess.DEVNULL)

    def ended(self):
        """Stops it, and gives its status."""
        if self.process is not None and self.process.poll() is None:
            self.process.kill()
        return self.process.wait() if self.process is not None else None

    def held(self):
        """The container of each address, by the rows, once it is stopped."""
        self.ended()
        return owners(self.program, self.env)

    def logged(self):
        with open(self.log, encoding="utf-8", errors="replace") as log:
            return log.read()

    def end_of(self, within):
        """The status with which it ends by itself within so many seconds, and after how many. None where it doesn't."""
        begin = time.monotonic()
        try:
            self.process.wait(within)
        except subprocess.TimeoutExpired:
            pass
        return self.process.poll(), time.monotonic() - begin

    def seconds(self):
        """The seconds of processor time that it took."""
        with open(f"/proc/{self.process.pid}/stat", encoding="ascii") as stat_file:
            fields = stat_file.read().rsplit(")", 1)[1].split()
        return (int(fields[11]) + int(fields[12])) / os.sysconf("SC_CLK_TCK")

    def limit(self, what, soft=None):
        """Gives the process this limit, or none of its own."""
        hard = resource.prlimit(self.process.pid, what)[1]
        resource.prlimit(self.process.pid, what, (hard if soft is None else soft, hard))

    def memory(self, field):
        with open(f"/proc/{self.process.pid}/status", encoding="ascii") as lines:
            for line in lines:
                if line.startswith(field + ":"):
                    return int(line.split()[1]) // 1024
        return 0


def free_port():
    with socket.socket() as made:
        made.bind(("127.0.0.1", 0))
        return made.getsockname()[1]


def reply(connection, line):
    """The reply to a line. None where the connection ends before."""
    try:
        connection.sendall(line)
        got = b""
        while not got.endswith(b"\n"):
            part = connection.recv(1 << 16)
            if not part:
                return None
            got += part
        return json.loads(got)
    except OSError:
        return None


def stdin_of(node="node-0"):
    text = {"cniVersion": "1.0.0", "name": "net", "type": "calico", "nodename": node, "ipam": {"type": "calico-ipam"}}
    return json.dumps(text).encode()


def statuses_of(calls):
    """The statuses of calls that all have their standard input before the first of them is waited for."""
    for call in calls:
        call.stdin.write(stdin_of())
        call.stdin.close()
    for call in calls:
        call.stdout.read()
    return [call.wait() for call in calls]


def added(daemon, container, node="node-0"):
    """Whether an ADD over a connection of its own is answered."""
    with daemon.connect() as connection:
        told = reply(connection, line_of("ADD", container, node))
    return told is not None and told.get("status") == 0


# ---- a socket file

def has_files(program):
    """Whether the program serves at a socket file."""
    daemon = Daemon(program).apply()
    is_there = daemon.start() is not None
    daemon.ended()
    return is_there


def socket_file(seen, program):
    daemon = Daemon(program).apply().start()
    mode = stat.S_IMODE(os.stat(daemon.address).st_mode)
    seen.say("the mode of the socket file", oct(mode), mode == 0o660)
    seen.say("an ADD over it", "answered", added(daemon, "one"))
    other = Daemon(program, folder=tempfile.mkdtemp(prefix="ipam-hostile-")).apply()
    other.address = daemon.address
    out = subprocess.run([program, "serve", daemon.address, "1"], env=other.env, stdout=subprocess.PIPE, timeout=PATIENCE)
    seen.say("a second daemon at it", out.stdout.decode().strip(), out.returncode == 9)
    seen.say("the first one after that", "answers", added(daemon, "two"))
    daemon.ended()
    is_left = os.path.exists(daemon.address)
    again = daemon.start()
    seen.say("a stale socket file", f"left: {is_left}, replaced: {again is not None}", is_left and again is not None)
    daemon.ended()
    os.remove(daemon.address)
    with open(daemon.address, "wb") as file:
        file.write(b"text")
    out = subprocess.run([program, "serve", daemon.address, "1"], env=daemon.env, stdout=subprocess.PIPE, timeout=PATIENCE)
    with open(daemon.address, "rb") as file:
        is_kept = file.read() == b"text"
    seen.say("a file that is no socket", f"{out.stdout.decode().strip()}, kept: {is_kept}", out.returncode == 9 and is_kept)


# ---- the listener

def few_files(seen, program, over_tcp):
    """The daemon may open no more files for a while: who connects then is served after it."""
    where = "TCP" if over_tcp else "a socket file"
    daemon = Daemon(program, workers=16, over_tcp=over_tcp).apply().start()
    warning, spent, answered, lives = "no connection was accepted for now", daemon.seconds(), 0, 0
    for _ in range(3):
        daemon.limit(resource.RLIMIT_NOFILE, 3)
        waiting = [daemon.connect() for _ in range(8)]
        time.sleep(1)
        lives += daemon.process.poll() is None
        daemon.limit(resource.RLIMIT_NOFILE)
        answered += sum(reply(connection, b"{\"feed\":[]}\n") is not None for connection in waiting)
        for connection in waiting:
            connection.close()
    spent, told = daemon.seconds() - spent, daemon.logged().count(warning)
    seen.say(f"too many open files, three times for a second, {where}",
             f"alive {lives} of 3 times, {answered} of 24 who connected then were answered, told {told} times, "
             f"{spent:.2f} s of a processor", lives == 3 and answered == 24 and 1 <= told <= 3 and spent < 1)
    daemon.ended()


def socket_file_gone(seen, program):
    """The socket file is removed again and again; then once more while the database is gone."""
    daemon = Daemon(program).apply().start()
    made, answered, slowest = 0, 0, 0
    for number in range(5):
        old, begin = os.stat(daemon.address).st_ino, time.monotonic()
        os.remove(daemon.address)
        while not os.path.exists(daemon.address) and time.monotonic() < begin + AT_ONCE:
            time.sleep(0.01)
        slowest = max(slowest, time.monotonic() - begin)
        found = os.stat(daemon.address)
        made += stat.S_IMODE(found.st_mode) == 0o660 and found.st_ino != old
        answered += added(daemon, f"c{number}")
    seen.say("the socket file is removed", f"{made} of 5 times a new one of mode 0660 was there within {slowest:.1f} s, and "
             f"{answered} of 5 calls by it were answered", made == 5 and answered == 5)
    session = held(daemon)
    os.rename(daemon.env["IPAM_DB"], daemon.env["IPAM_DB"] + ".old")
    os.remove(daemon.address)
    told = reply(session, line_of("ADD", "gone", "node-0"))
    status, waited = daemon.end_of(PATIENCE)
    seen.say("the socket file and the database are removed", f"answered: {told is not None}, status {status} after "
             f"{waited:.1f} s, left: {os.path.exists(daemon.address)}", told is None and status == 5 and waited < AT_ONCE)
    daemon.ended()


def socket_file_of_another(seen, program):
    """The socket file of another daemon takes the place of this one's."""
    daemon, other = Daemon(program).apply().start(), Daemon(program).apply().start()
    is_up, was = added(daemon, "one"), os.stat(other.address).st_ino
    os.rename(other.address, daemon.address)
    status, waited = daemon.end_of(PATIENCE)
    is_left = os.path.exists(daemon.address) and os.stat(daemon.address).st_ino == was
    why = [line for line in daemon.logged().splitlines() if line.startswith("ipam:")]
    seen.say("the socket file of another takes its place", f"status {status} after {waited:.1f} s, the other's file is left: "
             f"{is_left}, {why}", is_up and status == 9 and waited < AT_ONCE and is_left and len(why) == 1)
    begin = time.monotonic()
    while not os.path.exists(other.address) and time.monotonic() < begin + AT_ONCE:
        time.sleep(0.01)
    seen.say("the other, at a new file of its own", "answers", added(other, "two"))
    daemon.ended()
    other.ended()


def why_it_ends(seen, program):
    """Each end has one line on standard error that says why, with the address or the file."""
    daemon, taken = Daemon(program).apply().start(), socket.socket()
    taken.bind(("127.0.0.1", 0))
    taken.listen(1)
    folder = tempfile.mkdtemp(prefix="ipam-hostile-")
    with open(os.path.join(folder, "text"), "wb") as file:
        file.write(b"text")
    addresses = {
        "a relative path": "run/s", "a folder that is missing": f"{folder}/none/s", "a file": f"{folder}/text",
        "a folder": folder, "a folder in which nothing can be made": "/proc/s", "a path that is too long": f"{folder}/{'x' * 90}",
        "a live daemon": daemon.address, "a port in use": f"127.0.0.1:{taken.getsockname()[1]}",
        "an address of another machine": "192.0.2.1:7777", "no port": "127.0.0.1", "a port too large": "127.0.0.1:65536",
    }
    right = 0
    for what, address in addresses.items():
        other = Daemon(program)
        out = subprocess.run([program, "serve", address, "1"], env=other.env, capture_output=True, timeout=PATIENCE, text=True)
        lines = out.stderr.splitlines()
        is_right = out.stdout == "listen fault\n" and out.returncode == 9 and len(lines) == 1 and address in lines[0]
        right += is_right
        print(f"    {what}: {out.stderr.strip()}", flush=True)
    seen.say("ends of listening that are told with their address and cause", f"{right} of {len(addresses)}",
             right == len(addresses))
    os.rename(daemon.env["IPAM_DB"], daemon.env["IPAM_DB"] + ".old")
    added(daemon, "gone")
    status, _ = daemon.end_of(PATIENCE)
    why = [line for line in daemon.logged().splitlines() if line.startswith("ipam:")]
    seen.say("a database that is gone", f"status {status}, {why}",
             status == 5 and len(why) == 1 and daemon.env["IPAM_DB"] in why[0])
    taken.close()


# ---- threads, and who reads standard error

def few_threads(seen, program):
    """There is room for the stacks of two threads: the daemon tells it, and nobody is served by who accepts."""
    def before():
        resource.setrlimit(resource.RLIMIT_STACK, (STACK, resource.getrlimit(resource.RLIMIT_STACK)[1]))
        resource.setrlimit(resource.RLIMIT_AS, (16 * MB + 2 * STACK + STACK // 2, resource.RLIM_INFINITY))

    daemon = Daemon(program, workers=8).apply().start(before=before)
    told = [line for line in daemon.logged().splitlines() if "workers" in line]
    silent = [busy(daemon) for _ in range(2)]
    waiting = [daemon.connect() for _ in range(4)]
    for connection in waiting:
        connection.sendall(b"{\"feed\":[]}\n")
    time.sleep(1)
    silent[0].close()
    begin, answered = time.monotonic(), 0
    for connection in waiting:
        answered += bool(connection.recv(1 << 16))
        connection.close()
    seen.say("room for two threads of eight", f"{told}; {answered} of 4 who waited were served within "
             f"{time.monotonic() - begin:.1f} s once one of two sessions ended that held a worker", len(told) == 1 and answered == 4)
    daemon.ended()


def unread_errors(seen, program):
    """Nobody reads standard error, a full pipe. All sessions are served, and what was not written is counted."""
    daemon, (reads, writes) = Daemon(program, workers=4).apply(), os.pipe()
    fcntl.fcntl(writes, 1031, 4096)         # (F_SETPIPE_SZ)
    daemon.start(errors=writes)
    os.close(writes)
    count, answered = 3000, 0
    for _ in range(count):
        with daemon.connect() as connection:
            answered += reply(connection, b"{\"feed\":[]}\n") is not None
    text, until = b"", time.monotonic() + 5
    os.set_blocking(reads, False)
    while time.monotonic() < until and b"lines were dropped" not in text:
        try:
            text += os.read(reads, 1 << 16)
        except BlockingIOError:
            held(daemon).close()
            count += 1
            time.sleep(0.05)
    quiet = time.monotonic() + 1            # (the lines that waited follow)
    while time.monotonic() < quiet:
        try:
            text, quiet = text + os.read(reads, 1 << 16), time.monotonic() + 1
        except BlockingIOError:
            time.sleep(0.05)
    lines, dropped = text.count(b"session closed"), sum(int(n) for n in re.findall(rb"([0-9]+) lines were dropped", text))
    seen.say("nobody reads standard error", f"{answered} of 3000 sessions were answered; {lines} lines and {dropped} that were "
             f"dropped, of {count + 1} sessions", answered == 3000 and dropped > 0 and lines + dropped == count + 1)
    for _ in range(600):                    # (the pipe is full again)
        held(daemon).close()
    os.rename(daemon.env["IPAM_DB"], daemon.env["IPAM_DB"] + ".old")
    added(daemon, "gone")
    status, waited = daemon.end_of(PATIENCE)
    seen.say("the database is gone, and nobody reads standard error", f"status {status} after {waited:.1f} s",
             status == 5 and waited < AT_ONCE)
    daemon.ended()
    os.close(reads)


# ---- calls that are killed

def held(daemon):
    """A session that has its reply and is silent from then on, which the daemon bears for ten minutes."""
    connection = daemon.connect()
    reply(connection, b"{\"feed\":[]}\n")
    return connection


def busy(daemon):
    """A session that holds its worker, since its collection waits."""
    connection = daemon.connect()
    reply(connection, b"{\"request\":{\"collect\":{\"live\":[]}}}\n")
    return connection


def killed_while_busy(seen, program, count, over_tcp):
    """Each worker is held by a session whose collection waits; calls are killed meanwhile; then the workers are let go."""
    where = "TCP" if over_tcp else "a socket file"
    daemon = Daemon(program, workers=2, over_tcp=over_tcp).apply().start()
    silent, killed = [busy(daemon) for _ in range(2)], 0
    for first in range(0, count, 8):
        calls = [daemon.call("ADD", f"c{number}") for number in range(first, min(first + 8, count))]
        for call in calls:
            call.stdin.write(stdin_of())
            call.stdin.close()
        time.sleep(0.05)
        for call in calls:
            killed += call.poll() is None
            call.kill()
            call.wait()
    for connection in silent:
        connection.close()
    is_up = added(daemon, "last")
    kept = [who for who in daemon.held().values() if who != "last"]
    seen.say_promised(f"calls killed before their lines were begun, all workers busy, {where}",
                      f"{len(kept)} of {killed} kept an address", not kept, over_tcp)
    seen.say(f"an ADD after them, {where}", "answered" if is_up else "not answered", is_up)


def killed_before_reading(seen, program, count):
    """With a worker free, a client sends its line and is gone at once: what was not begun is not done."""
    daemon = Daemon(program, workers=1).apply().start()
    holds = 0
    for number in range(count):
        with daemon.connect() as first:
            first.sendall(b"{")
            gone = daemon.connect()
            gone.sendall(line_of("ADD", f"c{number}", "node-0"))
            gone.close()
        holds += 1
    is_up = added(daemon, "last")
    kept = [who for who in daemon.held().values() if who != "last"]
    seen.say("clients gone before their lines were begun, one worker that is let go, a socket file",
             f"{len(kept)} of {holds} kept an address", is_up and not kept)


def killed_at_any_moment(seen, program, count, over_tcp):
    """Calls are killed after a drawn time, a worker being free; then each is followed by a DEL, as a runtime does."""
    where = "TCP" if over_tcp else "a socket file"
    daemon = Daemon(program, workers=8, over_tcp=over_tcp).apply().start()
    draw = random.Random(1)
    begin = time.perf_counter()
    call = daemon.call("ADD", "measure")
    call.communicate(stdin_of())
    whole = time.perf_counter() - begin
    answered, gone = set(), set()

    def one(number):
        made = daemon.call("ADD", f"c{number}")
        made.stdin.write(stdin_of())
        made.stdin.close()
        time.sleep(draw.uniform(0, whole))
        made.kill()
        out = made.stdout.read()
        made.wait()
        if made.returncode == 0 and out:
            answered.add(f"c{number}")
            return
        with daemon.connect() as connection:
            told = reply(connection, line_of("DEL", f"c{number}", "node-0"))
        if told is not None and told.get("status") == 0:
            gone.add(f"c{number}")

    with concurrent.futures.ThreadPoolExecutor(4) as pool:
        list(pool.map(one, range(count)))
    time.sleep(0.5)
    is_up = added(daemon, "last")
    kept = [who for who in daemon.held().values() if who in gone]
    seen.say_promised(f"calls killed at any moment, each followed by its DEL, {where}",
                      f"{len(kept)} of {len(gone)} kept an address, {len(answered)} were answered before",
                      len(kept) * 1000 <= max(count, 1000), over_tcp)
    seen.say(f"an ADD after them, {where}", "answered" if is_up else "not answered", is_up)


# ---- silent, slow and deaf clients

def is_closed(connection, within):
    """Whether the peer closes within so many seconds."""
    connection.settimeout(within)
    try:
        while connection.recv(1 << 16):
            pass
        return True
    except (socket.timeout, TimeoutError):
        return False
    except OSError:
        return True


def silent_clients(seen, program, over_tcp):
    where = "TCP" if over_tcp else "a socket file"
    daemon = Daemon(program, workers=4, over_tcp=over_tcp).apply().start()
    silent = [daemon.connect() for _ in range(4)]
    silent[1].sendall(b"{\"request\":")
    trickle, ends = silent[2], threading.Event()

    def send_slowly():
        while not ends.wait(1):
            try:
                trickle.sendall(b" ")
            except OSError:
                return

    slow = threading.Thread(target=send_slowly, daemon=True)
    slow.start()
    begin = time.monotonic()
    is_served = added(daemon, "c1")
    waited = time.monotonic() - begin
    closed = sum(is_closed(connection, FIRST_LINE + 5) for connection in silent)
    took = time.monotonic() - begin
    ends.set()
    seen.say(f"four silent and slow clients at four workers, {where}",
             f"{closed} closed within {took:.1f} s, another is served after {waited:.1f} s",
             is_served and closed == 4 and waited < FRESH and took < FIRST_LINE + 5)
    daemon.ended()


def deaf_client(seen, program):
    daemon = Daemon(program, workers=1).apply().start()
    deaf = daemon.connect()
    deaf.settimeout(60)
    lines = b"{\"feed\":[]}\n" * 100_000

    def send():
        try:
            deaf.sendall(lines)
        except OSError:
            pass

    threading.Thread(target=send, daemon=True).start()
    time.sleep(1)
    begin = time.monotonic()
    is_served = added(daemon, "c1")
    seen.say("a client that never reads its replies, at one worker",
             f"another is served after {time.monotonic() - begin:.1f} s", is_served)
    deaf.close()
    daemon.ended()


def listener_that_never_replies(seen, program):
    folder = tempfile.mkdtemp(prefix="ipam-hostile-")
    for address, made in ((os.path.join(folder, "s"), socket.socket(socket.AF_UNIX)), (None, socket.socket())):
        made.bind(address or ("127.0.0.1", 0))
        made.listen(8)
        daemon = Daemon(program)
        daemon.address = address or f"127.0.0.1:{made.getsockname()[1]}"
        begin = time.monotonic()
        call = daemon.call("ADD", "c1")
        try:
            out, _ = call.communicate(stdin_of(), timeout=REPLY + 15)
            told = json.loads(out)
        except (subprocess.TimeoutExpired, ValueError):
            call.kill()
            told = {}
        waited = time.monotonic() - begin
        seen.say(f"a listener that never replies, {'a socket file' if address else 'TCP'}",
                 f"code {told.get('code')} ({told.get('details')}) after {waited:.1f} s",
                 told.get("code") == 111 and told.get("details") == "link" and waited < REPLY + 5)
        made.close()


# ---- a web page

def web_page(seen, program):
    daemon = Daemon(program, over_tcp=True).apply().start()
    body = line_of("ADD", "web", "node-0")
    heads = {
        "a POST": b"POST / HTTP/1.1\r\nHost: localhost\r\nContent-Type: text/plain\r\n\r\n",
        "a GET": b"GET /?x HTTP/1.1\r\n\r\n",
        "a TLS hello": b"\x16\x03\x01\x02\x00\x01\x00\x01\xfc\x03\x03",
    }
    for name, head in heads.items():
        with daemon.connect() as connection:
            try:
                connection.sendall(head + body)
            except OSError:
                pass
            is_shut = is_closed(connection, 5)
        seen.say(f"{name} with a session's line as its body, TCP", f"closed: {is_shut}", is_shut)
    is_up = added(daemon, "one")
    # (a thread of its own writes these lines)
    for _ in range(50):
        with open(daemon.log, "rb") as log:
            logged = log.read().count(b"did not begin as a session does")
        if logged >= len(heads):
            break
        time.sleep(0.1)
    kept = list(daemon.held().values())
    seen.say("what they left", f"{kept}, logged {logged} times", is_up and kept == ["one"] and logged == len(heads))


# ---- restarts, and files that are gone

def opened(daemon):
    with daemon.connect() as connection:
        told = reply(connection, b"{\"opened\":true}\n")
    return (told or {}).get("opened")


def restarts(seen, program, over_tcp):
    daemon = Daemon(program, over_tcp=over_tcp).apply().start()
    first = opened(daemon)
    if first is None:
        daemon.ended()
        seen.lacks("which opening this is, by {\"opened\":true}")
        return
    same = opened(daemon)
    daemon.ended()
    daemon.start()
    second = opened(daemon)
    seen.say("which opening this is", f"{first}, {same}, and after a restart {second}", first == same != second)
    daemon.ended()


def removed(path):
    os.remove(path)


def renamed(path):
    os.rename(path, path + ".old")


def replaced(path):
    os.rename(path, path + ".old")
    with open(path, "wb"):
        pass


def gone_file(seen, program, where, name, how):
    """A file of the database is gone: the next call is not answered, and ends the daemon at once, though a client is
    silent and no other comes."""
    what = f"ipam.db{name} {how.__name__} under the daemon at {where}"
    daemon = Daemon(program, over_tcp=where != "a socket file").apply()
    if where == "all interfaces":
        daemon.address = daemon.address.replace("127.0.0.1", "0.0.0.0")
    daemon.start()
    silent, is_up = held(daemon), added(daemon, "before")
    path = daemon.env["IPAM_DB"] + name
    if not os.path.exists(path):
        daemon.ended()
        seen.lacks(f"{what}: there is no such file")
        return
    how(path)
    is_answered = added(daemon, "after")
    begin = time.monotonic()
    try:
        daemon.process.wait(PATIENCE)
    except subprocess.TimeoutExpired:
        pass
    waited, status = time.monotonic() - begin, daemon.process.poll()
    daemon.ended()
    silent.close()
    with open(daemon.log, "rb") as log:
        is_told = b"keeper fault\n" in log.read()
    seen.say(what, f"the call after it answered: {is_answered}, status {status} after {waited:.1f} s",
             is_up and not is_answered and is_told and status == 5 and waited < AT_ONCE)


def gone_files(seen, program, places):
    for where in places:
        for name in ("", "-wal"):
            for how in (removed, renamed, replaced):
                gone_file(seen, program, where, name, how)


def strange_files(seen, program):
    import sqlite3
    daemon = Daemon(program).apply()
    path = daemon.env["IPAM_DB"]
    os.link(path, path + ".link")
    out = subprocess.run([program, "get"], env=daemon.env, stdout=subprocess.PIPE)
    seen.say("a hard link beside the database", f"status {out.returncode}, {out.stdout.decode().splitlines()[-1:]}",
             out.returncode != 0)
    daemon = Daemon(program)
    with sqlite3.connect(daemon.env["IPAM_DB"]) as rows:
        rows.execute("CREATE TABLE rows (key TEXT PRIMARY KEY, revision TEXT NOT NULL, body TEXT NOT NULL)")
    rows.close()
    out = subprocess.run([program, "apply"], env=daemon.env, input=json.dumps(POOL).encode(), stdout=subprocess.PIPE)
    seen.say("a table `rows` whose revisions are texts", f"status {out.returncode}", out.returncode != 0)
    daemon = Daemon(program).apply()
    lone = Daemon(program)
    for end in ("", "-wal"):
        shutil.copyfile(daemon.env["IPAM_DB"] + end, lone.env["IPAM_DB"] + end)
    out = subprocess.run([program, "get"], env=lone.env, stdout=subprocess.PIPE)
    seen.say("the file copied with its log, after an apply", f"{out.stdout.decode().count('pools ')} rows of pools",
             out.returncode == 0 and b"pools " in out.stdout)


def modes(seen, program):
    old = os.umask(0)
    try:
        daemon = Daemon(program).apply()
    finally:
        os.umask(old)
    found = {name: oct(stat.S_IMODE(os.stat(os.path.join(daemon.folder, name)).st_mode))
             for name in os.listdir(daemon.folder) if name.startswith("ipam.db")}
    seen.say("the modes of the database's files, made with no umask", found,
             all(int(mode, 8) & 0o7 == 0 for mode in found.values()))


# ---- environments

def environments(seen, program, over_tcp):
    daemon = Daemon(program, over_tcp=over_tcp).apply().start()
    call = daemon.call("ADD", "c1", CNI_IFNAME=os.fsdecode(b"eth\xff0"))
    out, _ = call.communicate(stdin_of(), timeout=REPLY + 15)
    told = json.loads(out or b"{}")
    seen.say("an interface name that is no UTF-8", f"status {call.returncode}, code {told.get('code')}",
             call.returncode == 1 and told.get("code") == 4)
    script = ("import ctypes,os,sys\n"
              "pairs = [b'CNI_COMMAND=DEL', b'CNI_COMMAND=ADD', b'CNI_CONTAINERID=c2', b'CNI_IFNAME=eth0', b'CNI_NETNS=/x',\n"
              "         b'IPAM_DB=' + os.environb[b'IPAM_DB']]\n"
              "words = [w.encode() for w in sys.argv[1:]]\n"
              "array = lambda xs: (ctypes.c_char_p * (len(xs) + 1))(*xs, None)\n"
              "ctypes.CDLL(None).execve(words[0], array(words), array(pairs))\n")
    out = subprocess.run([sys.executable, "-c", script, os.path.abspath(program), "call", daemon.address], env=daemon.env,
                         input=stdin_of(), stdout=subprocess.PIPE, timeout=REPLY + 15)
    seen.say("of two pairs of one name the last counts", f"status {out.returncode}, {out.stdout[:60]!r}", b"ips" in out.stdout)
    daemon.ended()


# ---- many connections that are kept

class Client:
    """A connection that is kept and asks line after line, and how long its replies took."""

    def __init__(self, connection, number):
        self.connection, self.number, self.lines = connection, number, 0
        self.sent, self.got, self.slowest, self.is_cut = time.monotonic(), b"", 0.0, False

    def ask(self):
        command = "DEL" if self.lines % 2 else "ADD"
        self.sent, self.got = time.monotonic(), b""
        self.connection.sendall(line_of(command, f"kept-{self.number}", f"node-{self.number % 8}"))

    def take(self):
        """Takes what came, and asks again once it is a whole reply. False where the connection is cut."""
        try:
            part = self.connection.recv(1 << 16)
            self.got += part
            if self.got.endswith(b"\n"):
                self.lines, self.slowest = self.lines + 1, max(self.slowest, time.monotonic() - self.sent)
                self.ask()
        except OSError:
            part = b""
        self.is_cut = not part
        return not self.is_cut


class Kept(threading.Thread):
    """So many connections, all of which ask without a pause until it is ended."""

    def __init__(self, daemon, count):
        super().__init__(daemon=True)
        self.clients = [Client(daemon.connect(), number) for number in range(count)]
        self.is_over = threading.Event()

    def run(self):
        with selectors.DefaultSelector() as waits:
            for client in self.clients:
                waits.register(client.connection, selectors.EVENT_READ, client)
                client.ask()
            while not self.is_over.is_set():
                for found, _ in waits.select(0.1):
                    if not found.data.take():
                        waits.unregister(found.data.connection)

    def told(self):
        """Ends it, and tells the fewest replies of a connection, the slowest reply, and how many were cut."""
        self.is_over.set()
        self.join()
        now = time.monotonic()
        slowest = max(max(client.slowest, now - client.sent) for client in self.clients)
        return min(client.lines for client in self.clients), slowest, sum(client.is_cut for client in self.clients)


class Silent(threading.Thread):
    """So many connections that say nothing. One that is closed is made again, but for a second after the last try."""

    def __init__(self, daemon, count):
        super().__init__(daemon=True)
        self.target, self.count, self.open, self.closed = daemon, count, set(), 0
        self.is_over = threading.Event()

    def run(self):
        while not self.is_over.wait(1):
            for connection in [one for one in self.open if self.is_shut(one)]:
                self.open.discard(connection)
                connection.close()
                self.closed += 1
            while len(self.open) < self.count:
                try:
                    self.open.add(self.target.connect())
                except OSError:
                    break

    @staticmethod
    def is_shut(connection):
        connection.setblocking(False)
        try:
            return not connection.recv(1)
        except BlockingIOError:
            return False
        except OSError:
            return True


def usual_files():
    """The process may have as many files open as one may where nothing else is set."""
    resource.setrlimit(resource.RLIMIT_NOFILE, (FILES, resource.getrlimit(resource.RLIMIT_NOFILE)[1]))


def fresh_calls(daemon, seconds):
    """How long each of some calls took that are made one after the other for so many seconds, and how many failed."""
    taken, failed, until = [], 0, time.monotonic() + seconds
    while time.monotonic() < until:
        begin = time.monotonic()
        call = daemon.call("ADD", f"fresh-{len(taken)}")
        call.communicate(stdin_of())
        failed += call.returncode != 0
        taken.append(time.monotonic() - begin)
        time.sleep(0.2)
    return taken, failed


def many_connections(seen, program, over_tcp, workers, count, silent):
    """Many connections that are kept and busy, beside many that say nothing, and calls that come meanwhile."""
    where = "TCP" if over_tcp else "a socket file"
    daemon = Daemon(program, workers=workers, over_tcp=over_tcp).apply().start(before=usual_files)
    quiet = Silent(daemon, silent)
    quiet.start()
    if silent:
        time.sleep(3)
    kept = Kept(daemon, count)
    kept.start()
    taken, failed = fresh_calls(daemon, TURN / 2)
    fewest, slowest, cut = kept.told()
    quiet.is_over.set()
    quiet.join()
    seen.say(f"{count} busy connections at {workers} workers beside {silent} silent ones, {where}",
             f"{len(taken)} calls, of which {failed} failed, took {max(taken):.2f} s at most; of each connection {fewest} replies "
             f"or more, of which one took {slowest:.2f} s at most; {cut} were cut; {quiet.closed} silent ones were closed",
             failed == 0 and max(taken) < FRESH and fewest > 0 and slowest < TURN and cut == 0)
    daemon.ended()


def idle_connections(seen, program, over_tcp, count):
    """Many connections that had a reply each hold no worker, and have the next one too."""
    where = "TCP" if over_tcp else "a socket file"
    daemon = Daemon(program, workers=2, over_tcp=over_tcp).apply().start(before=usual_files)
    kept, begin = [held(daemon) for _ in range(count)], time.monotonic()
    is_up = added(daemon, "one")
    waited = time.monotonic() - begin
    time.sleep(1)
    spent = daemon.seconds()
    time.sleep(1)
    spent = daemon.seconds() - spent
    answered = sum(reply(connection, b"{\"opened\":true}\n") is not None for connection in kept)
    seen.say(f"{count} connections that are idle after a reply, at two workers, {where}",
             f"another is served after {waited:.2f} s, {spent:.2f} s of a processor in a second; {answered} have a second reply",
             is_up and waited < FRESH and answered == count and spent < 0.1)
    for connection in kept:
        connection.close()
    daemon.ended()


# ---- many at once, and memory

def many_at_once(seen, program, over_tcp):
    daemon = Daemon(program, workers=8, over_tcp=over_tcp).apply().start()
    calls = [daemon.call("ADD", f"c{number}") for number in range(32)]
    done = statuses_of(calls).count(0)
    seen.say("32 calls of the daemon at once", f"{done} of 32 have an address", done == 32)
    daemon.ended()


def many_plugins(seen, plugin):
    if plugin is None:
        seen.lacks("32 calls of the plugin at once (see --plugin)")
        return
    env = {**os.environ, "CNI_COMMAND": "ADD", "CNI_IFNAME": "eth0", "CNI_NETNS": "/x"}
    calls = [subprocess.Popen([plugin], env={**env, "CNI_CONTAINERID": f"hostile-{number}"}, stdin=subprocess.PIPE,
                              stdout=subprocess.PIPE, stderr=subprocess.DEVNULL) for number in range(32)]
    done = statuses_of(calls).count(0)
    for number in range(32):
        gone = subprocess.Popen([plugin], env={**env, "CNI_COMMAND": "DEL", "CNI_CONTAINERID": f"hostile-{number}"},
                                stdin=subprocess.PIPE, stdout=subprocess.DEVNULL, stderr=subprocess.DEVNULL)
        gone.communicate(stdin_of())
    load = os.getloadavg()[0]
    seen.say("32 calls of the plugin at once", f"{done} of 32 have an address, at a load of {load:.0f}", done == 32)


def memory(seen, program, over_tcp):
    env = {"MALLOC_ARENA_MAX": "1", "MALLOC_TRIM_THRESHOLD_": "1048576"}
    line = b"{\"x\":[" + b",".join([b"{\"a\":1}"] * 131_000) + b"]}\n"
    for name, more in (("as it is", {}), ("with one heap, as the unit has it", env)):
        daemon = Daemon(program, workers=16, over_tcp=over_tcp, env=more).apply().start()
        connections = [daemon.connect() for _ in range(16)]
        with concurrent.futures.ThreadPoolExecutor(16) as pool:
            replies = list(pool.map(lambda connection: reply(connection, line), connections))
        for connection in connections:
            connection.close()
        time.sleep(1)
        peak, after = daemon.memory("VmHWM"), daemon.memory("VmRSS")
        is_right = all(told is not None for told in replies)
        if more:
            is_right = is_right and peak <= MOST_PEAK and after <= MOST_AFTER
        seen.say(f"sixteen lines of {len(line)} bytes of small objects at once, {name}",
                 f"{peak} MB at the peak, {after} MB after", is_right)
        daemon.ended()


def main():
    words = argparse.ArgumentParser(description=__doc__, formatter_class=argparse.RawDescriptionHelpFormatter)
    words.add_argument("--quick", action="store_true", help="leave out what waits for a limit")
    words.add_argument("--plugin", help="the installed plugin, without a daemon")
    words.add_argument("program")
    words.add_argument("count", nargs="?", type=int, default=1000)
    words = words.parse_args()
    program, count, seen = os.path.abspath(words.program), words.count, Seen()
    signal.signal(signal.SIGPIPE, signal.SIG_IGN)
    most = resource.getrlimit(resource.RLIMIT_NOFILE)[1]
    resource.setrlimit(resource.RLIMIT_NOFILE, (min(most, 8 * FILES), most))
    with_files = has_files(program)
    over_tcp = not with_files
    parts = []
    if with_files:
        parts += [(socket_file, program), (socket_file_gone, program), (socket_file_of_another, program),
                  (why_it_ends, program), (few_threads, program), (unread_errors, program), (few_files, program, False),
                  (killed_before_reading, program, count),
                  (killed_while_busy, program, count, False), (killed_at_any_moment, program, count, False)]
    else:
        seen.lacks("a socket file")
    parts += [(few_files, program, True), (killed_while_busy, program, min(count, 100), True),
              (killed_at_any_moment, program, min(count, 100), True),
              (web_page, program)]
    busy_ones, silent_ones, idle_ones, workers = (64, 200, 100, 4) if words.quick else (256, 1000, 400, 16)
    parts += [(many_connections, program, True, workers, busy_ones, silent_ones), (idle_connections, program, True, idle_ones)]
    if with_files:
        parts += [(many_connections, program, False, workers, busy_ones, 0), (idle_connections, program, False, idle_ones)]
    if not words.quick:
        parts += [(silent_clients, program, True)]
        parts += [(silent_clients, program, False), (deaf_client, program)] if with_files else []
        parts += [(listener_that_never_replies, program)]
    places = (["a socket file"] if with_files else []) + ["the loopback", "all interfaces"]
    parts += [(restarts, program, over_tcp), (gone_files, program, places), (strange_files, program), (modes, program),
              (environments, program, over_tcp), (many_at_once, program, over_tcp), (many_plugins, words.plugin),
              (memory, program, over_tcp)]
    for part, *given in parts:
        try:
            part(seen, *given)
        except (OSError, AttributeError, subprocess.SubprocessError, ValueError, KeyError) as failed:
            seen.say(part.__name__, f"it broke off: {failed!r}", False)
    print(f"{seen.passed} passed, {seen.failed} failed")
    sys.exit(1 if seen.failed else 0)


if __name__ == "__main__":
    main()
