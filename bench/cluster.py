#!/usr/bin/env python3
"""Times the daemon and the commands over a cluster of many nodes, beside those over an empty one.

    bench/cluster.py PROGRAM [NODES] [PODS OF EACH] [ROWS OF THE LARGEST FILE]

Each node has one block of 64 addresses, of which its pods hold some. Prints how long the daemon takes until it
answers, its memory, what ADD and DEL take over a session and by a process that calls the daemon, and what the
commands take that read all rows. Where a daemon can be asked `get`, ADD and DEL are timed too while a process
asks it, again and again.
"""
import ipaddress
import json
import os
import socket
import statistics
import subprocess
import sys
import tempfile
import threading
import time

from bases import Block, rows_of, so_many_rows, write_file
from measured import Checks, median, ran

CALLS, PROCESSES, PATIENCE = 2_000, 100, 120
NODES_ASKED = 100
UNKNOWN_WORDS = 2
MOST_ROWS = 262_144


class Size:
    """How large the cluster is. A small one is called less often, and only on the nodes that it has."""

    def __init__(self, nodes=5_000, pods=30, most=MOST_ROWS):
        self.nodes, self.pods, self.most = nodes, pods, most
        self.calls, self.processes = min(CALLS, nodes * pods), min(PROCESSES, nodes * pods)

    def node(self, number):
        return f"node-{number % min(NODES_ASKED, self.nodes)}"


def call_line(command, container, node):
    config = {"cniVersion": "1.0.0", "name": "net", "type": "calico", "nodename": node, "ipam": {"type": "calico-ipam"}}
    env = {"CNI_COMMAND": command, "CNI_CONTAINERID": container, "CNI_IFNAME": "eth0", "CNI_NETNS": "/run/netns/x", "CNI_PATH": "/x"}
    return env, json.dumps(config)


class Session:
    """A connection to a daemon at a socket file."""

    def __init__(self, path):
        self.link = socket.socket(socket.AF_UNIX)
        self.link.settimeout(PATIENCE)
        self.link.connect(path)
        self.rest = b""

    def asked(self, line):
        self.link.sendall(json.dumps(line).encode() + b"\n")
        while b"\n" not in self.rest:
            part = self.link.recv(1 << 20)
            if not part:
                sys.exit("the daemon closed a session")
            self.rest += part
        reply, self.rest = self.rest.split(b"\n", 1)
        return json.loads(reply)

    def called(self, command, container, node):
        """The milliseconds, and the address where one is given."""
        env, stdin = call_line(command, container, node)
        start = time.perf_counter()
        reply = self.asked({"env": env, "stdin": stdin})
        took = (time.perf_counter() - start) * 1e3
        if reply["status"]:
            sys.exit(f"{command} of {container}: {reply}")
        return took, json.loads(reply["stdout"])["ips"][0]["address"] if reply["stdout"] else None


class Daemon:
    """A daemon over a file, from its start until it is ended."""

    def __init__(self, program, folder, name):
        self.program, self.name = program, name
        self.file, self.path = f"{folder}/{name}.db", f"{folder}/{name}.sock"
        start = time.perf_counter()
        with open(f"{folder}/{name}.log", "wb") as log:
            self.process = subprocess.Popen(
                [program, "serve", self.path, "16"], stdout=log, stderr=log,
                env={**os.environ, "IPAM_DB": self.file, "MALLOC_ARENA_MAX": "1"})
        self.session = self.first_session()
        self.session.asked({"routes": True})
        self.up = time.perf_counter() - start

    def first_session(self):
        end = time.monotonic() + PATIENCE
        while True:
            try:
                return Session(self.path)
            except OSError:
                if time.monotonic() > end or self.process.poll() is not None:
                    sys.exit(f"{self.name}: nobody listens")
                time.sleep(0.005)

    def memory(self):
        """The resident kibibytes, and the most so far."""
        with open(f"/proc/{self.process.pid}/status") as file:
            lines = dict(line.split(":", 1) for line in file)
        return int(lines["VmRSS"].split()[0]), int(lines["VmHWM"].split()[0])

    def process_call(self, command, container, node):
        """The milliseconds that a process takes that calls the daemon."""
        env, stdin = call_line(command, container, node)
        start = time.perf_counter()
        one = subprocess.run([self.program, "call", self.path], input=stdin.encode(), env={**os.environ, **env}, capture_output=True)
        if one.returncode:
            sys.exit(f"{command}: {one.stdout.decode()}")
        return (time.perf_counter() - start) * 1e3

    def end(self):
        self.session.link.close()
        self.process.terminate()
        self.process.wait()


def tell(what, times):
    ordered = sorted(times)
    print(f"  {what:<46}{statistics.median(ordered):>9.3f}{ordered[len(ordered) * 99 // 100]:>9.3f}{ordered[-1]:>9.3f}", flush=True)


def time_calls(size, daemons, checks, held, beside=""):
    """ADD and DEL by turns on each daemon, so that both meet the same moments of the machine."""
    times = {(one.name, word): [] for one in daemons for word in ("ADD", "DEL")}
    for one in daemons:
        for number in range(NODES_ASKED):
            one.session.called("ADD", f"warm{number}", size.node(number))
            one.session.called("DEL", f"warm{number}", size.node(number))
    for number in range(size.calls):
        node = size.node(number)
        for one in daemons:
            took, address = one.session.called("ADD", f"new{number}", node)
            checks.same(f"{address} was free", one.name == "full" and address in held, False)
            times[one.name, "ADD"].append(took)
            times[one.name, "DEL"].append(one.session.called("DEL", f"new{number}", node)[0])
    for (name, word), taken in times.items():
        tell(f"{word}, {name}{beside}", taken)


def time_processes(size, daemons):
    times = {(one.name, word): [] for one in daemons for word in ("ADD", "DEL")}
    for number in range(size.processes):
        for one in daemons:
            for word in ("ADD", "DEL"):
                times[one.name, word].append(one.process_call(word, f"process{number}", size.node(number)))
    for (name, word), taken in times.items():
        tell(f"{word} by a process, {name}", taken)


def knows(daemon, words):
    """Whether this program can ask a daemon these words."""
    return subprocess.run([daemon.program, "--daemon", daemon.path, *words], capture_output=True).returncode != UNKNOWN_WORDS


def get_again(daemon, checks, stop, times):
    """Runs `get` over the daemon, one process after the other, until it is stopped."""
    while not stop.is_set():
        start = time.perf_counter()
        one = subprocess.run([daemon.program, "--daemon", daemon.path, "get"], stdout=subprocess.DEVNULL)
        times.append(time.perf_counter() - start)
        checks.same(f"get beside calls, {daemon.name}", one.returncode, 0)


def time_beside_get(size, daemons, checks, held):
    """ADD and DEL while an operator runs `get` over the same daemon, again and again."""
    for one in daemons:
        if not knows(one, ["get"]):
            print("  (this program asks no daemon for rows)")
            return
        stop, times = threading.Event(), []
        thread = threading.Thread(target=get_again, args=(one, checks, stop, times), daemon=True)
        thread.start()
        time_calls(size, [one], checks, held, ", beside `get`")
        stop.set()
        thread.join()
        print(f"  `get` ran {len(times)} times beside them, {statistics.median(times):.2f} s each (median)")


def without(path):
    """Takes the file away, and its log."""
    for one in (path, f"{path}-wal"):
        if os.path.exists(one):
            os.remove(one)


def run_words(program, folder, file, words):
    """Runs the words, of which `backup` makes its file anew."""
    without(f"{folder}/copy.db")
    return ran([program, *words], "/dev/null", f"{folder}/out", {**os.environ, "IPAM_DB": file})


def time_words(program, folder, file, what, words):
    one = median([run_words(program, folder, file, words) for _ in range(3)])
    print(f"  {' '.join(word for word in words if word[0] not in '-/'):<18}{what:<20}{one.wall:>9.2f} s {one.processor:>9.2f} s of a processor {one.peak / 1024:>8.0f} MB", flush=True)
    return one.status


def time_asked(daemon, folder):
    """The words that read all rows, asked of the daemon, where this program can be asked them."""
    for words in (["show"], ["get"], ["audit", "4"], ["backup", f"{folder}/copy.db"]):
        if knows(daemon, words):
            time_words(daemon.program, folder, "/nowhere", f"a daemon, {daemon.name}", ["--daemon", daemon.path, *words])


def time_daemons(size, program, folder, checks, held):
    daemons = [Daemon(program, folder, name) for name in ("full", "empty")]
    try:
        for one in daemons:
            print(f"  the daemon, {one.name}: up after {one.up:.2f} s, {one.memory()[0] >> 10} MB, at most {one.memory()[1] >> 10} MB")
        print(f"  {'milliseconds':<46}{'median':>9}{'99th':>9}{'most':>9}")
        time_calls(size, daemons, checks, held)
        time_processes(size, daemons)
        time_beside_get(size, daemons, checks, held)
        for one in daemons:
            time_asked(one, folder)
        for one in daemons:
            print(f"  the daemon, {one.name}: afterwards {one.memory()[0] >> 10} MB, at most {one.memory()[1] >> 10} MB")
    finally:
        for one in daemons:
            one.end()


def time_all_words(size, program, folder, checks):
    copy = ["backup", f"{folder}/copy.db"]
    print(f"  {'over a file':<38}{'by the clock':>11}")
    for words in (["show"], ["show", "blocks"], ["show", "node", "node-7"], ["show", "10.0.0.1"], ["get"], ["audit", "4"], copy):
        for name in ("full", "empty"):
            checks.same(f"{words} over {name}", time_words(program, folder, f"{folder}/{name}.db", name, words), 0)
    write_file(f"{folder}/most.db", so_many_rows(size.most))
    for words in (["show"], copy):
        checks.same(f"{words} over most", time_words(program, folder, f"{folder}/most.db", f"{size.most:,} rows", words), 0)
    checks.same("the rows of the copy", count_rows(program, copy[1]), size.most)
    daemon = Daemon(program, folder, "most")
    time_asked(daemon, folder)
    daemon.end()


def count_rows(program, file):
    told = subprocess.run([program, "get"], env={**os.environ, "IPAM_DB": file}, capture_output=True, check=True).stdout
    return told.count(b"\n")


def addresses(block):
    """Those that the block's pods hold, as an ADD writes them."""
    base = ipaddress.ip_network(block.cidr).network_address
    return {f"{base + ordinal}/32" for ordinal in range(block.held)}


def main():
    program, size, checks = sys.argv[1], Size(*map(int, sys.argv[2:])), Checks()
    with tempfile.TemporaryDirectory(dir=os.environ.get("BENCH_FOLDER")) as folder:
        blocks = [Block(number, 26, f"node-{number}", size.pods, size.pods) for number in range(size.nodes)]
        rows = rows_of(blocks)
        write_file(f"{folder}/full.db", rows)
        write_file(f"{folder}/empty.db", rows_of([]))
        print(f"{size.nodes} nodes, {size.nodes * size.pods} pods, {len(rows)} rows, {os.path.getsize(f'{folder}/full.db') >> 20} MB")
        time_daemons(size, program, folder, checks, set().union(*map(addresses, blocks)))
        checks.same("no row is left over", count_rows(program, f"{folder}/full.db"), len(rows))
        time_all_words(size, program, folder, checks)
    checks.end()


main()
