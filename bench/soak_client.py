#!/usr/bin/env python3
"""Loads a daemon with sixteen clients for some minutes, and compares its file with the replies that they got.

The words are the program, a folder for the file, how many minutes, the port and a seed. Each client has a
network of its own, so that what it collects is its own; they share the nodes and their blocks.
"""

import json
import os
import random
import shutil
import socket
import subprocess
import sys
import threading
import time

from soak_rows import Rows, read

CLIENTS, NODES, MOST_HELD = 16, 4, 40
PATIENCE = 60
STOPS = 6
AGAIN = 11

# how many calls a fresh daemon is given, and how many kibibytes more than it the loaded one may have: what
# its heap keeps of the moment at which most of it was in use
FRESH_CALLS, SLACK = 1000, 4096

# the C library has one heap for all threads: in heaps of their own, what one thread gives back another does
# not use, and more and more memory is resident though no more is in use
ONE_HEAP = {"MALLOC_ARENA_MAX": "1"}


def config(network, node, **members):
    whole = {"cniVersion": "1.1.0", "name": network, "type": "calico", "nodename": node, "ipam": {"type": "calico-ipam"}}
    return json.dumps({**whole, **members})


def call(command, container, stdin):
    env = {"CNI_COMMAND": command, "CNI_CONTAINERID": container, "CNI_IFNAME": "eth0", "CNI_NETNS": "/run/netns/x"}
    return {"env": env, "stdin": stdin}


class Cut(Exception):
    """The daemon went away."""


class Told:
    """What the clients were told, of all containers: a container is a network, a dot and an id."""

    def __init__(self):
        self.lock = threading.Lock()
        self.held = {}        # container: its address, from the answer of its ADD until its end is asked for
        self.unsure = set()   # containers that may have an address or not
        self.lost = set()     # containers of which a request was told to try again: their counts may stay too high
        self.count = {}
        self.wrong = []

    def counts(self, what):
        with self.lock:
            self.count[what] = self.count.get(what, 0) + 1

    def is_wrong(self, text):
        with self.lock:
            self.wrong.append(text)

    def added(self, container, address):
        with self.lock:
            self.unsure.discard(container)
            for other, its in self.held.items():
                if its == address:
                    self.wrong.append(f"{address} was given to {container} while {other} has it")
            self.held[container] = address

    def doubted(self, container):
        with self.lock:
            self.held.pop(container, None)
            self.unsure.add(container)

    def gone(self, container):
        with self.lock:
            self.unsure.discard(container)

    def again(self, containers):
        with self.lock:
            self.lost.update(containers)


class Client(threading.Thread):
    """One connection at a time, with one call under way."""

    def __init__(self, network, port, told, runs, ends, seed):
        super().__init__(daemon=True)
        self.network, self.port, self.told, self.runs, self.ends = network, port, told, runs, ends
        self.draw = random.Random(seed)
        self.link, self.node_of, self.unsure, self.next, self.sessions = None, {}, [], 0, 0
        self.idle = threading.Event()

    # ---- the connection

    def connect(self):
        self.link = socket.create_connection(("127.0.0.1", self.port), timeout=PATIENCE)
        self.link.setsockopt(socket.IPPROTO_TCP, socket.TCP_NODELAY, 1)
        self.sessions += 1

    def send(self, line):
        if self.link is None:
            self.connect()
        self.link.sendall(json.dumps(line).encode() + b"\n")

    def asked(self, line):
        """The reply of a line."""
        self.send(line)
        reply = b""
        while not reply.endswith(b"\n"):
            part = self.link.recv(65536)
            if not part:
                raise Cut
            reply += part
        return json.loads(reply)

    def leave(self):
        if self.link is not None:
            self.link.close()
        self.link = None

    # ---- calls

    def called(self, command, container, stdin, may=()):
        """The bytes of a call's answer, or None where it is told to try again."""
        reply = self.asked(call(command, container, stdin))
        told = json.loads(reply["stdout"]) if reply["stdout"] else {}
        if reply["status"] == 0 or told["code"] in may:
            self.told.counts(command)
            return told
        if told["code"] != AGAIN:
            self.told.is_wrong(f"{command} of {container} was told {told}")
        self.told.counts("again")
        return None

    def handle(self, container):
        return f"{self.network}.{container}"

    def some(self):
        return self.draw.choice(list(self.node_of))

    def add(self):
        container, node = f"c{self.next}", f"node-{self.draw.randrange(NODES)}"
        self.next += 1
        self.told.doubted(self.handle(container))
        told = self.called("ADD", container, config(self.network, node))
        if told is None:
            self.told.again([self.handle(container)])
            self.unsure.append(container)
        else:
            self.told.added(self.handle(container), told["ips"][0]["address"].split("/")[0])
            self.node_of[container] = node

    def delete(self, container):
        self.told.doubted(self.handle(container))
        self.node_of.pop(container, None)
        if self.called("DEL", container, config(self.network, "node-0")) is None:
            self.told.again([self.handle(container)])
            self.unsure.append(container)
        else:
            self.told.gone(self.handle(container))

    def check(self):
        container = self.some()
        address, is_own = self.told.held[self.handle(container)], self.draw.random() < 0.8
        asked = address if is_own else "10.255.255.255"
        earlier = {"ips": [{"address": f"{asked}/32"}]}
        told = self.called("CHECK", container, config(self.network, self.node_of[container], prevResult=earlier), (102,))
        if told is not None and ("code" in told) == is_own:
            self.told.is_wrong(f"CHECK of {container} at {asked} was told {told}")

    def dropped(self, node):
        """Containers on the node that are not listed as live any more, and those that are."""
        here = [one for one in self.node_of if self.node_of[one] == node]
        gone = self.draw.sample(here, min(len(here), self.draw.randrange(3)))
        for one in gone:
            self.told.doubted(self.handle(one))
            del self.node_of[one]
        return gone, [one for one in here if one not in gone]

    def collected(self, gone, is_again):
        if is_again:
            self.told.again(self.handle(one) for one in gone)
            self.unsure += gone
        else:
            for one in gone:
                self.told.gone(self.handle(one))

    def gc(self):
        node = f"node-{self.draw.randrange(NODES)}"
        gone, live = self.dropped(node)
        valid = [{"containerID": one, "ifname": "eth0"} for one in live]
        told = self.called("GC", "", config(self.network, node, **{"cni.dev/valid-attachments": valid}))
        self.collected(gone, told is None)

    def collect(self):
        """The same by two lists, the second a line of its own."""
        node = f"node-{self.draw.randrange(NODES)}"
        gone, live = self.dropped(node)
        live = [self.handle(one) for one in live]
        scope = {"network": self.network, "node": node}
        self.waits({"live": live, "scope": scope})
        answer = self.asked({"feed": live})["answer"]
        self.told.counts("collect")
        self.collected(gone, "again" in answer)
        if "again" not in answer:
            items = answer["collected"]["items"]
            freed = {item["handle"] for item in items if item["freed"]}
            if not freed >= {self.handle(one) for one in gone} or len(freed) < len(items):
                self.told.is_wrong(f"{self.network} dropped {gone} on {node}, and was told {answer}")

    def waits(self, request):
        reply = self.asked({"request": {"collect": request}})
        if reply != {"waiting": True}:
            self.told.is_wrong(f"a collection of {self.network} was told {reply}")

    def stop(self):
        """A collection that nobody hands its second list."""
        self.waits({"live": []})
        self.told.counts("collect, and stop")
        reply = self.asked({"stop": True})
        if reply != {"stopped": True}:
            self.told.is_wrong(f"the stop of {self.network} was told {reply}")

    def release(self):
        """A node gives up the block of some address, whether or not it has it."""
        address = self.told.held[self.handle(self.some())].split(".")
        cidr = ".".join([*address[:3], str(int(address[3]) // 64 * 64)]) + "/26"
        answer = self.asked({"request": {"release": {"cidr": cidr, "node": f"node-{self.draw.randrange(NODES)}"}}})["answer"]
        kind = answer if isinstance(answer, str) else next(iter(answer))
        self.told.counts("release" if kind == "released" else kind)
        if kind not in ("released", "noAffinity", "again"):
            self.told.is_wrong(f"a release of {cidr} was told {answer}")

    # ---- ends of sessions

    def reconnect(self):
        how = self.draw.choice(["between lines", "inside a line", "while a collection waits", "before a reply"])
        if how == "inside a line":
            self.connect_if_not()
            self.link.sendall(b'{"env":{"CNI_COMMAND":"ADD"')
        elif how == "while a collection waits":
            self.waits({"live": []})
        elif how == "before a reply":
            container = f"c{self.next}"
            self.next += 1
            self.told.doubted(self.handle(container))
            self.send(call("ADD", container, config(self.network, "node-0")))
        self.told.counts("left " + how)
        self.leave()

    def connect_if_not(self):
        if self.link is None:
            self.connect()

    # ---- the load

    def step(self):
        how = self.draw.random()
        if self.unsure:
            self.delete(self.unsure.pop())
        elif how < 0.04:
            self.gc()
        elif how < 0.08:
            self.collect()
        elif how < 0.1:
            self.stop()
        elif how < 0.12:
            self.reconnect()
        elif not self.node_of or how < 0.5 and len(self.node_of) < MOST_HELD:
            self.add()
        elif how < 0.75:
            self.delete(self.some())
        elif how < 0.9:
            self.check()
        else:
            self.release()

    def run(self):
        try:
            while not self.ends.is_set():
                if self.runs.is_set():
                    self.step()
                else:
                    self.idle.set()
                    self.runs.wait()
            self.finish()
        except (OSError, Cut, KeyError, ValueError) as why:
            self.told.is_wrong(f"{self.network}: {why!r}")
            self.ends.set()
        self.leave()
        self.idle.set()

    def finish(self):
        """What is unsure is deleted, or collected on each node."""
        while self.unsure:
            self.delete(self.unsure.pop())
        for node in (f"node-{number}" for number in range(NODES)):
            live = [{"containerID": one, "ifname": "eth0"} for one in self.node_of if self.node_of[one] == node]
            stdin = config(self.network, node, **{"cni.dev/valid-attachments": live})
            while self.called("GC", "", stdin) is None:
                pass
        with self.told.lock:
            self.told.unsure = {one for one in self.told.unsure if not one.startswith(self.network + ".")}


# ---- the daemon


class Daemon:
    def __init__(self, program, database, port, log):
        env = {**os.environ, "IPAM_DB": database, **ONE_HEAP}
        with open(log, "wb") as file:
            words = [program, "serve", f"127.0.0.1:{port}", str(CLIENTS)]
            self.process = subprocess.Popen(words, env=env, stdout=subprocess.DEVNULL, stderr=file)
        self.log, self.port, self.seen = log, port, 0

    def started(self):
        end = time.monotonic() + PATIENCE
        while time.monotonic() < end:
            try:
                socket.create_connection(("127.0.0.1", self.port), timeout=1).close()
                self.seen = 1
                return self.ended(0)
            except OSError:
                if self.process.poll() is not None:
                    break
                time.sleep(0.01)
        sys.exit("nobody listens")

    def ended(self, sessions):
        """Waits until so many sessions have ended."""
        end = time.monotonic() + PATIENCE
        while time.monotonic() < end:
            with open(self.log, "rb") as file:
                if file.read().count(b"\n") >= self.seen + sessions:
                    return True
            time.sleep(0.05)
        return False

    def memory(self):
        """Kibibytes that are resident now."""
        with open(f"/proc/{self.process.pid}/status") as file:
            return next(int(line.split()[1]) for line in file if line.startswith("VmRSS:"))

    def open(self):
        """What its file descriptors are, and how many threads it has."""
        place = f"/proc/{self.process.pid}"
        named = sorted(os.readlink(f"{place}/fd/{one}") for one in os.listdir(f"{place}/fd"))
        return named, len(os.listdir(f"{place}/task"))

    def stop(self):
        self.process.terminate()
        self.process.wait()


# ---- comparisons


def compare(told, rows):
    """Notes what the rows have otherwise than was told."""
    if rows.fault:
        told.wrong.append(f"the rows break rule {rows.fault}")
    owners = rows.owners()
    for container, address in told.held.items():
        if owners.get(address) != container:
            told.wrong.append(f"{address} was answered to {container}, and the rows have {owners.get(address)}")
    for address, handle in owners.items():
        if told.held.get(handle) != address and handle not in told.unsure:
            told.wrong.append(f"{handle} has no address, and the rows have {address} for it")
    for pair in rows.short():
        told.wrong.append(f"{pair} is counted too low")


def compare_counts(told, rows, running):
    """Notes counts that are above what is owned, though no request of the handle was told to try again."""
    for handle, cidr, count, owned in rows.excess():
        if handle not in told.lost and handle not in running:
            told.wrong.append(f"{handle} counts {count} in {cidr}, and owns {owned}")


def compare_program(told, program, env, rows):
    """Notes what the program tells of its file otherwise than the second reader."""
    for words, wanted in ((["get"], rows.listing()), (["audit", "2"], rows.report())):
        found = subprocess.run([program, *words], env=env, stdout=subprocess.PIPE, text=True)
        if (found.returncode, found.stdout) != (0, wanted):
            told.wrong.append(f"{words} has status {found.returncode} and {found.stdout[-300:]!r}, wanted {wanted[-300:]!r}")


# ---- the soak


class Load:
    """A daemon under sixteen clients."""

    def __init__(self, program, database, port, seed, networks):
        self.database, self.told, self.runs, self.ends = database, Told(), threading.Event(), threading.Event()
        self.daemon = Daemon(program, database, port, database + ".log")
        self.daemon.started()
        names = [f"{networks}{number}" for number in range(CLIENTS)]
        shared = port, self.told, self.runs, self.ends
        self.clients = [Client(name, *shared, seed * 1000 + number) for number, name in enumerate(names)]
        self.open, self.begin = self.daemon.open(), time.monotonic()
        for client in self.clients:
            client.start()

    def seconds(self):
        return time.monotonic() - self.begin

    def calls(self):
        return sum(self.told.count.values())

    def fail_if_wrong(self, when):
        if self.told.wrong:
            sys.exit("\n".join([f"{when}:", *self.told.wrong[:20]]))

    def run(self, is_enough):
        """Runs until it is enough, and then until no call is under way and no session that was left."""
        for client in self.clients:
            client.idle.clear()
        self.runs.set()
        while not is_enough() and not self.ends.is_set():
            time.sleep(0.1)
        self.runs.clear()
        if not all(client.idle.wait(PATIENCE) for client in self.clients):
            sys.exit("a client waits for a reply")
        self.wait_for_ends(sum(client.sessions - (client.link is not None) for client in self.clients))

    def wait_for_ends(self, sessions):
        if not self.daemon.ended(sessions):
            sys.exit("a session does not end")

    def tell(self):
        """Compares the rows with what was told, in the midst of it."""
        rows, memory = Rows(read(self.database)), self.daemon.memory()
        compare(self.told, rows)
        compare_counts(self.told, rows, self.told.unsure)
        self.fail_if_wrong(f"after {self.seconds():.0f} s")
        print(f"  {self.seconds():.0f} s: {memory} KiB, {len(rows.rows)} rows of {rows.size()} bytes, "
              f"{len(self.told.held)} held, {self.calls()} calls", flush=True)

    def end(self):
        """Ends all sessions and then the daemon. How much memory it had."""
        self.ends.set()
        self.runs.set()
        for client in self.clients:
            client.join(PATIENCE)
        self.wait_for_ends(sum(client.sessions for client in self.clients))
        after, memory = self.daemon.open(), self.daemon.memory()
        if after != self.open:
            self.told.wrong.append(f"the daemon had {self.open} at first, and {after} at last")
        self.daemon.stop()
        return memory


def soaked(load, program, env, minutes):
    """Runs for so many minutes, and compares. The memory at the end, and the rows."""
    for stop in range(STOPS):
        until = load.begin + (stop + 1) * minutes * 60 / STOPS
        load.run(lambda: time.monotonic() > until)
        load.tell()
    memory = load.end()
    rows = Rows(read(load.database))
    compare(load.told, rows)
    compare_counts(load.told, rows, ())
    compare_program(load.told, program, env, rows)
    load.fail_if_wrong("at the end")
    return memory, rows


def fresh(program, database, port, seed):
    """How much memory another daemon takes over the same rows, after some calls."""
    copy = database + ".copy"
    for end in ("", "-wal"):
        if os.path.exists(database + end):
            shutil.copyfile(database + end, copy + end)
    load = Load(program, copy, port, seed + 1, "fresh")
    load.run(lambda: load.calls() >= FRESH_CALLS)
    memory = load.end()
    load.fail_if_wrong("of a fresh daemon")
    return memory


def main():
    program, folder = sys.argv[1:3]
    minutes, (port, seed) = float(sys.argv[3]), (int(word) for word in sys.argv[4:6])
    database = os.path.join(folder, "ipam.db")
    env = {**os.environ, "IPAM_DB": database}
    pool = {"kind": "IPPool", "metadata": {"name": "pods"}, "spec": {"cidr": "10.0.0.0/16"}}
    subprocess.run([program, "apply"], env=env, input=json.dumps(pool), text=True, check=True, stdout=subprocess.DEVNULL)
    load = Load(program, database, port, seed, "net")
    memory, rows = soaked(load, program, env, minutes)
    seconds, needed = load.seconds(), fresh(program, database, port, seed)
    print("  " + ", ".join(f"{count} {what}" for what, count in sorted(load.told.count.items())))
    print(f"  memory: {memory} KiB, where a fresh daemon has {needed} over the same rows after {FRESH_CALLS} calls")
    if memory > needed + SLACK:
        sys.exit("the memory has grown by more than the rows")
    print(f"{seconds:.0f} s, {load.calls()} calls in {sum(client.sessions for client in load.clients)} sessions: the rows are "
          f"those that were told, with {len(load.told.held)} addresses held, and break no rule; {len(rows.excess())} counts are "
          "above what is owned, none but of requests that were told to try again; `get` and `audit 2` tell the same; "
          f"{len(load.open[0])} file descriptors and {load.open[1]} threads, as at first")


if __name__ == "__main__":
    main()
