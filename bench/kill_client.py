#!/usr/bin/env python3
"""Kills a daemon under sixteen clients, and compares its file with the replies that they got.

The words are the program, a folder for the file, how many kills, the port and a seed. A client acts as a
kubelet does: after a call without a reply it makes a DEL of that container, until one is answered.
"""

import json
import os
import random
import socket
import subprocess
import sys
import threading
import time

CLIENTS = 16
PATIENCE = 30
NETWORK = "net"


class Told:
    """What the clients were told, of all containers."""

    def __init__(self):
        self.lock = threading.Lock()
        self.held = {}      # container: the address that an ADD was answered, until its DEL is sent
        self.gone = set()   # containers whose DEL was answered
        self.count = {"ADD": 0, "DEL": 0, "cut": 0, "refused": 0}
        self.wrong = []

    def added(self, container, address):
        with self.lock:
            self.count["ADD"] += 1
            for other, its in self.held.items():
                if its == address:
                    self.wrong.append(f"{address} was given to {container} while {other} has it")
            self.held[container] = address

    def deleting(self, container):
        with self.lock:
            self.held.pop(container, None)

    def deleted(self, container):
        with self.lock:
            self.count["DEL"] += 1
            self.gone.add(container)

    def counted(self, what):
        with self.lock:
            self.count[what] += 1


def line_of(command, container, node):
    stdin = {"cniVersion": "1.0.0", "name": NETWORK, "type": "calico", "nodename": node, "ipam": {"type": "calico-ipam"}}
    env = {"CNI_COMMAND": command, "CNI_CONTAINERID": container, "CNI_IFNAME": "eth0", "CNI_NETNS": "/run/netns/x"}
    return json.dumps({"env": env, "stdin": json.dumps(stdin)}).encode() + b"\n"


class Client(threading.Thread):
    """One connection, with one call under way at a time."""

    def __init__(self, number, port, told, up, ends, seed):
        super().__init__(daemon=True)
        self.number, self.port, self.told, self.up, self.ends = number, port, told, up, ends
        self.draw = random.Random(seed * 1000 + number)
        self.node = f"node-{number % 4}"
        self.link, self.mine, self.unsure, self.next = None, [], None, 0
        self.idle = threading.Event()

    def asked(self, line):
        """The reply of a line. None where the daemon went away meanwhile."""
        try:
            if self.link is None:
                self.link = socket.create_connection(("127.0.0.1", self.port), timeout=PATIENCE)
                self.link.setsockopt(socket.IPPROTO_TCP, socket.TCP_NODELAY, 1)
            self.link.sendall(line)
            reply = b""
            while not reply.endswith(b"\n"):
                part = self.link.recv(65536)
                if not part:
                    raise ConnectionError
                reply += part
            return json.loads(reply)
        except OSError:
            if self.link is not None:
                self.link.close()
            self.link = None
            return None

    def add(self):
        container = f"c{self.number}-{self.next}"
        self.next += 1
        reply = self.asked(line_of("ADD", container, self.node))
        if reply is None:
            self.told.counted("cut")
            self.unsure = container
        elif reply["status"] == 0:
            self.told.added(container, json.loads(reply["stdout"])["ips"][0]["address"].split("/")[0])
            self.mine.append(container)
        else:
            self.told.counted("refused")
            self.unsure = container

    def delete(self, container):
        self.told.deleting(container)
        reply = self.asked(line_of("DEL", container, self.node))
        if reply is not None and reply["status"] == 0:
            self.told.deleted(container)
            self.unsure = None
        else:
            self.told.counted("cut" if reply is None else "refused")
            self.unsure = container

    def run(self):
        while not self.ends.is_set():
            if not self.up.is_set():
                self.idle.set()
                self.up.wait()
            if self.unsure is not None:
                self.delete(self.unsure)
            elif self.mine and self.draw.random() < 0.45:
                self.delete(self.mine.pop(self.draw.randrange(len(self.mine))))
            else:
                self.add()
            if self.link is None:
                time.sleep(0.01)
        self.idle.set()


def start(program, env, port):
    """A daemon that listens."""
    daemon = subprocess.Popen([program, "serve", f"127.0.0.1:{port}", str(CLIENTS)], env=env, stderr=subprocess.DEVNULL)
    end = time.monotonic() + PATIENCE
    while time.monotonic() < end:
        try:
            socket.create_connection(("127.0.0.1", port), timeout=1).close()
            return daemon
        except OSError:
            if daemon.poll() is not None:
                sys.exit(f"the daemon ended with status {daemon.returncode}")
            time.sleep(0.01)
    sys.exit("nobody listens")


def owners(program, env):
    """The owner of each address, by the rows of the file: address to container."""
    rows = subprocess.run([program, "get", "block"], env=env, stdout=subprocess.PIPE, text=True)
    if rows.returncode != 0:
        sys.exit(f"the rows are not opened: {rows.stdout}")
    found = {}
    for row in rows.stdout.splitlines():
        body = json.loads(row.split(" ", 2)[2])
        base = [int(part) for part in body["cidr"].split("/")[0].split(".")]
        first = int.from_bytes(bytes(base), "big")
        for ordinal, place in enumerate(body["allocations"]):
            if place is not None:
                address = ".".join(str(part) for part in (first + ordinal).to_bytes(4, "big"))
                found[address] = body["attributes"][place]["handle_id"].removeprefix(NETWORK + ".")
    return found


def compare(told, found):
    """Notes what the rows have otherwise than was told."""
    for container, address in told.held.items():
        if found.get(address) != container:
            told.wrong.append(f"{address} was answered to {container}, and the rows have {found.get(address)}")
    for address, container in found.items():
        if container in told.gone:
            told.wrong.append(f"{container} was deleted, and the rows have {address} for it")


def main():
    program, folder = sys.argv[1:3]
    kills, port, seed = (int(word) for word in sys.argv[3:6])
    env = {**os.environ, "IPAM_DB": os.path.join(folder, "ipam.db")}
    pool = {"kind": "IPPool", "metadata": {"name": "pods"}, "spec": {"cidr": "10.0.0.0/16"}}
    subprocess.run([program, "apply"], env=env, input=json.dumps(pool), text=True, check=True, stdout=subprocess.DEVNULL)
    told, up, ends, draw = Told(), threading.Event(), threading.Event(), random.Random(seed)
    clients = [Client(number, port, told, up, ends, seed) for number in range(CLIENTS)]
    daemon = start(program, env, port)
    begin = time.monotonic()
    for client in clients:
        client.start()
    for kill in range(kills):
        for client in clients:
            client.idle.clear()
        up.set()
        time.sleep(draw.uniform(0.1, 1.0))
        up.clear()
        daemon.kill()
        daemon.wait()
        for client in clients:
            if not client.idle.wait(PATIENCE):
                sys.exit("a client waits for a daemon that was killed")
        compare(told, owners(program, env))
        if told.wrong:
            sys.exit("\n".join([f"after kill {kill + 1}:", *told.wrong]))
        daemon = start(program, env, port)
        print(f"  kill {kill + 1}: {told.count['ADD']} added, {told.count['DEL']} deleted, {len(told.held)} held, "
              f"{told.count['cut']} calls cut, {told.count['refused']} refused", flush=True)
    daemon.kill()
    daemon.wait()
    print(f"{kills} kills in {time.monotonic() - begin:.0f} s under {CLIENTS} clients: no ADD that was answered is lost, "
          "none was given twice, and none that was deleted came back")


if __name__ == "__main__":
    main()
