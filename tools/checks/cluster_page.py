#!/usr/bin/env python3
"""Sets up a cluster of two nodes by the very commands of docs/CLUSTER.md, and looks that its pods are a network.

    BOOT_ROOT=FOLDER tools/checks/cluster_page.py [PROGRAM]      else release/ipam

It boots two systems with a link between them (booted.py says what that needs; the folder needs openssh-server,
stunnel4 and containernetworking-plugins of Debian too), and makes the package. Each block of commands of the page runs
on the node that its first line names, in the page's order. Between them it starts pods, sends packets from each pod
to each other one, cleans, upgrades, has node-b take over the database, and moves a plugin's file to the daemon. A
block that no step runs is a failure. Prints each check that fails, and then `N passed, M failed`.
"""
import json
import os
import pathlib
import re
import subprocess
import sys
import tempfile
import time

from booted import TOP, Booted, missing
from package import packages

ROOT = os.environ.get("BOOT_ROOT")
PAGE = TOP / "docs/CLUSTER.md"
ADDRESSES = {"node-a": "10.99.0.1", "node-b": "10.99.0.2"}
NEEDED = ["usr/sbin/sshd", "usr/bin/stunnel4", "usr/lib/cni/bridge"]
SOCKET = "/run/ipam/ipam.sock"
# Starts or removes a pod, or calls its plugins once more: a network namespace behind the plugins of the node's list.
POD = """
import json, os, subprocess, sys
word, pod = sys.argv[1:]
whole = json.load(open("/etc/cni/net.d/10-pods.conflist"))
result = f"/root/{pod}.result"
known = json.load(open(result)) if os.path.exists(result) else None
if word == "ADD":
    subprocess.run(["ip", "netns", "add", pod], check=True)
env = {**os.environ, "CNI_COMMAND": word, "CNI_CONTAINERID": pod, "CNI_NETNS": f"/run/netns/{pod}", "CNI_IFNAME": "eth0"}
for plugin in whole["plugins"][:: -1 if word == "DEL" else 1]:
    given = {"cniVersion": whole["cniVersion"], "name": whole["name"], **plugin, **({"prevResult": known} if known else {})}
    env["CNI_PATH"] = "/usr/lib/cni"
    ran = subprocess.run([f"/usr/lib/cni/{plugin['type']}"], input=json.dumps(given), env=env, capture_output=True, text=True)
    if ran.returncode:
        if word == "ADD":
            subprocess.run(["ip", "netns", "del", pod])
        sys.exit(ran.stdout + ran.stderr)
    if word == "ADD":
        known = json.loads(ran.stdout)
if word == "ADD":
    json.dump(known, open(result, "w"))
    print(known["ips"][0]["address"].split("/")[0])
elif word == "DEL":
    os.remove(result)
    subprocess.run(["ip", "netns", "del", pod], check=True)
"""
# How many milliseconds an ADD by the plugin takes, the median of fifty
TIME = """
import json, os, statistics, subprocess, sys, time
words = {"CNI_IFNAME": "eth0", "CNI_NETNS": "/x", "CNI_PATH": "/usr/lib/cni"}
stdin = json.dumps({"cniVersion": "1.0.0", "name": "k8s-pod-network", "type": "x", "nodename": sys.argv[1], "ipam": {"type": "calico-ipam"}}).encode()
taken = []
for at in range(50):
    for command in ("ADD", "DEL"):
        start = time.perf_counter()
        env = {**words, "CNI_COMMAND": command, "CNI_CONTAINERID": f"timed-{sys.argv[1]}"}
        ran = subprocess.run(["/usr/lib/cni/calico-ipam"], input=stdin, env=env, capture_output=True)
        taken += [(time.perf_counter() - start) * 1e3] if command == "ADD" else []
        assert ran.returncode == 0, ran.stdout
print(f"{statistics.median(taken):.1f}")
"""
LISTEN = """
import socket, sys
server = socket.create_server((sys.argv[1], 7000))
server.settimeout(5)
open("/tmp/listens", "w").close()
try:
    print(server.accept()[1][0])
except OSError as why:
    print(why)
"""
SPEAK = "import socket, sys; socket.create_connection((sys.argv[1], 7000), 3).close()"
counts = {"passed": 0, "failed": 0}


def check(what, holds, seen=""):
    counts["passed" if holds else "failed"] += 1
    if not holds:
        print(f"failed: {what}: {seen}", flush=True)
    return holds


class Block:
    """Commands of the page, the heading above them, and where they run."""

    def __init__(self, heading, text):
        first, _, self.commands = text.partition("\n")
        self.heading, self.where, self.was_run = heading, first.removeprefix("# on "), False


def blocks():
    found = []
    for part in re.split(r"^##+ ", PAGE.read_text(), flags=re.M)[1:]:
        heading = part.partition("\n")[0]
        found += [Block(heading, text) for text in re.findall(r"^```sh\n(.*?)^```", part, re.S | re.M)]
    return found


class Cluster:
    def __init__(self, systems):
        self.systems, self.blocks, self.pods = systems, blocks(), {}
        for system in systems.values():
            system.put("/root/pod.py", POD.encode())

    def play(self, heading, where, at=0):
        """Runs a block of the page, and gives what it writes."""
        block = [one for one in self.blocks if one.heading == heading and one.where == where][at]
        block.was_run = True
        told = []
        for name in self.systems if where == "each machine" else [where]:
            status, out, faults = self.systems[name].shell(f"set -e; cd /root; {block.commands}")
            check(f"{heading}, on {name}", status == 0, (block.commands, out, faults))
            told.append(out)
        return "".join(told)

    def carry(self, name, path, other, to):
        self.systems[other].put(to, self.systems[name].take(path))

    def shell(self, name, line):
        return self.systems[name].shell(f"cd /root; {line}")

    def until(self, what, name, line, seconds=20):
        end = time.monotonic() + seconds
        while (told := self.shell(name, line))[0] and time.monotonic() < end:
            time.sleep(0.3)
        return check(what, told[0] == 0, told)

    def pod(self, word, name, pod):
        status, out, faults = self.systems[name].run("python3", "/root/pod.py", word, pod)
        if status == 0 and word == "ADD":
            self.pods[pod] = name, out.strip()
        if status == 0 and word == "DEL":
            del self.pods[pod]
        return status, out.strip(), faults

    def start(self, name, pod):
        status, out, faults = self.pod("ADD", name, pod)
        others = [address for other, (_, address) in self.pods.items() if other != pod]
        check(f"{pod} starts on {name} with an address of its own", status == 0 and out not in others, (out, faults))

    def time(self, name, what):
        status, out, faults = self.systems[name].run("python3", "-c", TIME, name)
        check(f"fifty ADDs and DELs {what}", status == 0, faults)
        print(f"an ADD {what}: {out.strip()} ms", flush=True)

    def reaches(self, client, server):
        """Who the server's pod takes the client's for."""
        (here, _), (there, address) = self.pods[client], self.pods[server]
        listen = f"rm -f /tmp/listens; ip netns exec {server} python3 -c '{LISTEN}' {address} > /tmp/seen 2>&1 </dev/null &"
        self.shell(there, f"{listen}\nfor at in $(seq 50); do [ -e /tmp/listens ] && break; sleep 0.1; done")
        self.shell(here, f"ip netns exec {client} python3 -c '{SPEAK}' {address}")
        self.shell(there, "for at in $(seq 60); do [ -s /tmp/seen ] && break; sleep 0.1; done")
        return self.systems[there].take("/tmp/seen").decode().strip()

    def each_reaches_each(self, what):
        for client, (_, own) in self.pods.items():
            for server in self.pods:
                if client != server:
                    seen = self.reaches(client, server)
                    check(f"{what}: {client} reaches {server} as itself", seen == own, seen)


def set_up(cluster):
    # (the user of the unit, where the package's unit makes none before it is started)
    for name in cluster.systems:
        cluster.shell(name, "getent passwd ipam || useradd --system --user-group --no-create-home ipam")
    cluster.play("Set up", "each machine")
    cluster.until("the daemon runs", "node-a", f"ipam --daemon {SOCKET} show")
    check("the pools", "applied IPPool" in cluster.play("Set up", "node-a"))
    check("the name of the node", '"node-b"' in cluster.shell("node-b", "cat /etc/cni/net.d/10-pods.conflist")[1])


def link_by_ssh(cluster):
    heading = "The link by ssh"
    cluster.shell("node-a", "systemctl start ssh")
    cluster.carry("node-a", "/etc/ssh/ssh_host_ed25519_key.pub", "node-b", "/root/node-a.pub")
    cluster.play(heading, "node-b")
    cluster.carry("node-b", "/root/node-b.pub", "node-a", "/root/node-b.pub")
    cluster.play(heading, "node-a")
    cluster.shell("node-b", "systemctl start ipam-link")
    cluster.until("the link by ssh", "node-b", f"ipam --daemon {SOCKET} show")
    check("what is shown", "default-ipv4-ippool" in cluster.play(heading, "node-b", 1))
    shell = "ssh -i /etc/ipam/link.key -o BatchMode=yes -o UserKnownHostsFile=/etc/ipam/known_hosts ipam-link@10.99.0.1 id"
    check("the key opens no shell", "uid=" not in cluster.shell("node-b", shell)[1])
    cluster.start("node-a", "a1")
    cluster.start("node-b", "b1")
    cluster.time("node-a", "beside the daemon")
    cluster.time("node-b", "over ssh")
    cluster.shell("node-b", "systemctl kill -s KILL ipam-link")
    cluster.until("the link comes again", "node-b", f"ipam --daemon {SOCKET} show")


def link_by_stunnel(cluster):
    heading, ssh = "The link by stunnel", "/etc/ipam/calico-ipam.conf"
    before = cluster.systems["node-b"].take(ssh)
    cluster.play(heading, "node-a")
    cluster.carry("node-a", "/root/secret", "node-b", "/root/secret")
    cluster.until("stunnel listens", "node-a", "ss -tln | grep -q 10.99.0.1:9432")
    # (the page's last words ask the daemon at once)
    block = next(one for one in cluster.blocks if one.heading == heading and one.where == "node-b")
    block.commands = block.commands.replace("\nipam ", "\nfor at in $(seq 50); do ss -tln | grep -q :9431 && break; sleep 0.1; done\nipam ")
    check("the link by stunnel", "default-ipv4-ippool" in cluster.play(heading, "node-b"))
    cluster.start("node-b", "b2")
    cluster.time("node-b", "over stunnel")
    wrong = f"printf 'node-b:%064d\\n' 0 > /etc/stunnel/ipam.psk; systemctl restart stunnel@ipam; sleep 1; ipam --daemon 127.0.0.1:9431 show"
    check("another secret opens nothing", cluster.shell("node-b", wrong)[0] != 0)
    cluster.systems["node-b"].put(ssh, before)


def routes(cluster):
    cluster.play("Routes", "each machine")
    for name, other in (("node-a", "node-b"), ("node-b", "node-a")):
        cluster.until(f"routes to {other}", name, f"ip route show via {ADDRESSES[other]} | grep -q 192.168")
    cluster.each_reaches_each("routes")


def clean(cluster):
    """A pod of node-b whose DEL never came."""
    cluster.start("node-b", "leak")
    cluster.shell("node-b", "ip netns del leak")
    _, leaked = cluster.pods.pop("leak")
    words = "/usr/lib/ipam/collect --network k8s-pod-network --node node-b --grace 2 -- sh -c 'ls /run/netns'"
    status, told, faults = cluster.shell("node-b", words)
    wanted = f"freed {leaked} k8s-pod-network.leak\nfreed 1\n"
    check("cleaning over the link", (status, told) == (0, wanted), (told, faults))


def upgrade(cluster, later):
    cluster.shell("node-a", "rm /root/ipam_*.deb")
    cluster.systems["node-a"].put("/root/ipam_later.deb", later)
    held = f"ipam --daemon {SOCKET} get handle"
    before = cluster.shell("node-a", held)[1]
    version = "dpkg-query -W ipam"
    old = cluster.shell("node-a", version)[1]
    block = next(one for one in cluster.blocks if one.heading == "Upgrade")
    block.commands = block.commands.replace("\nipam --daemon /run/ipam/ipam.sock show", "\nsleep 1\nipam --daemon /run/ipam/ipam.sock show")
    cluster.play("Upgrade", "node-a")
    check("another version", cluster.shell("node-a", version)[1] != old)
    cluster.until("the daemon runs after the upgrade", "node-b", f"ipam --daemon {SOCKET} show")
    check("the addresses stay", cluster.shell("node-b", held)[1] == before, before)
    cluster.start("node-b", "b3")
    cluster.each_reaches_each("after the upgrade")


def take_over(cluster):
    heading = "When the daemon's machine dies"
    cluster.shell("node-a", "systemctl kill -s KILL ipam; systemctl mask --now --runtime ipam")
    status, told, faults = cluster.pod("ADD", "node-b", "b4")
    check("an ADD ends with 111", status != 0 and '111' in told + faults, (told, faults))
    cluster.each_reaches_each("without the daemon")
    cluster.shell("node-b", "mkdir -p /root/taken")
    for file in ("ipam.db", "ipam.db-wal"):
        cluster.carry("node-a", f"/var/lib/ipam/{file}", "node-b", f"/root/taken/{file}")
    block = next(one for one in cluster.blocks if one.heading == heading)
    block.commands = block.commands.replace("\nipam --daemon", "\nsleep 1\nipam --daemon")
    told = cluster.play(heading, "node-b")
    check("the audit", f"owners {len(cluster.pods)} handles {len(cluster.pods)}\n" in told, told)
    cluster.start("node-b", "b5")
    check("a DEL of an earlier pod", cluster.pod("DEL", "node-b", "b1")[0] == 0)


def move_a_file(cluster):
    """A plugin's file on node-a, whose daemon no other node asks any more."""
    call = "CNI_COMMAND=ADD CNI_NETNS=/x CNI_IFNAME=eth0 CNI_PATH=/x IPAM_DB=/var/lib/cni/ipam.db"
    one = '{"cniVersion":"1.0.0","name":"k8s-pod-network","type":"x","nodename":"node-a","ipam":{"type":"calico-ipam"}}'
    cluster.shell("node-a", "systemctl unmask --runtime ipam; mkdir -p /var/lib/cni; IPAM_DB=/var/lib/cni/ipam.db ipam apply < /usr/share/ipam/pool.json")
    for pod in ("f1", "f2"):
        cluster.shell("node-a", f"echo '{one}' | {call} CNI_CONTAINERID={pod} ipam")
    cluster.play("From a file to the daemon", "node-a")
    cluster.until("the daemon runs over the file", "node-a", f"ipam --daemon {SOCKET} show")
    told = cluster.shell("node-a", f"ipam --daemon {SOCKET} get handle")[1]
    check("the addresses of the file", [line.split()[0] for line in told.splitlines()] == ["handle/k8s-pod-network.f1", "handle/k8s-pod-network.f2"], told)
    late = cluster.shell("node-a", f"echo '{one}' | {call} CNI_CONTAINERID=f3 ipam")
    check("a late call by the old plugin fails", late[0] == 1 and '"code":' in late[1], late)
    told = cluster.play("Watch it", "node-a")
    check("what is watched", '"freeInBlocks"' in told and "NRestarts=" in told and "blocks 1 owners 2 handles 2" in told, told)


def connect(systems):
    """An Ethernet link between the two."""
    leaders = [systems[name].leader for name in ADDRESSES]
    ends = [f"v{leader}" for leader in leaders]
    subprocess.run(["ip", "link", "add", ends[0], "type", "veth", "peer", "name", ends[1]], check=True)
    for name, leader, end in zip(ADDRESSES, leaders, ends):
        subprocess.run(["ip", "link", "set", end, "netns", leader, "name", "eth0"], check=True)
        systems[name].shell(f"ip address add {ADDRESSES[name]}/24 dev eth0; ip link set eth0 up")


def main():
    program = pathlib.Path(sys.argv[1] if len(sys.argv) > 1 else TOP / "release/ipam").resolve()
    lacks = missing(ROOT)
    lacks += [f"{ROOT}/{path}" for path in NEEDED if ROOT and not os.path.exists(f"{ROOT}/{path}")]
    if lacks:
        print(f"skipped: there is no {', no '.join(lacks)}")
        print("0 passed, 0 failed")
        return 0
    with tempfile.TemporaryDirectory() as folder:
        first, later = (pathlib.Path(folder, pathlib.Path(path).name) for path in packages(program, folder))
        with Booted(ROOT, "node-a") as a, Booted(ROOT, "node-b") as b:
            systems = {"node-a": a, "node-b": b}
            connect(systems)
            for system in systems.values():
                system.put(f"/root/{first.name}", first.read_bytes())
            cluster = Cluster(systems)
            for step in (set_up, link_by_ssh, link_by_stunnel, routes, clean):
                step(cluster)
            upgrade(cluster, later.read_bytes())
            for step in (take_over, move_a_file):
                step(cluster)
            for block in cluster.blocks:
                check(f"the block of {block.heading} on {block.where} was run", block.was_run)
    print(f"{counts['passed']} passed, {counts['failed']} failed")
    return counts["failed"] != 0


if __name__ == "__main__":
    sys.exit(main())
