#!/usr/bin/env python3
"""Cleans by `tools/collect` while pods come and go, and looks that no live pod loses its address.

    tools/checks/collect.py [--quick] [PROGRAM]        else release/ipam

A daemon serves eight nodes side by side. In each round of a node a pod leaks (no DEL comes for it), and others get
their addresses before, in and after the two lists of a collection. Each one is listed only some time after its ADD,
as containerd does, and within the grace. At the end of a round each listed pod must have its address, and the
collection must have freed exactly the address that leaked. Beside these rounds, a GC by a list that was made before an ADD
must free that pod's address: this shows what the second list is for. 1,000 rounds take four minutes; --quick has 16.
Then the words of the tool are tried. Prints each check that fails, and then `N passed, M failed`. It needs Python.
"""
import concurrent.futures
import json
import os
import pathlib
import random
import subprocess
import sys
import tempfile
import threading
import time

from links import Daemon

TOP = pathlib.Path(__file__).resolve().parents[2]
COLLECT = TOP / "tools/collect"
sys.path.insert(0, str(TOP / "tools"))
from daemon_session import Session  # noqa: E402

NETWORK, NODES, GRACE = "k8s-pod-network", 8, 1
POOL = {"kind": "IPPool", "metadata": {"name": "p"}, "spec": {"cidr": "10.0.0.0/16", "blockSize": 26}}
counts = {"passed": 0, "failed": 0, "live": 0, "leaked": 0, "early": 0}
guard = threading.Lock()


def check(what, holds, seen=""):
    with guard:
        counts["passed" if holds else "failed"] += 1
        if not holds:
            print(f"failed: {what}: {seen}", flush=True)


def count(what):
    with guard:
        counts[what] += 1


class Node:
    """A node's calls of the daemon, each in a session of its own, and the file of the pods that are listed."""

    def __init__(self, address, folder, name, network=NETWORK):
        self.address, self.name, self.network, self.list = address, name, network, folder / f"{name}.list"
        self.listed = []
        self.write()

    def write(self):
        new = self.list.with_suffix(".new")
        new.write_text("".join(f"{pod}\n" for pod in self.listed))
        os.replace(new, self.list)

    def put_on_list(self, pod):
        self.listed.append(pod)
        self.write()

    def call(self, command, pod="", **members):
        whole = {"cniVersion": "1.1.0", "name": self.network, "type": "calico", "nodename": self.name, "ipam": {"type": "calico-ipam"}}
        env = {"CNI_COMMAND": command, "CNI_CONTAINERID": pod, "CNI_NETNS": "/x", "CNI_IFNAME": "eth0", "CNI_PATH": "/x"}
        with Session(self.address) as session:
            reply = session.ask({"env": env, "stdin": json.dumps({**whole, **members})})
        if reply["status"]:
            raise RuntimeError(f"{command} {pod}: {reply['stdout']}")
        return json.loads(reply["stdout"] or "{}")

    def add(self, pod):
        return self.call("ADD", pod)["ips"][0]["address"].split("/")[0]

    def has(self, pod, address):
        """Whether the pod has this address, by the rows."""
        with Session(self.address) as session:
            told = session.ask({"request": {"check": {"addresses": [address], "handle": f"{self.network}.{pod}"}}})
        return told == {"answer": "checked"}


def collecting(node, *words):
    whole = [COLLECT, "--daemon", node.address, "--network", node.network, "--node", node.name, "--grace", str(GRACE), *words]
    return subprocess.Popen([*whole, "--", "cat", node.list], stdout=subprocess.PIPE, stderr=subprocess.PIPE, text=True)


def one_round(node, number, draw):
    """Pods get addresses at any moment of a collection, and are listed later."""
    leak = f"{node.name}-leak-{number}"
    leaked = node.add(leak)
    count("leaked")
    tool, live = collecting(node, "--allow-none"), {}
    while tool.poll() is None:
        pod = f"{node.name}-pod-{number}-{len(live)}"
        live[pod] = node.add(pod)
        # (later than its ADD, and sooner than the grace)
        time.sleep(draw.uniform(0, GRACE * 0.7))
        node.put_on_list(pod)
    told, faults = tool.communicate()
    wanted = f"freed {leaked} {NETWORK}.{leak}\nfreed 1\n"
    check(f"{node.name}, round {number}: what is freed", told == wanted, (told, faults))
    for pod, address in live.items():
        count("live")
        check(f"{node.name}, round {number}: {pod} has {address}", node.has(pod, address))
    for pod in live:
        node.listed.remove(pod)
        node.write()
        node.call("DEL", pod)


def rounds(node, many, seed):
    draw = random.Random(seed)
    for number in range(many):
        one_round(node, number, draw)


def early_list(node, number):
    """A GC by a list that was made before an ADD frees the address of the pod, which is live."""
    attachments = [{"containerID": pod, "ifname": "eth0"} for pod in node.listed]
    pod = f"early-{number}"
    address = node.add(pod)
    node.put_on_list(pod)
    node.call("GC", **{"cni.dev/valid-attachments": attachments})
    if not node.has(pod, address):
        count("early")
    node.listed.remove(pod)
    node.write()
    node.call("DEL", pod)


# ---- the tool's words


def ran(node, *words):
    tool = collecting(node, *words)
    told, faults = tool.communicate()
    return tool.returncode, told, faults


def by_command(node, *command, words=()):
    whole = [COLLECT, "--network", node.network, "--node", node.name, "--grace", "0", *words, "--", *command]
    one = subprocess.run(whole, capture_output=True, text=True, env={**os.environ, "IPAM_DAEMON": node.address}, check=False)
    return one.returncode, one.stdout, one.stderr


def held(node):
    with Session(node.address) as session:
        return sorted(row["handleID"] for row in session.rows("handle"))


def try_words(address, folder):
    node = Node(address, folder, "node-w")
    beside = [Node(address, folder, "node-x"), Node(address, folder, "node-w", network="other")]
    others = [f"{one.network}.stays-{at}" for at, one in enumerate(beside) if one.add(f"stays-{at}")]
    first, second = node.add("c1"), node.add("c2")
    node.put_on_list("c1")
    everything = sorted([f"{NETWORK}.c1", f"{NETWORK}.c2", *others])
    told = f"{second} {NETWORK}.c2\n"
    check("a dry run", ran(node, "--dry-run")[:2] == (0, f"would free {told}would free 1\n"), "")
    check("a dry run changes nothing", held(node) == everything, held(node))
    refused = {
        "a command that fails": ["sh", "-c", "echo c1; exit 3"],
        "a command that is not there": ["/no/such/command"],
        "a heading": ["printf", "CONTAINER ID  IMAGE\nc1\n"],
        "an empty line": ["printf", "c1\n\n"],
        "no line": ["true"],
    }
    for what, command in refused.items():
        for words in ((), ("--dry-run",)):
            status, out, faults = by_command(node, *command, words=words)
            check(f"{what} {words}", (status, out) == (1, "") and "nothing is freed" in faults, (status, out, faults))
    flip = folder / "once"
    status, out, _ = by_command(node, "sh", "-c", f"test ! -e {flip} && touch {flip} && echo c1")
    check("a second list that fails", (status, out) == (1, ""), (status, out))
    check("what was refused changes nothing", held(node) == everything, held(node))
    nobody = Node("/nowhere/ipam.sock", folder, "node-w")
    check("no daemon", by_command(nobody, "echo", "c1")[:2] == (1, ""))
    check("an unknown word", by_command(node, "echo", "c1", words=("--grace", "501"))[0] == 2)
    check("a run", by_command(node, "echo", "c1")[:2] == (0, f"freed {told}freed 1\n"))
    check("it once more", by_command(node, "echo", "c1")[:2] == (0, "freed 0\n"))
    check("none", by_command(node, "true", words=("--allow-none",))[:2] == (0, f"freed {first} {NETWORK}.c1\nfreed 1\n"))
    check("other nodes and networks keep theirs", held(node) == sorted(others), (held(node), others))


def main():
    words = [word for word in sys.argv[1:] if word != "--quick"]
    quick = len(words) < len(sys.argv) - 1
    program = str(pathlib.Path(words[0] if words else TOP / "release/ipam").resolve())
    many = 2 if quick else 125
    with tempfile.TemporaryDirectory() as place:
        folder, address = pathlib.Path(place), f"{place}/s"
        environment = {**os.environ, "IPAM_DB": f"{place}/ipam.db"}
        subprocess.run([program, "apply"], input=json.dumps(POOL), text=True, env=environment, capture_output=True, check=True)
        daemon = Daemon(program, environment["IPAM_DB"], workers=16, address=address)
        try:
            nodes = [Node(address, folder, f"node-{at}") for at in range(NODES)]
            with concurrent.futures.ThreadPoolExecutor(NODES) as threads:
                for future in [threads.submit(rounds, node, many, at) for at, node in enumerate(nodes)]:
                    future.result()
            early = many * NODES
            for number in range(early):
                early_list(nodes[number % NODES], number)
            check("a list made before an ADD frees its address, each time", counts["early"] == early, counts["early"])
            try_words(address, folder)
        finally:
            daemon.process.kill()
            daemon.process.wait()
    lost = "no live pod lost its address" if not counts["failed"] else "see the failures"
    print(f"{many * NODES} rounds: {counts['leaked']} leaks, {counts['live']} live pods beside them; {lost}")
    print(f"{early} GCs by a list that was made before an ADD freed {counts['early']} addresses of live pods")
    print(f"{counts['passed']} passed, {counts['failed']} failed")
    return counts["failed"] != 0


if __name__ == "__main__":
    sys.exit(main())
