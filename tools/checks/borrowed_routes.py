#!/usr/bin/env python3
"""Routes packets between the pods of two nodes, of which one has borrowed an address of the other's block.

    tools/checks/borrowed_routes.py [PROGRAM]      else release/ipam

The pool has a block for each of two nodes. Each node follows the other's routes by `tools/route_feed` and `ip
-batch`. With blocks only, a borrowed pod must be cut off; with all routes each pod must reach each other one as
itself. When the borrowed pod is gone its route must go; when a node releases its block its pod must stay in reach.
With `strictAffinity` the ADD that would borrow must fail. All of it runs in namespaces of its own. It needs root,
iproute2 and Debian's containernetworking-plugins. Prints each check that fails, and then `N passed, M failed`.
"""
import json
import os
import pathlib
import subprocess
import sys
import tempfile

from links import Daemon
from two_nodes import TOP, enter_namespaces, reaches, run, two_nodes, until

POOL = {"kind": "IPPool", "metadata": {"name": "p"}, "spec": {"cidr": "192.168.0.0/29", "blockSize": 30}}
STRICT = {"kind": "IPAMConfig", "metadata": {"name": "default"}, "spec": {"strictAffinity": True}}
counts = {"passed": 0, "failed": 0}


def check(what, holds, seen=""):
    counts["passed" if holds else "failed"] += 1
    if not holds:
        print(f"failed: {what}: {seen}", flush=True)


class Follower:
    """A node that follows the routes of the other one, until it is ended."""

    def __init__(self, node, other, address, *words):
        feed = [*node.enter, TOP / "tools/route_feed", address, other.name, other.address, "--every", "0.5", "--borrowed-every", "1", *words]
        apply = [*node.enter, "ip", "-force", "-batch", "-"]
        self.feed = subprocess.Popen(feed, stdout=subprocess.PIPE)
        self.ip = subprocess.Popen(apply, stdin=self.feed.stdout, stdout=subprocess.DEVNULL, stderr=subprocess.DEVNULL)
        self.node, self.other = node, other

    def routes(self):
        words = [*self.node.enter, "ip", "-4", "route", "show", "via", self.other.address]
        return {line.split()[0] for line in run(words).splitlines()}

    def end(self):
        self.feed.terminate()
        self.feed.wait()
        self.ip.wait()
        for cidr in self.routes():
            run([*self.node.enter, "ip", "route", "del", cidr, "via", self.other.address])


def follow_each_other(nodes, address, *words):
    a, b = nodes
    return [Follower(a, b, address, *words), Follower(b, a, address, *words)]


def each_reaches_each(what, pods):
    for client, own in pods.items():
        for server, address in pods.items():
            if client != server:
                seen = reaches(client, server, address)
                check(f"{what}: {client} reaches {server} as itself", seen == own, seen)


def fails_to_start(node, pod):
    try:
        return node.start(pod)
    except RuntimeError as why:
        return '"code":100' in str(why) or '"code": 100' in str(why) or str(why)


def play(program, folder, address):
    a, b = nodes = two_nodes(folder)
    asked = [program, "--daemon", address]
    for node in nodes:
        run([TOP / "ipam", "install", "--daemon", node.folder / "bin", address])
    pods = {f"a{at}": a.start(f"a{at}") for at in range(4)}
    pods["b0"] = b.start("b0")
    pods["a4"] = borrowed = a.start("a4")
    check("an address is borrowed", borrowed == "192.168.0.5", pods)
    host = {f"{borrowed}/32", borrowed}

    followers = follow_each_other(nodes, address, "--blocks-only")
    check("routes of blocks", until(lambda: len(followers[1].routes()) == 1), followers[1].routes())
    check("with blocks only: pods of own blocks reach each other", reaches("b0", "a0", pods["a0"]) == pods["b0"])
    check("with blocks only: the borrowed pod is cut off", reaches("b0", "a4", borrowed) is None)
    for follower in followers:
        follower.end()

    followers = follow_each_other(nodes, address)
    check("a route of the borrowed address", until(lambda: followers[1].routes() & host), followers[1].routes())
    each_reaches_each("with all routes", pods)
    a.remove(pod := "a4")
    del pods[pod]
    check("the route goes with the pod", until(lambda: not followers[1].routes() & host), followers[1].routes())
    pods[pod] = borrowed = a.start(pod)
    check("it comes again", until(lambda: followers[1].routes() & {borrowed}), (borrowed, followers[1].routes()))
    each_reaches_each("again", {name: pods[name] for name in ("b0", "a0", "a4")})

    run([*asked, "release", "node-a", "192.168.0.0/30"])
    wanted = {address for pod, address in pods.items() if pod[0] == "a"}
    check("a released block: a route for each of its pods", until(lambda: followers[1].routes() == wanted), followers[1].routes())
    each_reaches_each("a released block", {name: pods[name] for name in ("b0", "a0", "a4")})
    for follower in followers:
        follower.end()

    run([*asked, "apply"], json.dumps(STRICT))
    for pod in list(pods):
        (a if pod[0] == "a" else b).remove(pod)
    for at in range(4):
        a.start(f"s{at}")
    b.start("t0")
    check("with strictAffinity nothing is borrowed", fails_to_start(a, "s4") is True, run([*asked, "show", "blocks"]))


def main():
    enter_namespaces(__file__)
    program = str(pathlib.Path(sys.argv[1] if len(sys.argv) > 1 else TOP / "release/ipam").resolve())
    with tempfile.TemporaryDirectory(prefix="n") as place:
        folder, address = pathlib.Path(place), f"{place}/s"
        environment = {**os.environ, "IPAM_DB": f"{place}/ipam.db"}
        subprocess.run([program, "apply"], input=json.dumps(POOL), text=True, env=environment, capture_output=True, check=True)
        daemon = Daemon(program, environment["IPAM_DB"], workers=8, address=address)
        try:
            play(program, folder, address)
        finally:
            daemon.process.kill()
            daemon.process.wait()
    print(f"{counts['passed']} passed, {counts['failed']} failed")
    return counts["failed"] != 0


if __name__ == "__main__":
    sys.exit(main())
