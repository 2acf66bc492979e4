#!/usr/bin/env python3
"""Times ADD and DEL as processes, by the plugin and by the client of a daemon, beside host-local's on the same
disk, with so many addresses held.

    bench/cni.py PROGRAM HOST_LOCAL [HELD..]

All keep their state in a temporary folder. Prints medians in milliseconds over 40 calls of each.
"""
import json
import os
import shutil
import socket
import sqlite3
import statistics
import subprocess
import sys
import tempfile
import time

CALLS = 40
NETWORK, NODE = "bench", "node-a"
DAEMON = "127.0.0.1:9435"
PATIENCE = 10


def await_listener():
    """Returns as soon as the daemon listens."""
    host, port = DAEMON.split(":")
    end = time.monotonic() + PATIENCE
    while True:
        try:
            return socket.create_connection((host, int(port))).close()
        except ConnectionRefusedError:
            if time.monotonic() > end:
                sys.exit("nobody listens")
            time.sleep(0.02)


def text(value):
    return json.dumps(value, separators=(",", ":"), sort_keys=True)


def fill_database(file, held):
    """Rows of a pool, and of blocks of 64 that hold so many addresses, a handle each."""
    base = sqlite3.connect(file)
    base.execute("CREATE TABLE rows(key TEXT PRIMARY KEY, revision INTEGER NOT NULL, body TEXT NOT NULL)")
    rows = [("pools", text({"pools": [{"blockSize": 26, "cidr": "10.0.0.0/16", "disabled": False, "name": "p"}]}))]
    for block in range((held + 63) // 64):
        cidr = f"10.0.{block // 4}.{block % 4 * 64}/26"
        count = min(64, held - block * 64)
        rows.append((f"affinity/{NODE}/{cidr}", text({"cidr": cidr, "node": NODE, "state": "confirmed"})))
        ids = [f"{NETWORK}.h{block * 64 + place}" for place in range(count)]
        rows.append((f"block/{cidr}", text({
            "affinity": f"host:{NODE}",
            "allocations": [place if place < count else None for place in range(64)],
            "attributes": [{"handle_id": one, "secondary": {}} for one in ids],
            "cidr": cidr,
            "sequenceNumber": count,
            "sequenceNumberForAllocation": {str(place): place + 1 for place in range(count)},
            "unallocated": list(range(count, 64)),
        })))
        rows += [(f"handle/{one}", text({"block": {cidr: 1}, "handleID": one})) for one in ids]
    base.executemany("INSERT INTO rows VALUES (?, ?, ?)", [(key, at + 100, body) for at, (key, body) in enumerate(rows)])
    base.commit()
    base.close()


def fill_files(folder, held):
    os.makedirs(f"{folder}/{NETWORK}")
    for at in range(held):
        address = f"10.1.{at // 256}.{at % 256}"
        with open(f"{folder}/{NETWORK}/{address}", "w") as file:
            file.write(f"h{at}\r\neth0")
    if held:
        with open(f"{folder}/{NETWORK}/last_reserved_ip.0", "w") as file:
            file.write(f"10.1.{(held - 1) // 256}.{(held - 1) % 256}")


def timed(command, configuration, environment):
    start = time.perf_counter()
    ran = subprocess.run(command, input=configuration, env=environment, capture_output=True)
    if ran.returncode:
        sys.exit(f"{command}: {ran.stdout.decode()} {ran.stderr.decode()}")
    return (time.perf_counter() - start) * 1000


def medians(command, configuration, environment):
    told = {}
    for word in ("ADD", "DEL"):
        told[word] = statistics.median(
            timed(command, configuration, {**environment, "CNI_COMMAND": word, "CNI_CONTAINERID": f"new{at}"})
            for at in range(CALLS)
        )
    return told


def by_daemon(program, configuration, environment):
    """The medians by the client of a daemon that has the file."""
    quiet = {"stdout": subprocess.DEVNULL, "stderr": subprocess.DEVNULL}
    daemon = subprocess.Popen([program, "serve", DAEMON, "4"], env=environment, **quiet)
    try:
        await_listener()
        return medians([program, "call", DAEMON], configuration, environment)
    finally:
        daemon.kill()
        daemon.wait()


def main():
    program, local = sys.argv[1:3]
    print(f"{'held':>8}{'ADD ms':>10}{'call':>8}{'host-local':>12}{'DEL ms':>10}{'call':>8}{'host-local':>12}")
    for held in [int(one) for one in sys.argv[3:]] or [0, 1000, 10000]:
        folder = tempfile.mkdtemp()
        try:
            fill_database(f"{folder}/ipam.db", held)
            fill_files(f"{folder}/files", held)
            environment = {"CNI_NETNS": "/x", "CNI_IFNAME": "eth0", "CNI_PATH": "/x", "IPAM_DB": f"{folder}/ipam.db"}
            own = {"cniVersion": "1.0.0", "name": NETWORK, "type": "calico", "nodename": NODE, "ipam": {"type": "calico-ipam"}}
            other = {"cniVersion": "1.0.0", "name": NETWORK, "type": "ptp", "ipam": {
                "type": "host-local", "dataDir": f"{folder}/files", "ranges": [[{"subnet": "10.1.0.0/16"}]]}}
            ours = medians([program], json.dumps(own).encode(), environment)
            called = by_daemon(program, json.dumps(own).encode(), environment)
            theirs = medians([local], json.dumps(other).encode(), environment)
            print(f"{held:>8}", end="")
            for word in ("ADD", "DEL"):
                print(f"{ours[word]:>10.1f}{called[word]:>8.1f}{theirs[word]:>12.1f}", end="")
            print(flush=True)
        finally:
            shutil.rmtree(folder)


main()
