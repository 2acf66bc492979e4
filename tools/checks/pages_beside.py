#!/usr/bin/env python3
"""Reads pages of rows of a daemon while sixteen sessions add and delete, and looks that they fit together.

A page has the rows that stood at its revision. So of one key no two pages may contradict each other: where
one page has its row with a revision, no earlier row of it, and not its absence, is told at that revision
or later. The keys of a page rise, and none has a revision above the page's. At the end nobody writes any
more: then the pages must be the rows of the file.

    tools/checks/pages_beside.py [PROGRAM] [SECONDS]

The last line says how many pages were read and how many contradictions there were.
"""

import json
import os
import socket
import subprocess
import sys
import tempfile
import threading
import time
from pathlib import Path

TOP = Path(__file__).resolve().parent.parent.parent
sys.path.insert(0, str(TOP / "tools/second"))
# pylint: disable=wrong-import-position
from second_records import order_of

KINDS = ("config", "pools", "reservations", "block", "affinity", "handle")
WRITERS = 16


class Session:
    """A session at a socket file."""

    def __init__(self, path):
        self.socket = socket.socket(socket.AF_UNIX)
        self.socket.connect(path)
        self.lines = self.socket.makefile("rb")

    def ask(self, line):
        self.socket.sendall(json.dumps(line).encode() + b"\n")
        return json.loads(self.lines.readline())

    def end(self):
        self.lines.close()
        self.socket.close()


class Seen:
    """What pages told of each key: at which revision of the datastore which revision of its row, or None."""

    def __init__(self):
        self.told, self.pages, self.wrong = {}, 0, 0

    def fault(self, *what):
        self.wrong += 1
        print(*what)

    def look(self, at, key, revision, body):
        # (one session reads, so the pages before are of no later revision)
        for before, other, other_body in self.told.setdefault(key, []):
            if before > at or revision is not None and revision <= before and revision != other:
                self.fault("contradiction", key, (before, other), (at, revision))
            if revision is not None and revision == other and body != other_body:
                self.fault("two rows of one revision", key, revision)
        self.told[key] = [*self.told[key][-4:], (at, revision, body)]

    def page(self, kind, after, reply):
        self.pages += 1
        at, rows = reply["revision"], reply["rows"]
        keys = [row["key"] for row in rows]
        order = [order_of(key) for key in ([after] if after else []) + keys]
        if any(one >= other for one, other in zip(order, order[1:])) or any(row["revision"] > at for row in rows):
            self.fault("page out of order", reply)
        for row in rows:
            self.look(at, row["key"], row["revision"], row["body"])
        for key in set(self.told) - set(keys):
            behind = after is None or order_of(key) > order_of(after) if key.split("/")[0] == kind else False
            if behind and ("more" not in reply or order_of(key) < order[-1]):
                self.look(at, key, None, None)


def listed(session, seen):
    """All rows, page by page."""
    rows = []
    for kind in KINDS:
        after = None
        while True:
            reply = session.ask({"rows": kind, **({"after": after} if after else {})})
            seen.page(kind, after, reply)
            rows += reply["rows"]
            if "more" not in reply:
                break
            after = rows[-1]["key"]
    return rows


def write(path, number, end):
    session, turn = Session(path), 0
    while time.monotonic() < end:
        turn += 1
        handle = f"n.c{number}-{turn % 5}"
        session.ask({"request": {"add": {"handle": handle, "node": f"node{number % 4}"}}})
        if turn % 3:
            session.ask({"request": {"del": {"handle": handle}}})
    session.end()


def main():
    program = os.path.abspath(sys.argv[1]) if len(sys.argv) > 1 else str(TOP / "release/ipam")
    seconds = float(sys.argv[2]) if len(sys.argv) > 2 else 10
    with tempfile.TemporaryDirectory() as folder:
        path, database = f"{folder}/ipam.sock", f"{folder}/ipam.db"
        environment = {**os.environ, "IPAM_DB": database}
        subprocess.run([program, "apply"], env=environment, check=True, stdout=subprocess.DEVNULL,
                       input=json.dumps({"kind": "IPPool", "metadata": {"name": "p"}, "spec": {"cidr": "10.0.0.0/22", "blockSize": 30}}).encode())
        with subprocess.Popen([program, "serve", path, "16"], env=environment) as daemon:
            while not os.path.exists(path):
                time.sleep(0.05)
            seen, end = Seen(), time.monotonic() + seconds
            writers = [threading.Thread(target=write, args=(path, number, end)) for number in range(WRITERS - 1)]
            for writer in writers:
                writer.start()
            reader = Session(path)
            while time.monotonic() < end:
                listed(reader, seen)
            for writer in writers:
                writer.join()
            rows = listed(reader, seen)
            reader.end()
            daemon.kill()
        found = subprocess.run([program, "get"], env=environment, check=True, capture_output=True, text=True).stdout.splitlines()
    told = sorted(f"{row['key']} {row['revision']} {row['body']}" for row in rows)
    if told != sorted(found):
        seen.fault("the last pages are not the rows of the file")
    print(f"{seen.pages} pages, {len(seen.told)} keys, {seen.wrong} contradictions")
    return 1 if seen.wrong else 0


if __name__ == "__main__":
    sys.exit(main())
