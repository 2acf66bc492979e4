#!/usr/bin/env python3
"""Runs the operator's words over a file and over a daemon that holds a copy of it, and compares them.

Twenty datastores are made with pools, reservations and calls. On each, the same words run twice: over
the file, and over a daemon at a socket file. Both must write the same bytes, end with the same status
and leave the same rows, revisions aside. Then a few words run where nobody answers, or where something else does.

    tools/checks/asked_words.py [PROGRAM] [BASES]

The last line says how many comparisons passed and how many failed.
"""

import json
import os
import random
import shutil
import socket
import subprocess
import sys
import tempfile
import threading
import time
from pathlib import Path

TOP = Path(__file__).resolve().parent.parent.parent
KINDS = ("config", "pools", "reservations", "block", "affinity", "handle")
CONFIGURATION = {"cniVersion": "1.0.0", "name": "n", "ipam": {"type": "calico-ipam"}}
counts = {"passed": 0, "failed": 0}


def compare(what, one, other):
    if one == other:
        counts["passed"] += 1
    else:
        counts["failed"] += 1
        print(f"{what}\n  over the file:   {one!r}\n  over the daemon: {other!r}")


def pool(name, cidr, size=None):
    spec = {"cidr": cidr} if size is None else {"cidr": cidr, "blockSize": size}
    return {"kind": "IPPool", "metadata": {"name": name}, "spec": spec}


def reservation(name, cidrs):
    return {"kind": "IPReservation", "metadata": {"name": name}, "spec": {"reservedCIDRs": cidrs}}


def several(items):
    return {"kind": "List", "apiVersion": "v1", "items": items}


class Words:
    """The program over a file, or over a daemon."""

    def __init__(self, program, database, address=None):
        self.program, self.address = program, address
        self.environment = {"IPAM_DB": str(database), "PATH": "/usr/bin:/bin"}

    def run(self, words, given="", by_environment=False, **more):
        environment = {**self.environment, **more}
        asked = []
        if self.address and by_environment:
            environment["IPAM_DAEMON"] = str(self.address)
        elif self.address:
            asked = ["--daemon", str(self.address)]
        ran = subprocess.run([self.program, *asked, *words], input=given.encode(), env=environment, capture_output=True, timeout=60)
        return ran.returncode, ran.stdout.decode()


def make(program, database, draw):
    """A datastore with pools and addresses."""
    words = Words(program, database)
    pools = [pool("p", "10.0.0.0/24", draw.choice([26, 28, 30])), pool("q", "fd00::/64")]
    words.run(["apply"], json.dumps(several(pools[: draw.randint(1, 2)])))
    if draw.random() < 0.5:
        words.run(["apply"], json.dumps(reservation("r", ["10.0.0.0/30"])))
    for number in range(draw.randint(0, 12)):
        node = draw.choice("abc")
        words.run(
            [], json.dumps({**CONFIGURATION, "nodename": node}), CNI_COMMAND="ADD", CNI_CONTAINERID=f"c{number}",
            CNI_NETNS="/n", CNI_IFNAME="eth0", CNI_PATH="/opt/cni/bin",
        )


def rows_of(program, database):
    """Keys and bodies. Each word over a file opens it anew and goes on from its greatest revision, so a
    deletion at the end of a word leaves no revision behind, as it does in a daemon."""
    lines = Words(program, database).run(["get"])[1].splitlines()
    return [(key, body) for key, _, body in (line.split(" ", 2) for line in lines)]


def blocks_of(program, database):
    told = Words(program, database).run(["get", "affinity"])[1]
    return [line.split(" ")[0].split("/", 2)[1:] for line in told.splitlines()]


def looks(blocks):
    """Words that only look, but `get`."""
    yield ["show"]
    yield ["show", "--json"]
    yield ["show", "blocks"]
    yield ["show", "config"]
    yield ["show", "config", "--json"]
    yield ["audit", "2"]
    for node in ("a", "b", "none"):
        yield ["show", "node", node]
        yield ["show", "node", node, "--json"]
    for handle in ("n.c0", "n.c1", "none"):
        yield ["show", "handle", handle]
        yield ["show", "handle", handle, "--json"]
    for _, cidr in blocks[:2]:
        yield ["show", cidr.split("/")[0]]
    for address in ("10.0.0.1", "10.0.0.77", "10.0.1.0", "fd00::", "fd00::1:0:0:0:1"):
        yield ["show", address]
    for words in (["addresses"], ["addresses", "10.0.0.0/28"], ["addresses", "--node", "a"], ["borrowed"]):
        yield ["show", *words]
        yield ["show", *words, "--json"]


def questions(draw, blocks):
    """Words with their input. Revisions are told before anything changes: a deletion leaves none in a file."""
    yield ["get"], ""
    for kind in KINDS:
        yield ["get", kind], ""
    yield ["show", "--metrics"], ""
    for words in looks(blocks):
        yield words, ""
    yield ["routes", "a"], ""
    yield ["routes", "none"], ""
    for node, cidr in blocks[:2]:
        yield ["release", node, cidr], ""
        yield ["release", node, cidr], ""
        yield ["routes", node], ""
    yield ["release", "a", "10.9.0.0/30"], ""
    yield ["apply"], json.dumps(pool("s", f"10.{draw.randint(1, 9)}.0.0/24"))
    yield ["apply"], json.dumps(several([pool("t", "10.20.0.0/24"), pool("u", "10.0.0.0/16"), pool("v", "10.30.0.0/24")]))
    yield ["apply"], json.dumps(pool("p", "10.40.0.0/24"))
    yield ["apply"], json.dumps(reservation("x", ["10.50.0.0/24", "10.0.0.9"]))
    for name in ("x", "x", "r", "none"):
        yield ["unreserve", name], ""
        yield ["show", "10.0.0.9"], ""
    yield ["apply"], json.dumps(pool("w", "10.0.0.1/24"))
    yield ["apply"], "{"
    yield ["apply"], ""
    yield ["routes", "b"], ""
    for words in looks(blocks):
        yield words, ""


def compare_backups(program, folder, number, words):
    """Backs up over the file and over the daemon. Each new database has the rows that are there, and is not made anew."""
    files = {side: folder / f"backup-{number}-{side}.db" for side in words}
    saved = {side: words[side].run(["backup", str(files[side])]) for side in words}
    compare(f"base {number}: backup", saved["file"], saved["daemon"])
    for side in words:
        compare(f"base {number}: the rows of a backup over the {side}", words[side].run(["get"]), Words(program, files[side]).run(["get"]))
        compare(f"base {number}: a backup that is there", (1, "file exists\n"), words[side].run(["backup", str(files[side])]))
    compare(f"base {number}: a backup in no folder", *(words[side].run(["backup", str(folder / "none" / "b.db")]) for side in words))


def serve(program, database, address):
    daemon = subprocess.Popen(
        [program, "serve", str(address), "2"], env={"IPAM_DB": str(database), "PATH": "/usr/bin:/bin"},
        stdout=subprocess.DEVNULL, stderr=subprocess.DEVNULL,
    )
    for _ in range(500):
        with socket.socket(socket.AF_UNIX) as link:
            try:
                link.connect(str(address))
                return daemon
            except OSError:
                time.sleep(0.01)
    sys.exit("the daemon does not answer")


def try_base(program, folder, number):
    draw = random.Random(number)
    one, other, address = folder / f"one-{number}.db", folder / f"other-{number}.db", folder / f"{number}.sock"
    make(program, one, draw)
    Words(program, one).run(["get"])
    for end in ("", "-wal"):
        if os.path.exists(f"{one}{end}"):
            shutil.copyfile(f"{one}{end}", f"{other}{end}")
    daemon = serve(program, other, address)
    try:
        over_file, over_daemon = Words(program, one), Words(program, other, address)
        for count, (words, given) in enumerate(questions(draw, blocks_of(program, one))):
            compare(f"base {number}: {' '.join(words)}", over_file.run(words, given), over_daemon.run(words, given, count % 2 == 1))
        compare_backups(program, folder, number, {"file": over_file, "daemon": over_daemon})
    finally:
        daemon.kill()
        daemon.wait()
    compare(f"base {number}: the rows afterwards", rows_of(program, one), rows_of(program, other))


def answer_once(server, replies):
    link, _ = server.accept()
    with link:
        for reply in replies:
            link.recv(65536)
            link.sendall(reply)
        # (what is asked then is taken and has no reply: a link that is closed at once would fail in the write)
        link.shutdown(socket.SHUT_WR)
        while link.recv(65536):
            pass


def asked_of_stranger(program, folder, number, words, replies):
    """What the words come to where each line is answered by the next of these."""
    address = folder / f"stranger-{number}.sock"
    with socket.socket(socket.AF_UNIX) as server:
        server.bind(str(address))
        server.listen(1)
        thread = threading.Thread(target=answer_once, args=(server, replies))
        thread.start()
        got = Words(program, folder / "none.db", address).run(words)
        thread.join()
    return got


STRANGE = (b"", b"{}\n", b"HTTP/1.1 400 Bad Request\r\n\r\n", b'{"answer":"checked"}\n', b"\xff\n", b'{"answer":"released"}')


def row(key, body="B"):
    return {"body": body, "key": key, "revision": 1}


def page(rows, more=False):
    return json.dumps({"revision": 9, "rows": rows, **({"more": True} if more else {})}).encode() + b"\n"


def try_strangers(program, folder):
    """Nobody answers, or something else does."""
    nobody = Words(program, folder / "none.db", folder / "none.sock")
    nobody.environment["IPAM_CONNECT_SECONDS"] = "0"
    compare("nobody answers", (10, "link fault\n"), nobody.run(["routes", "a"]))
    compare("nobody answers apply", (10, "link fault\n"), nobody.run(["apply"], json.dumps(pool("p", "10.0.0.0/24"))))
    copy = folder / "copy.db"
    for words in (["get"], ["get", "block"], ["show"], ["show", "10.0.0.1"], ["audit", "2"], ["unreserve", "r"], ["backup", str(copy)]):
        compare(f"nobody answers {words}", (10, "link fault\n"), nobody.run(words))
    compare("nobody answers a backup: its file", False, copy.exists())
    compare("a word that no daemon is asked", (2, "unknown words\n"), nobody.run(["gen", "2"]))
    for words in (["audit", "0"], ["unreserve", "a/b"], ["backup"], ["backup", "--json"], ["backup", "-"], ["backup", "a", "b"]):
        compare(f"unknown {words}", (2, "unknown words\n"), nobody.run(words))
    compare("no word", (2, "unknown words\n"), nobody.run([]))
    for number, reply in enumerate(STRANGE):
        compare(f"a reply {reply!r}", (11, "reply fault\n"), asked_of_stranger(program, folder, f"r{number}", ["release", "a", "10.0.0.0/30"], [reply]))
    first = page([row("handle/a")], more=True)
    for number, replies in enumerate([[reply] for reply in STRANGE] + [
        [page([row("block/10.0.0.0/30")])],
        [page([row("handle/b"), row("handle/a")])],
        [first],
        [first, page([], more=True)],
        [first, page([row("handle/a")])],
        [first, page([row("handle/b")])[:-1]],
    ]):
        got = asked_of_stranger(program, folder, f"g{number}", ["get", "handle"], replies)
        compare(f"get handle, replies {replies!r}", (11, "reply fault\n"), got)
    for number, words in enumerate((["audit", "2"], ["unreserve", "r"], ["backup", str(copy)])):
        for more, reply in enumerate(STRANGE):
            got = asked_of_stranger(program, folder, f"u{number}-{more}", words, [reply])
            compare(f"{words}, a reply {reply!r}", (11, "reply fault\n"), got)
    compare("a backup of a stranger: its file", False, copy.exists())
    got = asked_of_stranger(program, folder, "two", ["get", "handle"], [first, page([row("handle/b")])])
    compare("get handle, two pages", (0, "handle/a 1 B\nhandle/b 1 B\n"), got)
    long = page([row("handle/a", "B" * 3_000_000)])
    compare("get handle, a long row", (0, f"handle/a 1 {'B' * 3_000_000}\n"), asked_of_stranger(program, folder, "long", ["get", "handle"], [long]))


def main():
    program = os.path.abspath(sys.argv[1]) if len(sys.argv) > 1 else str(TOP / "release/ipam")
    bases = int(sys.argv[2]) if len(sys.argv) > 2 else 20
    with tempfile.TemporaryDirectory(prefix="ipam-asked-") as folder:
        for number in range(bases):
            try_base(program, Path(folder), number)
        try_strangers(program, Path(folder))
    print(f"{counts['passed']} passed, {counts['failed']} failed")
    return 1 if counts["failed"] else 0


if __name__ == "__main__":
    sys.exit(main())
