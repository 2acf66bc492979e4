#!/usr/bin/env python3
"""Tries how processes wait for their turn at a database file: calls of the plugin beside commands in loops, and
beside calls that are killed; the file of a daemon; the word --no-wait; a turn that does not come.

    tools/checks/database_turns.py [--quick] [PROGRAM]      else release/ipam

Prints each test that fails, then how many calls had which end, and `N passed, M failed`. Without --quick it takes
some minutes, one of which is spent on a turn that does not come.
"""
import fcntl
import json
import os
import pathlib
import shutil
import signal
import subprocess
import sys
import tempfile
import threading
import time

TOP = pathlib.Path(__file__).resolve().parents[2]
CONFIGURATION = {"cniVersion": "1.0.0", "name": "n", "type": "calico", "nodename": "a", "ipam": {"type": "calico-ipam"}}
CALL = {"CNI_COMMAND": "ADD", "CNI_IFNAME": "eth0", "CNI_NETNS": "/x", "CNI_PATH": "/x"}
VERSIONS = ("0.3.0", "0.3.1", "0.4.0", "1.0.0", "1.1.0")
# where a database file is locked, as SQLite does it
LOCKED_FROM, LOCKED_BYTES = 1 << 30, 512
# what waits for no turn takes far less than a minute, also on a machine that is busy
AT_ONCE = 20
passed = failed = 0


def check(what, holds, seen=""):
    global passed, failed
    if holds:
        passed += 1
    else:
        failed += 1
        print(f"failed: {what}: {seen!r}")


def is_same(what, seen, wanted):
    check(what, seen == wanted, (seen, wanted))


class Node:
    """A plugin and its database, in a folder of their own."""

    def __init__(self, program, folder):
        os.makedirs(folder / "bin")
        self.program, self.folder = program, folder
        self.rows, self.plugin = folder / "ipam.db", folder / "bin/calico-ipam"
        shutil.copy(program, self.plugin)
        (folder / "bin/calico-ipam.conf").write_text(f"database {self.rows}\n")
        pool = (TOP / "examples/pool.json").read_bytes()
        is_same("apply", self.run(["apply"], pool)[:2], (0, b"applied IPPool default-ipv4-ippool\n"))

    def environment(self, variables):
        own = {key: value for key, value in os.environ.items() if not key.startswith("IPAM_")}
        return {**own, **variables}

    def start(self, words, variables):
        return subprocess.Popen(
            [str(word) for word in words], stdin=subprocess.PIPE, stdout=subprocess.PIPE, stderr=subprocess.PIPE,
            env=self.environment(variables), cwd="/",
        )

    def run(self, words, stdin=b"", **variables):
        """A command over the database: its status, its output, standard error and how long it took."""
        begun = time.monotonic()
        one = self.start([self.program, *words], {"IPAM_DB": str(self.rows), **variables})
        stdout, stderr = one.communicate(stdin)
        return one.returncode, stdout, stderr.decode(), time.monotonic() - begun

    def call(self, container, word="ADD", configuration=CONFIGURATION):
        """A call of the plugin, likewise."""
        begun = time.monotonic()
        one = self.start([self.plugin], {**CALL, "CNI_COMMAND": word, "CNI_CONTAINERID": container})
        stdout, stderr = one.communicate(json.dumps(configuration).encode())
        return one.returncode, stdout, stderr.decode(), time.monotonic() - begun

    def turn(self):
        """The turn, held by this process as a script holds it by flock."""
        held = open(f"{self.rows}.turn", "a")
        fcntl.flock(held, fcntl.LOCK_EX)
        return held

    def file(self):
        """The database file, held by this process without the turn."""
        held = open(self.rows, "r+b")
        fcntl.lockf(held, fcntl.LOCK_EX, LOCKED_BYTES, LOCKED_FROM)
        return held


def code_of(ended):
    """The code of a call's end: 0 where it succeeded, None where its reply is no JSON."""
    status, stdout = ended[:2]
    try:
        return 0 if status == 0 else json.loads(stdout)["code"]
    except (ValueError, KeyError):
        return None


def tallied(codes):
    return {str(code): codes.count(code) for code in sorted(set(codes), key=str)}


def release_after(seconds, held):
    timer = threading.Timer(seconds, held.close)
    timer.start()
    return timer


def try_beside(node, adds):
    """ADDs of the plugin by two callers, beside commands in loops."""
    over, ended, copies = threading.Event(), [], node.folder / "copies"
    os.makedirs(copies)

    def loop(words_of):
        number = 0
        while not over.is_set():
            number += 1
            ended.append((words_of(number), *node.run(words_of(number))[:3]))

    def call_all(name, codes):
        for number in range(adds // 2):
            codes.append(code_of(node.call(f"{name}{number}")))

    kinds = (
        lambda _: ["show"], lambda _: ["get"], lambda _: ["audit", "2"],
        lambda number: ["backup", str(copies / f"{number}.db")],
    )
    loops = [threading.Thread(target=loop, args=(kind,)) for kind in kinds]
    codes = [[], []]
    callers = [threading.Thread(target=call_all, args=(f"b{at}-", codes[at])) for at in range(2)]
    for one in loops + callers:
        one.start()
    for one in callers:
        one.join()
    over.set()
    for one in loops:
        one.join()
    codes = codes[0] + codes[1]
    print(f"{len(codes)} ADDs beside {len(ended)} commands in loops: by code {tallied(codes)}")
    is_same("each ADD beside commands has an address", tallied(codes), {"0": adds // 2 * 2})
    is_same("each command in a loop is done", [one for one in ended if one[1] != 0][:3], [])
    handles = node.run(["get", "handle"])[1].decode().splitlines()
    is_same("each ADD is in the rows", len(handles), adds // 2 * 2)


def try_kills(node, kills):
    """Calls that are killed while others wait."""
    codes = []

    def call_all(name):
        while not over.is_set():
            codes.append(code_of(node.call(f"{name}{len(codes)}")))

    over = threading.Event()
    waiting = [threading.Thread(target=call_all, args=(f"k{at}-",)) for at in range(3)]
    for one in waiting:
        one.start()
    for number in range(kills):
        victim = node.start([node.plugin], {**CALL, "CNI_CONTAINERID": f"v{number}"})
        victim.stdin.write(json.dumps(CONFIGURATION).encode())
        victim.stdin.close()
        time.sleep(0.002 + number % 23 * 0.003)
        victim.send_signal(signal.SIGKILL)
        victim.wait()
        victim.stdout.close()
        victim.stderr.close()
    over.set()
    for one in waiting:
        one.join()
    print(f"{len(codes)} ADDs beside {kills} kills: by code {tallied(codes)}")
    is_same("each ADD beside kills has an address", tallied(codes), {"0": len(codes)})


def try_held(node):
    """A turn and a file that others have for a while."""
    held = node.turn()
    timer = release_after(2.6, held)
    status, stdout, stderr, seconds = node.run(["get", "config"])
    timer.join()
    is_same("get waits for its turn", (status, stdout, stderr), (0, b"", f"ipam: {node.rows}: waiting for another process\n"))
    check("get waits until the turn is there", 2 < seconds, seconds)
    held = node.turn()
    timer = release_after(0.4, held)
    ended = node.call("h1")
    timer.join()
    is_same("an ADD waits for its turn, and tells nothing of it", (code_of(ended), ended[2]), (0, ""))
    held = node.file()
    timer = release_after(0.4, held)
    ended = node.call("h2")
    timer.join()
    is_same("an ADD waits for a file that another has without the turn", (code_of(ended), ended[2]), (0, ""))
    check("it waits until the file is free", 0.3 < ended[3], ended[3])


def try_without_turn(node):
    """What is answered at once while another has the turn."""
    held = node.turn()
    bad = {**CONFIGURATION, "nodename": 5}
    for what, ended, code in (
        ("a bad configuration", node.call("w", configuration=bad), 7),
        ("no configuration", node.call("w", configuration=[]), 6),
        ("VERSION", node.call("w", "VERSION"), 0),
    ):
        is_same(f"{what} waits for no turn", code_of(ended), code)
        check(f"{what} is answered at once", ended[3] < AT_ONCE, ended[3])
    ended = node.run(["--no-wait", "get", "config"])
    is_same("--no-wait takes no turn", ended[:3], (0, b"", ""))
    ended = node.run(["play"])
    check("play waits for no turn", ended[0] == 0 and ended[3] < AT_ONCE, ended)
    link = node.folder / "other.db"
    link.symlink_to(node.rows)
    timer = release_after(0.4, held)
    ended = node.run(["get", "config"], IPAM_DB=str(link))
    timer.join()
    check("who names a link to the file has the same turn", ended[0] == 0 and 0.3 < ended[3], ended)
    link.unlink()
    held = node.file()
    ended = node.run(["--no-wait", "get"])
    line = f"ipam: {node.rows}: another process has the database file open\n"
    is_same("--no-wait is refused at once", ended[:3], (5, b"keeper fault\n", line))
    check("--no-wait does not wait", ended[3] < AT_ONCE, ended[3])
    held.close()
    missing = node.folder / "none.db"
    is_same("a file that is not there is read as no rows", node.run(["get"], IPAM_DB=str(missing))[:2], (0, b""))
    is_same("and no turn is taken at it", [name for name in os.listdir(node.folder) if name.startswith("none")], [])
    ended = node.run(["get"], IPAM_DB=str(node.folder / "no folder/ipam.db"))
    check("a path in no folder waits for nothing", ended[3] < AT_ONCE, ended)


def try_daemon(node):
    """A daemon has the file: commands are told so at once, and which."""
    address = str(node.folder / "ipam.sock")
    daemon = node.start([node.program, "serve", address, "2"], {"IPAM_DB": str(node.rows)})
    daemon.stdin.close()
    for _ in range(200):
        if os.path.exists(address):
            break
        time.sleep(0.05)
    for what, ended, wanted in (
        ("show", node.run(["show"]), (5, b"keeper fault\n")),
        ("serve", node.run(["serve", address + "2", "2"]), (5, b"keeper fault\n")),
        ("an ADD", node.call("d"), None),
    ):
        if wanted is None:
            is_same(f"{what} beside a daemon", code_of(ended), 5)
        else:
            is_same(f"{what} beside a daemon", ended[:2], wanted)
        check(f"{what} beside a daemon is told at once", ended[3] < AT_ONCE, ended[3])
        check(f"{what} beside a daemon names it", f"a daemon has the database file open: ask it by ipam --daemon {address} " in ended[2], ended[2])
    link = node.folder / "link.db"
    link.symlink_to(node.rows)
    ended = node.run(["show"], IPAM_DB=str(link))
    check("who names a link to the file sees the daemon at once", ended[0] == 5 and ended[3] < AT_ONCE and address in ended[2], ended)
    is_same("the daemon is asked", node.run(["--daemon", address, "get", "config"])[0], 0)
    configuration = node.folder / "bin/calico-ipam.conf"
    configuration.write_text(f"daemon {address}\n")
    is_same("the plugin asks the daemon that its configuration names", code_of(node.call("f")), 0)
    configuration.write_text(f"database {node.rows}\r\n")
    seen = code_of(node.call("r")), os.path.exists(f"{node.rows}\r")
    is_same("a line of the plugin with a carriage return names no database", seen, (5, False))
    configuration.write_text(f"database {node.rows}\n")
    # (the daemon gave its turn back)
    node.turn().close()
    daemon.send_signal(signal.SIGKILL)
    daemon.wait()
    daemon.stdout.close()
    daemon.stderr.close()
    is_same("once it was killed the file is free", code_of(node.call("e")), 0)


def try_no_turn(node):
    """A turn that does not come within 60 seconds."""
    held = node.turn()
    ends = {}

    def keep(name, ended):
        ends[name] = ended

    tries = [
        threading.Thread(target=lambda version=version: keep(version, node.call("n", configuration={**CONFIGURATION, "cniVersion": version})))
        for version in VERSIONS
    ]
    bare = {**CALL, "CNI_CONTAINERID": "n"}
    tries.append(threading.Thread(target=lambda: keep("cni", node.run(["cni"], json.dumps(CONFIGURATION).encode(), **bare))))
    tries.append(threading.Thread(target=lambda: keep("show", node.run(["show"]))))
    for one in tries:
        one.start()
    for one in tries:
        one.join()
    held.close()
    busy = f"ipam: {node.rows}: the database is busy: other processes had it for 60 seconds, so that no turn came\n"
    for version in VERSIONS:
        reply = f'{{"cniVersion":"{version}","code":11,"details":"the database is busy","msg":"try again later"}}\n'
        is_same(f"no turn at {version}", ends[version][:3], (1, reply.encode(), busy))
    is_same("no turn of cni", (code_of(ends["cni"]), ends["cni"][2]), (5, busy))
    waits = f"ipam: {node.rows}: waiting for another process\n"
    is_same("no turn of show", ends["show"][:3], (5, b"keeper fault\n", waits + busy))
    for name, ended in ends.items():
        check(f"no turn of {name} takes a minute", 59 < ended[3], ended[3])


def main():
    words = [word for word in sys.argv[1:] if word != "--quick"]
    is_quick = "--quick" in sys.argv[1:]
    program = pathlib.Path(words[0] if words else TOP / "release/ipam").resolve()
    work = pathlib.Path(tempfile.mkdtemp()).resolve()
    try:
        try_without_turn(Node(program, work / "without"))
        try_daemon(Node(program, work / "daemon"))
        try_held(Node(program, work / "held"))
        try_beside(Node(program, work / "beside"), 30 if is_quick else 1000)
        try_kills(Node(program, work / "kills"), 15 if is_quick else 200)
        if not is_quick:
            try_no_turn(Node(program, work / "no-turn"))
    finally:
        shutil.rmtree(work)
    print(f"{passed} passed, {failed} failed")
    return failed != 0


sys.exit(main())
