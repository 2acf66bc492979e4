#!/usr/bin/env python3
"""What a client does where nobody listens yet, where a listener takes no connection, and what fits a line.

    tools/checks/reach_daemon.py [--quick] [PROGRAM]      else release/ipam

With --quick it leaves out what waits for whole limits: 10 and 30 seconds, and calls beside a daemon that stops for 5
seconds. Prints each test that fails, and then `N passed, M failed`.
"""
import contextlib
import json
import os
import pathlib
import re
import socket
import subprocess
import sys
import tempfile
import threading
import time

TOP = pathlib.Path(__file__).resolve().parents[2]
CONFIGURATION = b'{"cniVersion":"1.0.0","name":"n","nodename":"a","ipam":{"type":"calico-ipam"}}'
NO_LINK = b'{"cniVersion":"1.0.0","code":111,"details":"link","msg":"no reply from the daemon"}\n'
UNDECODABLE = b'{"cniVersion":"1.0.0","code":6,"details":"","msg":"cannot decode network configuration"}\n'
LINE = 2**20
passed = failed = 0


def check(what, holds, seen=""):
    global passed, failed
    if holds:
        passed += 1
    else:
        failed += 1
        print(f"failed: {what}: {seen!r}", flush=True)


def is_same(what, seen, wanted):
    check(what, seen == wanted, (seen, wanted))


def variables(**more):
    """The environment of a call; with None a variable is not there."""
    env = {"PATH": "/usr/bin:/bin", "CNI_COMMAND": "ADD", "CNI_CONTAINERID": "c", "CNI_NETNS": "/x", "CNI_IFNAME": "eth0", **more}
    return {name: value for name, value in env.items() if value is not None}


def timed(words, stdin, env):
    """What the program tells, and after how many seconds."""
    begun = time.monotonic()
    ran = subprocess.run(words, input=stdin, env=env, capture_output=True, timeout=120)
    return (ran.returncode, ran.stdout), time.monotonic() - begun


def free_port():
    with socket.socket() as one:
        one.bind(("127.0.0.1", 0))
        return one.getsockname()[1]


def apply_pool(program, rows):
    with open(TOP / "examples/pool.json", "rb") as pool:
        subprocess.run([program, "apply"], stdin=pool, env={"IPAM_DB": rows}, check=True, capture_output=True)


@contextlib.contextmanager
def serving(program, rows, address):
    daemon = subprocess.Popen([program, "serve", address, "4"], env={"IPAM_DB": rows}, stdout=subprocess.DEVNULL, stderr=subprocess.DEVNULL)
    try:
        yield daemon
    finally:
        daemon.kill()
        daemon.wait()


def try_late(program, folder, rows, address):
    """A daemon that comes half a second after the client."""
    told = []
    for words, stdin in ((["call", address], CONFIGURATION), (["--daemon", address, "get", "pools"], b"")):
        env = variables(CNI_COMMAND="DEL")
        client = threading.Thread(target=lambda: told.append(timed([program, *words], stdin, env)))
        client.start()
        time.sleep(0.5)
        with serving(program, rows, address):
            client.join()
    (call, waited), (got, waited_too) = told
    is_same(f"a call of a daemon at {address} that comes late", call, (0, b""))
    check(f"get of a daemon at {address} that comes late", got[0] == 0 and got[1].startswith(b"pools "), got)
    check(f"both wait for the daemon at {address}", 0.4 < waited < 3 and 0.4 < waited_too < 3, (waited, waited_too))


def try_nobody(program, folder, seconds, least, most):
    """Nobody listens, however long the client tries."""
    env = variables(IPAM_CONNECT_SECONDS=seconds)
    for address in (f"{folder}/none.sock", f"{folder}/none/none.sock", f"127.0.0.1:{free_port()}"):
        told, waited = timed([program, "call", address], CONFIGURATION, env)
        is_same(f"a call of nobody at {address}, IPAM_CONNECT_SECONDS={seconds}", told, (1, NO_LINK))
        check(f"how long it tries at {address}, IPAM_CONNECT_SECONDS={seconds}", least <= waited <= most, waited)
    told, waited = timed([program, "--daemon", f"{folder}/none.sock", "get"], b"", env)
    is_same(f"get of nobody, IPAM_CONNECT_SECONDS={seconds}", told, (10, b"link fault\n"))
    check(f"how long get tries, IPAM_CONNECT_SECONDS={seconds}", least <= waited <= most, waited)


def try_at_once(program, folder):
    """A connection that fails in another way is not tried again."""
    (folder / "file").write_text("no socket\n")
    for address in (f"{folder}/" + "x" * 200, f"{folder}/file/s", "127.0.0.1", "no.such.host.invalid:9", ""):
        told, waited = timed([program, "call", address], CONFIGURATION, variables())
        is_same(f"a call at {address}", told, (1, NO_LINK))
        check(f"it ends at once at {address}", waited < 8, waited)


def try_lines(program, folder, rows):
    """A call sends the variables that are there, so an input fits that would not beside empty ones."""
    address = f"{folder}/lines.sock"
    configuration = b'{"cniVersion":"1.0.0"}'
    with serving(program, rows, address):
        while not os.path.exists(address):
            time.sleep(0.02)
        for more in ({}, {"CNI_IFNAME": None}, {"CNI_IFNAME": None, "CNI_NETNS": None, "CNI_CONTAINERID": None}):
            env = variables(CNI_COMMAND="VERSION", **more)
            sent = {name: env[name] for name in sorted(env) if name.startswith("CNI_")}
            text = json.dumps({"env": sent, "stdin": configuration.decode()}, separators=(",", ":"))
            room = LINE - 1 - len(text)
            told, _ = timed([program, "call", address], b" " * room + configuration, env)
            check(f"a call that fills a line, of {len(sent)} variables", told[0] == 0 and b"supportedVersions" in told[1], told)
            told, _ = timed([program, "call", address], b" " * (room + 1) + configuration, env)
            is_same(f"one byte more, of {len(sent)} variables", told, (1, UNDECODABLE))
        # (what is missing is answered as what is empty, and as without a daemon)
        for name in ("CNI_COMMAND", "CNI_CONTAINERID", "CNI_NETNS", "CNI_IFNAME", "CNI_ARGS"):
            for command in ("ADD", "DEL", "CHECK", "VERSION", "GC", "STATUS"):
                try_missing(program, folder, address, {"CNI_COMMAND": command, name: None}, {"CNI_COMMAND": command, name: ""})


@contextlib.contextmanager
def full_queue(path):
    """A listener at a socket file that has as many connections waiting as it takes, and the connections."""
    with socket.socket(socket.AF_UNIX) as listener, contextlib.ExitStack() as waiting:
        listener.bind(path)
        listener.listen(0)
        for _ in range(16):
            one = waiting.enter_context(socket.socket(socket.AF_UNIX))
            one.setblocking(False)
            if one.connect_ex(path):
                break
        else:
            check(f"a queue at {path} that is full", False, 16)
        yield listener


def answer(listener, seconds, line):
    """Takes all connections after so long, and answers each that sends something."""
    time.sleep(seconds)
    listener.settimeout(5)
    while True:
        with listener.accept()[0] as one:
            one.settimeout(0.2)
            with contextlib.suppress(TimeoutError):
                if one.recv(LINE):
                    one.sendall(line)
                    return


def try_full(program, folder):
    """A queue that is full has room after a while: a client waits for it, also where it tries once to find somebody."""
    reply = b'{"status":0,"stdout":"{}\\n"}\n'
    env = variables(IPAM_CONNECT_SECONDS="0")
    for at, (words, line, wanted) in enumerate((
            (["call", "ADDRESS"], reply, (0, b"{}\n")),
            (["--daemon", "ADDRESS", "get"], b"what is this\n", (11, b"reply fault\n")))):
        address = f"{folder}/full{at}.sock"
        with full_queue(address) as listener:
            daemon = threading.Thread(target=answer, args=(listener, 0.7, line))
            daemon.start()
            told, waited = timed([program, *(address if word == "ADDRESS" else word for word in words)], CONFIGURATION, env)
            daemon.join()
        is_same(f"{words[-1]} at a queue that is full for a while", told, wanted)
        check(f"how long {words[-1]} waits for room", 0.6 < waited < 4, waited)
    with full_queue(f"{folder}/held.sock"):
        told, waited = timed([program, "serve", f"{folder}/held.sock", "1"], b"", {"IPAM_DB": f"{folder}/alone.db"})
    is_same("serve at a socket file whose queue is full", told, (9, b"listen fault\n"))
    check("it ends at once", waited < 3, waited)


def try_full_long(program, folder):
    """A queue that stays full: the limit of 30 seconds holds."""
    told, address = {}, f"{folder}/long.sock"

    def ask(*words):
        told[words] = timed([program, *words], CONFIGURATION, variables())

    asked = [("call", address), *(("--daemon", address, *words) for words in (
        ("get",), ("show",), ("apply",), ("routes", "a"), ("release", "a", "10.0.0.0/26"), ("unreserve", "a"), ("audit", "1"),
        ("backup", f"{folder}/long.db")))]
    with full_queue(address):
        clients = [threading.Thread(target=ask, args=words) for words in asked]
        for one in clients:
            one.start()
        for one in clients:
            one.join()
    for words in asked:
        seen, waited = told[words]
        is_same(f"{words} at a queue that stays full", seen, (1, NO_LINK) if words[0] == "call" else (10, b"link fault\n"))
        check(f"how long it waits: {words}", 29.5 < waited < 31.5, waited)


def given(told):
    """What is told, but for which address is given."""
    return told[0], re.sub(rb'"address":"[0-9./]*"', b"", told[1])


def try_missing(program, folder, address, missing, empty):
    configuration = json.dumps({**json.loads(CONFIGURATION), "cniVersion": "1.1.0", "cni.dev/valid-attachments": []}).encode()
    alone = {"IPAM_DB": f"{folder}/alone.db"}
    told = [given(timed([program, *words], configuration, variables(**env, **more))[0])
            for env in (missing, empty) for words, more in ((["call", address], {}), ([], alone))]
    is_same(f"{missing}, by a call and alone, and empty", [one == told[0] for one in told], [True] * 4)


def try_restart(program, folder, rows):
    """Calls beside a daemon that stops for 5 seconds: none fails."""
    address, told, over = f"{folder}/again.sock", [], threading.Event()

    def call(at):
        number = 0
        while not over.is_set():
            number += 1
            for command in ("ADD", "DEL"):
                env = variables(CNI_COMMAND=command, CNI_CONTAINERID=f"r{at}-{number}")
                told.append(timed([program, "call", address], CONFIGURATION, env)[0][0])

    clients = [threading.Thread(target=call, args=(at,)) for at in range(4)]
    with serving(program, rows, address) as daemon:
        for one in clients:
            one.start()
        time.sleep(2)
        # (between two calls: a call that runs when its daemon is killed has no reply)
        daemon.terminate()
        daemon.wait()
        at_stop = len(told)
        time.sleep(5)
    with serving(program, rows, address):
        time.sleep(2)
        over.set()
        for one in clients:
            one.join()
    lost = [status for status in told if status]
    check(f"{len(told)} calls beside a daemon that stops for 5 seconds, {at_stop} of them before", len(lost) <= 4, lost)


def main():
    words = sys.argv[1:]
    quick = "--quick" in words
    words = [word for word in words if word != "--quick"]
    program = str(pathlib.Path(words[0] if words else TOP / "release/ipam").resolve())
    with tempfile.TemporaryDirectory() as name:
        folder = pathlib.Path(name)
        rows = f"{name}/ipam.db"
        apply_pool(program, rows)
        apply_pool(program, f"{name}/alone.db")
        for address in (f"{name}/late.sock", f"127.0.0.1:{free_port()}"):
            try_late(program, folder, rows, address)
        try_nobody(program, folder, "0", 0, 0.9)
        try_nobody(program, folder, "1", 0.9, 2.5)
        try_at_once(program, folder)
        try_lines(program, folder, rows)
        try_full(program, folder)
        if not quick:
            try_full_long(program, folder)
            try_nobody(program, folder, "x", 9.9, 12)
            try_restart(program, folder, rows)
    print(f"{passed} passed, {failed} failed")
    return failed != 0


sys.exit(main())
