#!/usr/bin/env python3
"""Fills the disk under a built program, and looks at what it answers, what it keeps, and how it goes on.

    tools/checks/full_disk.py [PROGRAM]        else release/ipam

On a small disk in memory, and on a small ext4 where `mkfs.ext4` is there, a daemon holds addresses, and then so many
bytes are left. Eight clients add and delete until the daemon ends or each of them is refused; it is started again as
the unit does it, and asked what needs no write. The same is done by one-shot calls. Then space is freed. Each answered
ADD has to be in the rows, none twice, each answered DEL gone, the rows readable all the time, and calls answered again
at the end. At last the folder of the socket file is full while that file is removed. Each line ends with `ok` or
`FAILED`, and the last one is `N passed, M failed`. It needs root and Python.
"""

import contextlib
import json
import os
import shutil
import subprocess
import sys
import tempfile
import threading
import time

HERE = os.path.dirname(os.path.abspath(__file__))
sys.path[:0] = [HERE, os.path.join(HERE, "..", "..", "bench")]
from hostile_daemon import Daemon, Seen, added, reply  # noqa: E402
from kill_client import line_of  # noqa: E402

ROOMS = (0, 4096, 16384, 65536, 262144, 1 << 20)
DISK = 6 << 20
CLIENTS, MOST, PATIENCE = 8, 400, 60


@contextlib.contextmanager
def disk(kind):
    """A folder that is the root of a small disk."""
    with tempfile.TemporaryDirectory(prefix="ipam-full-") as root:
        folder, image = os.path.join(root, "disk"), os.path.join(root, "image")
        os.mkdir(folder)
        words = ["-t", "tmpfs", "-o", f"size={DISK}", "tmpfs"]
        if kind == "ext4":
            with open(image, "wb") as file:
                file.truncate(DISK)
            subprocess.run(["mkfs.ext4", "-q", "-m", "0", "-O", "^has_journal", image], check=True)
            words = ["-o", "loop", image]
        subprocess.run(["mount", *words, folder], check=True)
        try:
            yield folder
        finally:
            subprocess.run(["umount", "-l", folder], check=True)


def fill(folder, room):
    """Fills the disk, and then frees so many bytes."""
    with open(os.path.join(folder, "fill"), "wb", buffering=0) as file:
        with contextlib.suppress(OSError):
            while file.write(bytes(4096)):
                pass
        with contextlib.suppress(OSError):
            os.fsync(file.fileno())
        file.truncate(max(os.path.getsize(file.name) - room, 0))


class Told:
    """What the calls were answered."""

    def __init__(self):
        self.held, self.gone, self.unsure, self.twice, self.refused = {}, set(), set(), [], 0
        self.lock = threading.Lock()

    def added(self, container, stdout):
        address = json.loads(stdout)["ips"][0]["address"].split("/")[0]
        with self.lock:
            self.twice += [address] if address in self.held.values() else []
            self.held[container] = address

    def wrong(self, owners):
        """How many answers the rows contradict."""
        lost = [who for who, address in self.held.items() if owners.get(address) != who]
        back = [who for who in owners.values() if who in self.gone]
        return lost + back + self.twice


def client(daemon, told, number):
    """Adds, and deletes each third one, until it is refused or cut."""
    try:
        connection = daemon.connect()
    except OSError:
        return
    with connection:
        for count in range(MOST):
            container = f"c{number}-{count}"
            with told.lock:
                told.unsure.add(container)
            answer = reply(connection, line_of("ADD", container, f"node-{number % 3}"))
            if answer is None or answer.get("status") != 0:
                told.refused += answer is not None
                return
            told.added(container, answer["stdout"])
            if count % 3 == 2:
                told.held.pop(container)
                answer = reply(connection, line_of("DEL", container, f"node-{number % 3}"))
                if answer is None or answer.get("status") != 0:
                    return
                told.gone.add(container)


def run_clients(daemon, told):
    threads = [threading.Thread(target=client, args=(daemon, told, number)) for number in range(CLIENTS)]
    for thread in threads:
        thread.start()
    for thread in threads:
        thread.join(PATIENCE)


def asked(daemon, words, by_daemon, given=b"", **more):
    env = {**daemon.env, **more}
    words = ["--daemon", daemon.address, *words] if by_daemon else words
    return subprocess.run([daemon.program, *words], env=env, input=given, stdout=subprocess.PIPE,
                          stderr=subprocess.DEVNULL, timeout=PATIENCE)


def reads_of(daemon, told):
    """What needs no write, of a daemon over the full disk: the words that failed."""
    failed = [word[0] for word in (["show"], ["get"], ["routes", "node-0"], ["audit", "1"])
              if asked(daemon, word, True).returncode != 0]
    container, address = next(iter(told.held.items()))
    for command in ("VERSION", "STATUS", "CHECK"):
        line = json.loads(line_of(command, container, "node-0"))
        stdin = json.loads(line["stdin"])
        stdin["cniVersion"] = "1.1.0"
        if command == "CHECK":
            stdin["prevResult"] = {"cniVersion": "1.1.0", "ips": [{"address": f"{address}/32"}]}
        line["stdin"] = json.dumps(stdin)
        with daemon.connect() as connection:
            answer = reply(connection, json.dumps(line).encode() + b"\n")
        if answer is None or answer.get("status") != 0:
            failed.append(command)
    return failed


def by_daemon(seen, program, kind, room):
    with disk(kind) as folder:
        what, told = f"{kind}, {room} bytes left", Told()
        daemon = Daemon(program, workers=CLIENTS, folder=tempfile.mkdtemp(prefix="ipam-full-"),
                        env={"IPAM_DB": os.path.join(folder, "ipam.db")}).apply().start()
        with daemon.connect() as connection:
            for count in range(100):
                told.added(f"a{count}", reply(connection, line_of("ADD", f"a{count}", "node-0"))["stdout"])
        fill(folder, room)
        run_clients(daemon, told)
        time.sleep(0.2)
        status = daemon.process.poll()
        answered = len(told.held) + len(told.gone)
        end = "the daemon goes on" if status is None else f"it ends with {status}"
        rows = daemon.held()
        seen.say(f"{what}, a daemon under {CLIENTS} clients",
                 f"{answered} answered, {told.refused} refused, {end}, {len(told.wrong(rows))} answers wrong",
                 not told.wrong(rows) and status in (None, 5))
        starts = daemon.start() is not None
        failed = reads_of(daemon, told) if starts else ["serve"]
        seen.say(f"{what}, started again", f"what fails of show, get, routes, audit, VERSION, STATUS, CHECK: {failed}",
                 not failed)
        daemon.ended()
        os.remove(os.path.join(folder, "fill"))
        daemon.start()
        is_up = added(daemon, "last")
        rows = daemon.held()
        seen.say(f"{what}, space is freed", f"an ADD is answered: {is_up}, {len(told.wrong(rows))} answers wrong",
                 is_up and not told.wrong(rows))
        shutil.rmtree(daemon.folder)


def by_commands(seen, program, kind, room):
    with disk(kind) as folder:
        what, told = f"{kind}, {room} bytes left", Told()
        daemon = Daemon(program, folder=tempfile.mkdtemp(prefix="ipam-full-"),
                        env={"IPAM_DB": os.path.join(folder, "ipam.db"), "CNI_IFNAME": "eth0", "CNI_NETNS": "/x"}).apply()
        stdin = json.loads(line_of("ADD", "x", "node-0"))["stdin"].encode()
        refused, codes, unread = 0, set(), 0
        for count in range(60):
            if count == 10:
                fill(folder, room)
            made = asked(daemon, [], False, stdin, CNI_COMMAND="ADD", CNI_CONTAINERID=f"c{count}")
            if made.returncode == 0:
                told.added(f"c{count}", made.stdout)
            else:
                refused += 1
                codes.add(json.loads(made.stdout).get("code") if made.stdout else made.returncode)
            unread += asked(daemon, ["get"], False).returncode != 0
        rows = daemon_rows(daemon)
        seen.say(f"{what}, one-shot ADDs", f"{len(told.held)} answered, {refused} refused with {sorted(codes)}, "
                 f"{unread} of 60 reads failed, {len(told.wrong(rows))} answers wrong",
                 not unread and codes <= {5} and not told.wrong(rows))
        os.remove(os.path.join(folder, "fill"))
        made = asked(daemon, [], False, stdin, CNI_COMMAND="ADD", CNI_CONTAINERID="last")
        wrong = told.wrong(daemon_rows(daemon))
        seen.say(f"{what}, space is freed", f"a one-shot ADD ends with {made.returncode}, {len(wrong)} answers wrong",
                 made.returncode == 0 and not wrong)
        shutil.rmtree(daemon.folder)


def daemon_rows(daemon):
    daemon.process = None
    return daemon.held()


def is_answered(program, address):
    return subprocess.run([program, "--daemon", address, "get"], stdout=subprocess.PIPE, stderr=subprocess.PIPE,
                          env={**os.environ, "IPAM_CONNECT_SECONDS": "0"}).stdout.startswith(b"pools ")


def full_socket_folder(seen, program):
    """The socket file is removed while its folder has no room for a name: the daemon waits, and makes the file anew."""
    with tempfile.TemporaryDirectory(prefix="ipam-full-") as root:
        folder, address = os.path.join(root, "run"), os.path.join(root, "run/s")
        os.mkdir(folder)
        subprocess.run(["mount", "-t", "tmpfs", "-o", "size=64k,nr_inodes=10", "tmpfs", folder], check=True)
        env = {**os.environ, "IPAM_DB": os.path.join(root, "ipam.db")}
        pool = {"kind": "IPPool", "metadata": {"name": "pods"}, "spec": {"cidr": "10.0.0.0/24"}}
        subprocess.run([program, "apply"], input=json.dumps(pool).encode(), env=env, stdout=subprocess.PIPE, check=True)
        daemon = subprocess.Popen([program, "serve", address, "2"], env=env, stdout=subprocess.PIPE, stderr=subprocess.PIPE)
        try:
            time.sleep(0.5)
            os.unlink(address)
            names = [os.path.join(folder, f"file{number}") for number in range(20)]
            with contextlib.suppress(OSError):
                for name in names:
                    open(name, "wb").close()
            time.sleep(3)
            seen.say("no room for the socket file", f"the daemon ended with {daemon.poll()}", daemon.poll() is None)
            for name in names:
                with contextlib.suppress(OSError):
                    os.unlink(name)
            time.sleep(2.5)
            told = is_answered(program, address)
            seen.say("room for the socket file again", f"the daemon answers there: {told}", told)
        finally:
            daemon.kill()
            daemon.communicate()
            subprocess.run(["umount", "-l", folder], check=True)


def main():
    program = os.path.abspath(sys.argv[1]) if len(sys.argv) > 1 else os.path.join(HERE, "../../release/ipam")
    seen = Seen()
    kinds = ["tmpfs"] + (["ext4"] if shutil.which("mkfs.ext4") else [])
    for kind in kinds:
        for room in ROOMS:
            for part in (by_daemon, by_commands):
                try:
                    part(seen, program, kind, room)
                except (OSError, AttributeError, subprocess.SubprocessError, ValueError, KeyError, TypeError) as failed:
                    seen.say(f"{kind}, {room} bytes left, {part.__name__}", f"it broke off: {failed!r}", False)
    full_socket_folder(seen, program)
    print(f"{seen.passed} passed, {seen.failed} failed")
    sys.exit(1 if seen.failed else 0)


if __name__ == "__main__":
    main()
