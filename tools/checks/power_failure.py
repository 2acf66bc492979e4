#!/usr/bin/env python3
"""Lets the power fail under a built program, at places that are drawn, and looks at what the disk may have then.

  tools/checks/power_failure.py [--images N] [--seed S] [--keep FOLDER] [PROGRAM]      else release/ipam
  tools/checks/power_failure.py --self-test [PROGRAM]
  tools/checks/power_failure.py --again RECORD PLACE SEED [PROGRAM]

A library that is loaded before the C library (power_record.c) records each write, sync and reply of the program under
a load, in their order: a daemon with up to 16 connections, one-shot commands, long logs that are folded, kills and
reopenings, and syncs that fail. At places of the record the files are made as a disk may have them (power_disk.py). Of
each such image the program has to open the rows, keep its ten rules, and add one more address; SQLite has to find the
file whole, with the same rows; and each reply that was sent before the place has to be in them (power_replies.py).

Each image that fails has a line, with the words that make it again: its record stays in FOLDER. The last line is
`N images passed, M failed`. `--self-test` takes a synced write, all syncs or the syncs before the replies away, and
has to see each of these as a failure. It needs Linux, gcc and Python.
"""

import argparse
import collections
import concurrent.futures
import json
import os
import random
import shutil
import signal
import socket
import sqlite3
import subprocess
import sys
import tempfile
import threading
import time

HERE = os.path.dirname(os.path.abspath(__file__))
sys.path[:0] = [HERE, os.path.join(HERE, "..", "..", "bench")]
from kill_client import line_of  # noqa: E402
from power_disk import Disk, read_record  # noqa: E402
from power_replies import Replies, Rows, Wrong, NETWORK  # noqa: E402

PATIENCE = 30
SEEKERS = 3            # images that are looked at together
POOL = {"kind": "IPPool", "metadata": {"name": "pods"}, "spec": {"cidr": "10.0.0.0/18", "blockSize": 27}}
HALF_MADE = "file is not a database"


class Run:
    """A load in a folder of its own, and the record of what was done in it."""

    def __init__(self, program, library, kind, seed, root):
        self.program, self.kind, self.seed = program, kind, seed
        self.root = os.path.join(root, f"{kind.replace(' ', '-')}-{seed}")
        self.folder, self.record = os.path.join(self.root, "db"), os.path.join(self.root, "record")
        self.address, self.calls, self.draw = os.path.join(self.root, "s"), {}, random.Random(f"{kind} {seed}")
        self.lock = threading.Lock()
        os.makedirs(self.folder)
        self.env = {**os.environ, "LD_PRELOAD": library, "POWER_FOLDER": self.folder, "POWER_RECORD": self.record,
                    "IPAM_DB": os.path.join(self.folder, "ipam.db"), "CNI_IFNAME": "eth0", "CNI_NETNS": "/run/netns/x"}
        self.env.pop("IPAM_DAEMON", None)

    def number(self, asked):
        with self.lock:
            self.calls[len(self.calls) + 1] = asked
            return str(len(self.calls))

    def command(self, words, asked, given=b"", **more):
        """One command over the file, to its end."""
        env = {**self.env, "POWER_CALL": self.number(asked), **more}
        return subprocess.run([self.program, *words], env=env, input=given, stdout=subprocess.PIPE,
                              stderr=subprocess.DEVNULL, timeout=PATIENCE)

    def apply(self, document, kind):
        return self.command(["apply"], (kind, document["metadata"]["name"]), json.dumps(document).encode())

    def cni(self, command, container, node):
        stdin = json.loads(json.loads(line_of(command, container, node))["stdin"])
        return self.command([], (command, (container, node)), json.dumps(stdin).encode(), CNI_COMMAND=command,
                            CNI_CONTAINERID=container)

    def serve(self, fail=0):
        """A daemon that serves. None where it ended."""
        env = {**self.env, "POWER_CALL": self.number(None), "POWER_FAIL": str(fail)}
        daemon = subprocess.Popen([self.program, "serve", self.address, "16"], env=env, stdout=subprocess.DEVNULL,
                                  stderr=subprocess.DEVNULL)
        end = time.monotonic() + PATIENCE
        while time.monotonic() < end and daemon.poll() is None:
            try:
                self.connect().close()
                return daemon
            except OSError:
                time.sleep(0.01)
        return None

    def connect(self):
        made = socket.socket(socket.AF_UNIX)
        made.settimeout(PATIENCE)
        made.connect(self.address)
        return made

    def finish(self):
        with open(os.path.join(self.root, "calls"), "w", encoding="ascii") as file:
            json.dump(self.calls, file)


class Client(threading.Thread):
    """One connection with one line under way at a time, as a runtime makes its calls: what was not answered is
    deleted. It has half of its calls on a node of its own, and releases blocks of that one alone."""

    def __init__(self, run, number, share):
        super().__init__(daemon=True)
        self.run_of, self.number, self.share = run, number, share
        self.draw = random.Random(f"{run.kind} {run.seed} {number} {len(run.calls)}")
        self.link, self.held, self.gone, self.names, self.blocks = None, {}, [], set(), set()
        self.next, self.unsure, self.ends = 0, None, False

    def asked(self, line):
        """The reply of a line. None where the daemon went away meanwhile."""
        try:
            if self.link is None:
                self.link = self.run_of.connect()
            self.link.sendall(line)
            reply = b""
            while not reply.endswith(b"\n"):
                part = self.link.recv(65536)
                if not part:
                    raise ConnectionError
                reply += part
            return json.loads(reply)
        except OSError:
            self.link, self.ends = None, True
            return None

    def request(self, request):
        return self.asked(json.dumps({"request": request}).encode() + b"\n")

    def own_node(self):
        return f"own-{self.number}"

    def add(self):
        if self.gone and self.draw.random() < 0.3:
            container = self.gone.pop()
        else:
            container, self.next = f"c{self.number}-{self.next}", self.next + 1
        node = self.own_node() if self.draw.random() < 0.5 else f"node-{self.number % 3}"
        reply = self.asked(line_of("ADD", container, node))
        if reply and reply["status"] == 0:
            address = json.loads(reply["stdout"])["ips"][0]["address"].split("/")[0]
            self.held[container] = node
            if node == self.own_node():
                self.blocks.add(block_of(address))
        else:
            self.unsure = (container, node)

    def delete(self, container, node):
        reply = self.asked(line_of("DEL", container, node))
        self.unsure = None if reply and reply["status"] == 0 else (container, node)
        if self.unsure is None:
            self.gone.append(container)

    def reserve(self):
        name = f"r{self.number}-{self.draw.randrange(4)}"
        if name in self.names:
            self.names.discard(name)
            self.request({"unreserve": {"name": name}})
        else:
            self.names.add(name)
            cidr = f"10.0.{32 + self.number}.{4 * self.draw.randrange(64)}/30"
            self.request({"reserve": {"cidrs": [cidr], "name": name}})

    def release(self):
        if self.blocks:
            cidr = self.draw.choice(sorted(self.blocks))
            self.blocks.discard(cidr)
            self.request({"release": {"cidr": cidr, "node": self.own_node()}})

    def step(self):
        chance = self.draw.random()
        if self.unsure is not None:
            self.delete(*self.unsure)
        elif chance < 0.04:
            self.reserve()
        elif chance < 0.08:
            self.release()
        elif self.held and chance < self.share:
            container = self.draw.choice(sorted(self.held))
            self.delete(container, self.held.pop(container))
        else:
            self.add()

    def run(self):
        while not self.ends:
            self.step()
        if self.link is not None:
            self.link.close()
            self.link = None


def block_of(address):
    parts = address.split(".")
    return ".".join([*parts[:3], str(int(parts[3]) & ~31)]) + "/27"


# ---- the loads

def load(run, clients, seconds, fail=0):
    """A daemon with these clients for so long, and then it is killed; or until it ends. The clients go on in the next
    one."""
    daemon = run.serve(fail)
    if daemon is None:
        return
    for client in clients:
        client.ends = False
    threads = [threading.Thread(target=client.run, daemon=True) for client in clients]
    for thread in threads:
        thread.start()
    end = time.monotonic() + seconds
    while time.monotonic() < end and daemon.poll() is None:
        time.sleep(0.02)
    if not fail or daemon.poll() is None:
        daemon.send_signal(signal.SIGUSR1)
    daemon.wait(PATIENCE)
    for thread in threads:
        thread.join(PATIENCE)


def daemons(run):
    """A daemon under group commit that is killed and started again."""
    run.apply(POOL, "pool")
    clients = [Client(run, number, 0.5) for number in range(run.draw.randint(8, 16))]
    load(run, clients, 0.6)
    load(run, clients, 0.6)
    run.command(["get"], None)
    load(run, clients, 0.4)


def folds(run):
    """So many writes that the log is folded under the daemon, and at the opening."""
    run.apply(POOL, "pool")
    clients = [Client(run, number, 0.25) for number in range(8)]
    load(run, clients, 2.5)
    load(run, clients, 1.5)
    run.command(["audit", "1"], None)


def commands(run):
    """Commands and calls of the plugin over the file, which fold their log as they end."""
    run.apply(POOL, "pool")
    held = {}
    for number in range(40):
        chance = run.draw.random()
        if chance < 0.55 or not held:
            node = f"node-{run.draw.randrange(3)}"
            if run.cni("ADD", f"c{number}", node).returncode == 0:
                held[f"c{number}"] = node
        elif chance < 0.8:
            container = run.draw.choice(sorted(held))
            run.cni("DEL", container, held.pop(container))
        elif chance < 0.9:
            name = f"r{run.draw.randrange(3)}"
            run.apply({"kind": "IPReservation", "metadata": {"name": name}, "spec": {"reservedCIDRs": ["10.0.60.0/30"]}},
                      "reserve")
        elif chance < 0.95:
            name = f"r{run.draw.randrange(3)}"
            run.command(["unreserve", name], ("unreserve", name))
        else:
            node, cidr = f"node-{run.draw.randrange(3)}", f"10.0.0.{32 * run.draw.randrange(4)}/27"
            run.command(["release", node, cidr], ("release", (node, cidr)))


def failed_sync(run, sign=1):
    """One of the first syncs of a daemon whose log was just folded fails, which ends it. Then it is started again."""
    run.apply(POOL, "pool")
    clients = [Client(run, number, 0.3) for number in range(8)]
    load(run, clients, 0.7)
    run.command(["get"], None)
    load(run, clients, PATIENCE, fail=sign * run.draw.randint(1, 4))
    load(run, clients, 0.3)


def failed_sync_and_kill(run):
    """The same, and the daemon is killed as the sync fails."""
    failed_sync(run, -1)


# ---- an image

def look_at(run, replies, place, files, folder):
    """Raises `Wrong` where the files are not as they have to be at this place."""
    ours, theirs = os.path.join(folder, "ours"), os.path.join(folder, "theirs")
    for made in (ours, theirs):
        os.mkdir(made)
        for name, content in files.items():
            with open(os.path.join(made, name), "wb") as file:
                file.write(content)
    env = {**os.environ, "IPAM_DB": os.path.join(ours, "ipam.db")}
    got = asked_of(run, ["get"], env)
    audited = asked_of(run, ["audit", "1"], env)
    if got.returncode != 0 or audited.returncode != 0:
        raise Wrong(f"get ends with {got.returncode} and {got.stdout[-80:]!r}, audit with {audited.returncode}; "
                    f"SQLite says {sqlite_says(os.path.join(theirs, 'ipam.db'))[0]}")
    found = Rows(got.stdout.decode())
    replies.compare(place, found)
    is_new = not any(step.place <= place and step.what == "applied" for step in replies.steps)
    compare_sqlite(os.path.join(theirs, "ipam.db"), got.stdout.decode(), is_new)
    if found.pools:
        add_one(run, found, env, os.path.join(ours, "ipam.db"))


def asked_of(run, words, env, given=b""):
    return subprocess.run([run.program, *words], env=env, input=given, stdout=subprocess.PIPE,
                          stderr=subprocess.DEVNULL, timeout=PATIENCE)


def sqlite_says(path):
    """What SQLite finds in a file: its word, and the rows as `get` writes them."""
    if not os.path.exists(path) or os.path.getsize(path) == 0:
        return "ok", ""
    try:
        made = sqlite3.connect(path)
        try:
            word = made.execute("pragma integrity_check").fetchone()[0]
            is_there = made.execute("select 1 from sqlite_master where name = 'rows'").fetchone()
            rows = made.execute("select key, revision, body from rows order by key").fetchall() if is_there else []
        finally:
            made.close()
    except sqlite3.DatabaseError as error:
        return str(error), None
    return word, "".join(f"{key} {revision} {body}\n" for key, revision, body in rows)


def compare_sqlite(path, rows, is_new):
    word, found = sqlite_says(path)
    if word == HALF_MADE and is_new and not rows:
        return
    if word != "ok" or found != rows:
        raise Wrong(f"SQLite says {word}, and has {'the same' if found == rows else 'other'} rows")


def add_one(run, found, env, path):
    """The program goes on over the image: it gives an address that nobody has."""
    stdin = json.loads(json.loads(line_of("ADD", "new", "node-0"))["stdin"])
    made = asked_of(run, [], {**env, "CNI_COMMAND": "ADD", "CNI_CONTAINERID": "new", "CNI_IFNAME": "eth0",
                              "CNI_NETNS": "/run/netns/x"}, json.dumps(stdin).encode())
    if made.returncode != 0:
        raise Wrong(f"one more ADD ends with {made.returncode}: {made.stdout.decode()[:120]}")
    address = json.loads(made.stdout)["ips"][0]["address"].split("/")[0]
    if address in found.owners:
        raise Wrong(f"one more ADD gives {address}, which {found.owners[address]} has")
    word, rows = sqlite_says(path)
    if word != "ok" or f"handle/{NETWORK}.new " not in rows:
        raise Wrong(f"after one more ADD SQLite says {word}")


# ---- the places of a record

def drawn_places(events, count, draw, since=0, until=None):
    """Places of a record: any, beside the ends of syncs, behind replies, and where the database itself is written."""
    every = range(since, (len(events) if until is None else until) + 1)
    syncs = [place for place in every if place and events[place - 1].what == "S"]
    before = [place - 1 for place in syncs if place > since]
    replies = [place for place in every if place and events[place - 1].what == "w" and len(events[place - 1].data)]
    kinds = [every, every, syncs, before, replies] + [table_writes(events, every)] * (5 if since else 1)
    return sorted(draw.choice(draw.choice([kind for kind in kinds if kind])) for _ in range(count))


def table_writes(events, places):
    """Those of the places that stand behind a change of the database itself, not of its log."""
    tables, found = set(), []
    for place, event in enumerate(events[:places.stop], 1):
        if event.what == "O" and bytes(event.data) == b"ipam.db":
            tables.add((event.process, event.file))
        elif event.what in "OC":
            tables.discard((event.process, event.file))
        elif event.what in "WT" and (event.process, event.file) in tables and place in places:
            found.append(place)
    return found


def parts_of(run, events, count):
    """The places of a run that are tried, by what the program does there."""
    failed = next((place for place, event in enumerate(events, 1) if event.what == "S" and event.result), 0)
    if not failed:
        return {run.kind: drawn_places(events, count, run.draw)}
    starts = [place for place, event in enumerate(events, 1) if place > failed and event.what in "PA"]
    ended = next((place for place in starts if events[place - 1].what == "P"), len(events))
    served = next((place for place in starts if place > ended), len(events))
    spans = {"until the daemon's end": (failed, ended), "while it is opened again": (ended, served),
             "when it serves again": (served, len(events))}
    return {f"{run.kind}, {what}": drawn_places(events, count // 3, run.draw, *span) for what, span in spans.items()}


class Tally:
    def __init__(self, keep):
        self.passed, self.failed, self.keep = collections.Counter(), collections.Counter(), keep
        self.lock = threading.Lock()

    def fail(self, run, kind, place, seed, way, why):
        kept = os.path.join(self.keep, os.path.basename(run.root))
        with self.lock:
            self.failed[kind] += 1
            os.makedirs(kept, exist_ok=True)
            for name in ("record", "calls"):
                if not os.path.exists(os.path.join(kept, name)):
                    shutil.copy(os.path.join(run.root, name), kept)
        print(f"FAILED {kind}, {way}: {why}\n  again: tools/checks/power_failure.py --again {kept} {place} {seed}", flush=True)


def try_image(run, replies, tally, kind, place, seed, files, way):
    with tempfile.TemporaryDirectory(dir=run.root) as folder:
        try:
            look_at(run, replies, place, files, folder)
        except (Wrong, subprocess.SubprocessError, ValueError, KeyError) as wrong:
            tally.fail(run, kind, place, seed, way, wrong)
            return
    with tally.lock:
        tally.passed[kind] += 1


def try_places(run, events, replies, tally, kind, places, lies=None):
    """Plays the record once, and makes an image at each place."""
    disk = Disk(lies, random.Random(run.seed))
    with concurrent.futures.ThreadPoolExecutor(SEEKERS) as pool:
        asked, played = collections.deque(), 0
        for number, place in enumerate(places):
            for event in events[played:place]:
                disk.play(event)
            played, seed = place, f"{run.seed}-{number}"
            files, way = disk.image(random.Random(seed))
            asked.append(pool.submit(try_image, run, replies, tally, kind, place, seed, files, way))
            while len(asked) > 2 * SEEKERS:
                asked.popleft().result()
        for one in asked:
            one.result()


def whole(run, events):
    """Whether the record makes the files as they are: else it has missed a write."""
    disk = Disk()
    for event in events:
        disk.play(event)
    there = {name: open(os.path.join(run.folder, name), "rb").read() for name in os.listdir(run.folder)}
    return there == {name: bytes(file.cache) for name, file in disk.names.items()}


def replies_of(run, events):
    with open(os.path.join(run.root, "calls"), encoding="ascii") as file:
        return Replies(events, {int(number): asked for number, asked in json.load(file).items()})


# The loads, how many twelfths of the images each has, and how many images a run of it has.
KINDS = {"daemons": (daemons, 4, 60), "folds": (folds, 3, 60), "commands": (commands, 2, 60),
         "a failed sync": (failed_sync, 2, 30), "a failed sync and a kill": (failed_sync_and_kill, 1, 30)}


def try_run(run, play, count, tally):
    """Plays a load, and tries so many images of it. It gives how many replies they had."""
    play(run)
    run.finish()
    events = read_record(run.record)
    replies = replies_of(run, events)
    if not whole(run, events):
        tally.fail(run, run.kind, len(events), 0, "the record", "it does not make the files as they are")
    for wrong in replies.given_twice():
        tally.fail(run, run.kind, len(events), 0, "the replies", wrong)
    for kind, places in parts_of(run, events, count).items():
        try_places(run, events, replies, tally, kind, places)
    return replies.counted


def try_all(words, program, library, root):
    tally, answered, runs = Tally(words.keep), 0, 0
    shares = sum(share for _, share, _ in KINDS.values())
    for kind, (play, share, most) in KINDS.items():
        left, number = -(-words.images * share // shares), 0
        while left > 0:
            run = Run(program, library, kind, words.seed + number, root)
            count = min(left, most)
            answered += try_run(run, play, count, tally)
            shutil.rmtree(run.root)
            left, number, runs = left - count, number + 1, runs + 1
    for kind in sorted({*tally.passed, *tally.failed}):
        print(f"{kind}: {tally.passed[kind]} images passed, {tally.failed[kind]} failed")
    print(f"{runs} runs of seed {words.seed}, {answered} requests answered as done")
    print(f"{sum(tally.passed.values())} images passed, {sum(tally.failed.values())} failed")
    return not tally.failed


# ---- the test of the test

def lose_replies(events):
    """The record with each reply where its line was received, as if nothing was synced before it."""
    moved, asked = [], {}
    for place, event in enumerate(events):
        if event.what == "r":
            asked[event.process, event.file] = place
        moved.append((asked.get((event.process, event.file), place) if event.what == "w" else place, place, event))
    return [event for _, _, event in sorted(moved, key=lambda one: one[:2])]


def self_test(words, program, library, root):
    """Each fault of the disk, or of the program, has to be seen."""
    run = Run(program, library, "daemons", words.seed, root)
    daemons(run)
    run.finish()
    events, is_right = read_record(run.record), True
    last = max(place for place, event in enumerate(events) if event.what == "W")
    kinds = [("nothing", events, None), ("each sync is ignored", events, "syncs"),
             ("some synced writes are lost", events, "write"),
             ("replies come before their syncs", lose_replies(events), None)]
    for what, given, lies in kinds:
        tally, places = Tally(os.path.join(root, "seen")), drawn_places(given, 60, random.Random(words.seed))
        with open(os.devnull, "w", encoding="ascii") as quiet:
            shown, sys.stdout = sys.stdout, quiet
            try:
                try_places(run, given, replies_of(run, given), tally, what, places, lies)
            finally:
                sys.stdout = shown
        failed = sum(tally.failed.values())
        is_right = is_right and (failed > 0) == (what != "nothing")
        print(f"{what}: of 60 images {failed} failed", flush=True)
    is_missed = not whole(run, events[:last] + events[last + 1:])
    print(f"a write is missing in the record: {'seen' if is_missed else 'NOT SEEN'}")
    print("the test sees its faults" if is_right and is_missed else "FAILED: the test does not see its faults")
    return is_right and is_missed


def try_again(words, program, library):
    """One image of a record that was kept."""
    record, place, seed = words.again
    with tempfile.TemporaryDirectory(prefix="ipam-power-") as root:
        run = Run(program, library, "again", 0, root)
        for name in ("record", "calls"):
            shutil.copy(os.path.join(record, name), run.root)
        events, disk = read_record(run.record), Disk()
        for event in events[:int(place)]:
            disk.play(event)
        files, way = disk.image(random.Random(seed))
        try:
            look_at(run, replies_of(run, events), int(place), files, tempfile.mkdtemp(dir=run.root))
        except Wrong as wrong:
            print(f"FAILED {way}: {wrong}")
            return False
    print("it passed")
    return True


def compiled(root):
    library = os.path.join(root, "power_record.so")
    source = os.path.join(HERE, "power_record.c")
    subprocess.run(["gcc", "-shared", "-fPIC", "-O2", "-o", library, source, "-ldl"], check=True)
    return library


def main():
    words = argparse.ArgumentParser(description=__doc__, formatter_class=argparse.RawDescriptionHelpFormatter)
    words.add_argument("--images", type=int, default=1200, help="how many images are tried (1200)")
    words.add_argument("--seed", type=int, default=1)
    words.add_argument("--keep", default=None, help="where the records of failures stay (else in a new folder of /tmp)")
    words.add_argument("--self-test", action="store_true")
    words.add_argument("--again", nargs=3, metavar=("RECORD", "PLACE", "SEED"))
    words.add_argument("program", nargs="?", default=os.path.join(HERE, "../../release/ipam"))
    words = words.parse_args()
    words.keep = words.keep or os.path.join(tempfile.gettempdir(), f"ipam-power-failed-{os.getpid()}")
    program = os.path.abspath(words.program)
    with tempfile.TemporaryDirectory(prefix="ipam-power-") as root:
        root = os.path.realpath(root)
        library = compiled(root)
        if words.again:
            is_right = try_again(words, program, library)
        elif words.self_test:
            is_right = self_test(words, program, library, root)
        else:
            is_right = try_all(words, program, library, root)
    sys.exit(0 if is_right else 1)


if __name__ == "__main__":
    main()
