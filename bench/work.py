#!/usr/bin/env python3
"""Counts the work of calls: instructions, page faults, syncs and system calls.

    bench/work.py PROGRAM HOST_LOCAL [SECTION..]

Instructions are those that callgrind counts. What one more call costs is the difference of two runs, of which the
second one makes more calls. Where a program is lacking that a column needs, the column has "-"; where a section needs
it, the section is left out. A line tells of each.
"""
import contextlib
import json
import os
import re
import shutil
import signal
import socket
import statistics
import subprocess
import sys
import tempfile
import time

from bases import Block, row_lines, rows_of, so_many_rows, text, write_file
from measured import ran

# With its `rep stosb` the C library zeroes a page by one instruction, which callgrind counts as 4,096.
TUNABLES = "glibc.cpu.x86_rep_stosb_threshold=1000000000"
VALGRIND = ["valgrind", "--tool=callgrind", "--callgrind-out-file=/dev/null"]
COLLECTED = re.compile(rb"Collected : (\d+)")
SYNCS = "fsync,fdatasync,sync_file_range,msync,sync"
PATIENCE = 120
RUNS = 21
OPENED = json.dumps({"opened": True})
# the rows of show, get, audit and backup
ROWS = int(os.environ.get("ROWS", "160001"))


class Bench:
    """The program, host-local where it is there, and a folder for what they are run on."""

    def __init__(self, program, local, folder):
        self.program, self.folder = program, folder
        self.local = local if os.access(local, os.X_OK) else None
        self.socket = f"{folder}/s"

    def file(self, name, rows):
        """A new database file of these rows."""
        path = f"{self.folder}/{name}.db"
        remove(path)
        write_file(path, rows)
        return path

    def served(self, file, lines):
        """The instructions of a daemon that answers these lines of one session, and the replies."""
        daemon = subprocess.Popen([*VALGRIND, self.program, "serve", self.socket, "1"], stdout=subprocess.DEVNULL,
                                  stderr=subprocess.PIPE, env=with_these({"IPAM_DB": file, "GLIBC_TUNABLES": TUNABLES}))
        try:
            replies = self.asked(lines)
        finally:
            daemon.send_signal(signal.SIGTERM)
            told = daemon.communicate()[1]
        return int(COLLECTED.search(told)[1]), replies

    def asked(self, lines):
        """The replies to these lines of one session, which begins as soon as the daemon listens."""
        end = time.monotonic() + PATIENCE
        with socket.socket(socket.AF_UNIX) as link:
            while link.connect_ex(self.socket):
                if time.monotonic() > end:
                    sys.exit("nobody listens")
                time.sleep(0.05)
            stream = link.makefile("rwb")
            return [self.reply(stream, line) for line in lines]

    @staticmethod
    def reply(stream, line):
        stream.write(line.encode() + b"\n")
        stream.flush()
        return stream.readline().decode()

    def each(self, rows, warm, lines, good='"status":0'):
        """The instructions of each of these lines of a daemon over these rows, which first answers the warm ones."""
        before, _ = self.served(self.file("each", rows), warm)
        after, replies = self.served(self.file("each", rows), warm + lines)
        for reply in replies[len(warm):]:
            if good not in reply:
                sys.exit(f"not what was wanted: {reply}")
        return (after - before) / len(lines)

    def played(self, script):
        """The instructions of a script, and how many entries its journal has."""
        path = f"{self.folder}/script"
        with open(path, "w") as file:
            file.write(script)
        with open(path, "rb") as given:
            run = subprocess.run([*VALGRIND, self.program, "play"], stdin=given, capture_output=True, check=False,
                                 env=with_these({"GLIBC_TUNABLES": TUNABLES}))
        return int(COLLECTED.search(run.stderr)[1]), run.stdout.count(b"\n")


def with_these(variables):
    return {**os.environ, **variables}


def instructions(words, variables, given=""):
    """The instructions of one run, and what it wrote."""
    run = subprocess.run([*VALGRIND, *words], input=given.encode(), capture_output=True, check=False,
                         env=with_these({**variables, "GLIBC_TUNABLES": TUNABLES}))
    return int(COLLECTED.search(run.stderr)[1]), run.stdout.decode()


def system_calls(words, variables, given, names=None):
    """How often the processes of a run call the system: all calls, or those of these names."""
    if not is_there("strace"):
        return None
    with tempfile.NamedTemporaryFile() as traced:
        only = ["-e", f"trace={names}"] if names else []
        run = subprocess.run(["strace", "-f", "-o", traced.name, *only, *words], input=given.encode(),
                             capture_output=True, env=with_these(variables), check=False)
        if run.returncode:
            sys.exit(f"{words} ended with {run.returncode}: {run.stdout.decode()}")
        with open(traced.name) as lines:
            # (a call that another thread's interrupts has a second line, where it is resumed)
            return sum(1 for line in lines if "(" in line and "resumed>" not in line)


def used(words, variables, given):
    """What one run used of the machine."""
    with tempfile.TemporaryFile() as source:
        source.write(given.encode())
        source.seek(0)
        process = subprocess.Popen(words, stdin=source, stdout=subprocess.DEVNULL, env=with_these(variables))
        _, status, usage = os.wait4(process.pid, 0)
        process.returncode = os.waitstatus_to_exitcode(status)
    if status:
        sys.exit(f"{words} ended with {process.returncode}")
    return usage


def is_there(program):
    return shutil.which(program) is not None


def tell(what, *cells):
    print(f"{what:<58}" + "".join(f"{cell:>18}" for cell in cells), flush=True)


def number(value):
    return "-" if value is None else f"{value:,.0f}"


def times(value, base):
    return f"{value / base:.1f} times"


def configuration(node):
    return text({"cniVersion": "1.0.0", "name": "net", "type": "calico", "nodename": node,
                 "ipam": {"type": "calico-ipam"}})


def call_of(container):
    """The variables of an ADD."""
    return {"CNI_COMMAND": "ADD", "CNI_CONTAINERID": container, "CNI_IFNAME": "eth0", "CNI_NETNS": "/run/netns/x",
            "CNI_PATH": "/opt/cni/bin"}


def adds(count, tag, node="node-0"):
    """Lines of a session: so many ADDs by a node."""
    return [json.dumps({"env": call_of(f"{tag}{place}"), "stdin": configuration(node)}) for place in range(count)]


def held(count, size=26, pool="10.0.0.0/8"):
    """Rows of blocks of one node that hold so many addresses, a handle each; the last block may have room for more."""
    room = 2 ** (32 - size)
    return rows_of([Block(place, size, "node-0", min(room, count - place * room), room)
                    for place in range((count + room - 1) // room)], pool, size)


def full_blocks(count):
    """Rows of a node that has so many full blocks, and one with one address."""
    blocks = [Block(place, 26, "node-0", 64, 64) for place in range(count)]
    return rows_of([*blocks, Block(count, 26, "node-0", 1, 64)])


def one_handle(count):
    """Rows of so many blocks, in each of which one handle holds an address."""
    blocks = [Block(place, 26, "node-0", 1, 1) for place in range(count)]
    for block in blocks:
        block.ids = ["net.all"]
    rows = {key: body for key, _, body in rows_of(blocks)}
    rows["handle/net.all"] = text({"block": {block.cidr: 1 for block in blocks}, "handleID": "net.all"})
    return [(key, 5_000 + place, rows[key]) for place, key in enumerate(sorted(rows, key=str.encode))]


def beside_reserved(count):
    """Rows of a node with an address, and of so many reserved addresses of another pool, 64 a reservation."""
    pools = [{"blockSize": 26, "cidr": cidr, "disabled": False, "name": name}
             for name, cidr in (("other", "172.16.0.0/12"), ("pods", "10.0.0.0/8"))]
    reserved = [{"name": f"r{name:03}", "reservedCIDRs": [f"172.16.{name}.{place}/32" for place in range(64)]}
                for name in range(count // 64)]
    rows = [(key, text({"pools": pools}) if key == "pools" else body) for key, _, body in held(1)]
    rows.append(("reservations", text({"reservations": reserved})))
    return [(key, 5_000 + place, body) for place, (key, body) in enumerate(rows)]


def plugin(bench):
    """One ADD by a process, and one by host-local."""
    tell("one ADD by a process", "instructions", "page faults", "syncs", "processor, ms")
    for count in (0, 10_000):
        file, words, given = bench.file("plugin", held(count)), [bench.program, "cni"], configuration("node-0")
        variables = lambda container: {**call_of(container), "IPAM_DB": file}
        work = None
        if is_there("valgrind"):
            work, said = instructions(words, variables("a"), given)
            if '"address"' not in said:
                sys.exit(f"no address: {said}")
        runs = [used(words, variables(f"b{place}"), given) for place in range(RUNS)]
        syncs = system_calls(words, variables("c"), given, SYNCS)
        tell(f"  {count} addresses held", number(work), *faults_and_millis(runs, syncs))
        if bench.local:
            tell_host_local(bench, count)


def faults_and_millis(runs, syncs):
    faults = statistics.median(one.ru_minflt for one in runs)
    return number(faults), number(syncs), f"{statistics.median(one.ru_utime + one.ru_stime for one in runs) * 1e3:.1f}"


def tell_host_local(bench, count):
    """The same by Debian's host-local. It is a program of Go, which valgrind does not run."""
    folder = f"{bench.folder}/local-{count}"
    os.makedirs(f"{folder}/net")
    for place in range(count):
        with open(f"{folder}/net/10.0.{(place + 2) // 256}.{(place + 2) % 256}", "w", encoding="ascii") as file:
            file.write(f"h{place}\r\neth0")
    given = text({"cniVersion": "1.0.0", "name": "net", "type": "ptp", "ipam": {
        "type": "host-local", "dataDir": folder, "ranges": [[{"subnet": "10.0.0.0/16"}]]}})
    runs = [used([bench.local], call_of(f"b{place}"), given) for place in range(RUNS)]
    syncs = system_calls([bench.local], call_of("c"), given, SYNCS)
    tell(f"  {count} addresses held, host-local", "-", *faults_and_millis(runs, syncs))


def daemon(bench):
    """One ADD of a daemon."""
    tell("one ADD of a daemon, over one connection", "instructions")
    tell("  nothing held", number(bench.each(rows_of([]), adds(20, "w"), adds(40, "n"))))


def blocks(bench):
    """One ADD by a node that has many blocks, large blocks or full ones."""
    each = lambda rows, count=20: bench.each(rows, adds(2, "w"), adds(count, "n"))
    tell("one ADD of a daemon, by what its node has", "instructions")
    one, few, many, most = (each(full_blocks(count)) for count in (0, 16, 116, 156))
    tell("  1 block", number(one))
    tell("  157 blocks, of which 156 are full", number(most), times(most, one))
    tell("  for each full block more", number((many - few) / 100))
    small, large = each(held(4_000)), each(held(4_000, 20), 10)
    tell("  4,000 held in blocks of 64", number(small))
    tell("  4,000 held in a block of 4,096", number(large), times(large, small))


def frees(bench):
    """Requests of a daemon that free many addresses."""
    tell("what one request of a daemon frees, each", "instructions")
    lines = [json.dumps({"request": {"collect": {"live": []}}}), json.dumps({"feed": []})]
    for count in (250, 1_000):
        rows = held(count, 20)
        before, _ = bench.served(bench.file("frees", rows), [])
        after, replies = bench.served(bench.file("frees", rows), lines)
        if replies[-1].count('"freed":true') != count:
            sys.exit(f"not all are freed: {replies[-1][:200]}")
        tell(f"  {count} leaks of one block of 4,096, an address", number((after - before) / count))
    for count in (100, 400):
        whole = bench.each(one_handle(count), [], [json.dumps({"request": {"del": {"handle": "net.all"}}})], '"answer"')
        tell(f"  a DEL of a handle in {count} blocks, a block", number(whole / count))


def fill(bench):
    """A script in which one node fills a pool: an entry of the next 64 ADDs, after so many."""
    tell("one node fills a /16, an entry", "instructions")
    none = 'begin 0 {"del":{"handle":"net.none"}}\nturn 0\n'
    # (the first one claims a block, which is 9 calls more)
    more = "".join(f'begin 0 {{"add":{{"handle":"net.m{place}","node":"node-0"}}}}\nturn 0 {8 if place else 17}\n'
                   for place in range(64))
    for count in (960, 8_000, 64_000):
        # (the rows are those that so many ADDs leave, since to play them all takes callgrind very long)
        rows = row_lines(held(count, pool="10.0.0.0/16"))
        before, first = bench.played(rows + none)
        after, second = bench.played(rows + none + more)
        if second - first != 63 * 9 + 18:
            sys.exit(f"other calls than those of 64 ADDs: {second - first} entries")
        tell(f"  after {count:,} ADDs", number((after - before) / (second - first)))


def reserved(bench):
    """One ADD beside reserved addresses elsewhere."""
    tell("one ADD of a daemon, beside reserved CIDRs of another pool", "instructions")
    none = None
    for count in (0, 1_024, 16_384):
        each = bench.each(beside_reserved(count), adds(2, "w"), adds(20, "n"))
        none = none or each
        tell(f"  {count:,} reserved", number(each), times(each, none))


def play(bench):
    """A script of many turns: an entry."""
    tell("the script of bench/play_load.py, an entry", "instructions")
    load = f"{os.path.dirname(os.path.abspath(__file__))}/play_load.py"
    script = subprocess.run([sys.executable, load], capture_output=True, text=True, check=True).stdout
    work, entries = bench.played(script)
    tell(f"  {entries:,} entries", number(work / entries))


def opening(bench):
    """Opening rows, and what a daemon keeps of them."""
    tell("opening, a row", "instructions", "bytes at the peak")
    words, none = [bench.program, "get", "config"], bench.file("none", rows_of([]))
    base, first = opened(words, none)
    for count in (10_000, 40_000):
        work, peak = opened(words, bench.file("opening", so_many_rows(count)))
        tell(f"  {count:,} rows", number((work - base) / count), number((peak - first) / count))
    tell("what a daemon keeps after opening, an address with its handle", "bytes")
    alone = kept_by_daemon(bench, none)
    for count in (10_000, 40_000):
        kept = kept_by_daemon(bench, bench.file("opening", held(count)))
        tell(f"  {count:,} addresses", number((kept - alone) / count))


def opened(words, file):
    """The instructions of a run over the file, and the most bytes of memory that another run takes."""
    work, _ = instructions(words, {"IPAM_DB": file})
    return work, ran(words, environment=with_these({"IPAM_DB": file})).peak * 1024


def kept_by_daemon(bench, file):
    """The bytes of memory of a daemon that has opened the file."""
    with serving(bench, file) as server, open(f"/proc/{server.pid}/status") as status:
        return int(re.search(r"VmRSS:\s+(\d+) kB", status.read())[1]) * 1024


@contextlib.contextmanager
def serving(bench, file):
    """A daemon over the file, which listens."""
    quiet = {"stdout": subprocess.DEVNULL, "stderr": subprocess.DEVNULL}
    server = subprocess.Popen([bench.program, "serve", bench.socket, "2"], env=with_these({"IPAM_DB": file}), **quiet)
    try:
        bench.asked([OPENED])
        yield server
    finally:
        server.terminate()
        server.wait()


def over_rows(words, theirs):
    """A section: a word of the program over many rows, beside what sqlite3 does of the same file."""
    def section(bench):
        file, copy = bench.file("rows", so_many_rows(ROWS)), f"{bench.folder}/copy.db"
        tell(f"{ROWS:,} rows", "instructions", "to sqlite3's", "processor, s", "peak in KiB")
        base = None
        for what, command in ((f"sqlite3 '{theirs}'", ["sqlite3", file, theirs]),
                              (" ".join(words), [bench.program, *words])):
            work, one = looked([word.replace("COPY", copy) for word in command], file, copy)
            base = base or work
            tell(f"  {what}", number(work), times(work, base), f"{one.processor:.2f}", number(one.peak))
    return section


def looked(command, file, copy):
    """The instructions of a run over the file, and another run. What they write to `copy` is taken away."""
    work, _ = instructions(command, {"IPAM_DB": file})
    remove(copy)
    one = ran(command, environment=with_these({"IPAM_DB": file}))
    remove(copy)
    if one.status:
        sys.exit(f"{command} ended with {one.status}")
    return work, one


def remove(path):
    """Takes a database away with all that stands beside it."""
    for end in ("", "-wal", "-shm", "-journal", "-lock", ".turn"):
        if os.path.exists(path + end):
            os.remove(path + end)


def client(bench):
    """One ADD by a process that calls a daemon."""
    # (made as ./ipam install makes it, of this program and not of the one that ./ipam runs)
    installed = shutil.copy(bench.program, f"{bench.folder}/calico-ipam")
    with open(f"{installed}.conf", "w") as file:
        file.write(f"daemon {bench.socket}\n")
    tell("one ADD by a process that calls a daemon", "system calls")
    with serving(bench, bench.file("client", rows_of([]))):
        for name, words in (("call", [bench.program, "call", bench.socket]), ("the installed plugin", [installed])):
            # (the daemon's calls are not counted)
            variables = {**call_of(f"by-{name[-6:]}"), "IPAM_DB": f"{bench.folder}/none.db"}
            tell(f"  {name}", number(system_calls(words, variables, configuration("node-0"))))


SELECT = "select * from rows"
# each section, with the programs that it cannot be without
SECTIONS = {
    "plugin": (plugin, ()), "client": (client, ("strace",)), "daemon": (daemon, ("valgrind",)),
    "blocks": (blocks, ("valgrind",)), "reserved": (reserved, ("valgrind",)), "frees": (frees, ("valgrind",)),
    "play": (play, ("valgrind",)), "fill": (fill, ("valgrind",)), "opening": (opening, ("valgrind", "time")),
    "show": (over_rows(["show"], SELECT), ("valgrind", "sqlite3", "time")),
    "get": (over_rows(["get"], SELECT), ("valgrind", "sqlite3", "time")),
    "audit": (over_rows(["audit", "4"], SELECT), ("valgrind", "sqlite3", "time")),
    "backup": (over_rows(["backup", "COPY"], ".backup COPY"), ("valgrind", "sqlite3", "time")),
}


def main():
    program, local, *names = sys.argv[1:]
    if not set(names) <= set(SECTIONS):
        sys.exit(f"the sections are {', '.join(SECTIONS)}")
    # (so that a daemon that runs is ended too)
    signal.signal(signal.SIGTERM, lambda *_: sys.exit(1))
    with tempfile.TemporaryDirectory() as folder:
        bench = Bench(program, local, folder)
        for one in ("valgrind", "strace", "sqlite3", local):
            if not is_there(one):
                print(f"there is no {one}: what it is for is left out")
        for name in names or SECTIONS:
            section, needed = SECTIONS[name]
            lacking = [one for one in needed if not is_there(one)]
            if lacking:
                print(f"{name} is left out, for want of {' and '.join(lacking)}", flush=True)
            else:
                section(bench)


main()
