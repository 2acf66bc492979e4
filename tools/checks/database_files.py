#!/usr/bin/env python3
"""Tries the program over database files: damaged, locked, of another shape or mode, and left by a program that
was killed, or that failed, at each of its writes.

    tools/checks/database_files.py [PROGRAM]        else release/ipam

Whatever the file is, the program has to end with one of its statuses. Afterwards Python's SQLite has to
find the rows from before, or those after a front part of what was asked, with everything that was reported
as applied. Each case that failed has a line. The last line is 'N passed, M failed'.
It needs Linux, and strace for the writers that are killed or made to fail: without it those cases fail.
"""
import contextlib
import json
import os
import random
import resource
import shutil
import signal
import socket
import sqlite3
import subprocess
import sys
import tempfile
import time

HERE = os.path.dirname(os.path.abspath(__file__))
PROGRAM = os.path.abspath(sys.argv[1]) if len(sys.argv) > 1 else os.path.join(HERE, "../../release/ipam")
NOBODY = 65534
DONE, REFUSED, KEEPER, RULES = 0, 1, 5, 7
FAULT = b"keeper fault\n"

# What SQLite tells of a new file until the program, killed on the way, has opened it again.
HALF_MADE = "file is not a database"

TABLE = "create table rows(key TEXT PRIMARY KEY, revision INTEGER NOT NULL, body TEXT NOT NULL)"
POOLS = '{"pools":[{"blockSize":26,"cidr":"192.168.0.0/16","disabled":false,"name":"p"}]}'
NONE = '{"pools":[]}'


def row(key, revision, body):
    """The statement that puts in a row, whose key, revision and body are SQL."""
    return f"insert into rows(key, revision, body) values({key}, {revision}, {body})"


POOL = row("'pools'", 1, f"'{POOLS}'")

# How the file was made, and how `get`, and an `apply` of one more reservation, end over it.
SHAPES = [
    ("a file without a table", ["pragma user_version = 1"], KEEPER, KEEPER),
    ("an empty file of SQLite's", ["vacuum"], KEEPER, KEEPER),
    ("an empty file with a log of SQLite's", ["pragma journal_mode = wal"], KEEPER, KEEPER),
    ("a file whose table was dropped", [TABLE, POOL, "drop table rows", "vacuum"], KEEPER, KEEPER),
    ("a file of another table", ["create table other(a)"], KEEPER, KEEPER),
    ("a table without rows", [TABLE], DONE, DONE),
    ("a row", [TABLE, POOL], DONE, DONE),
    ("another table beside it", [TABLE, POOL, "create table other(a)", "insert into other values(1)"], DONE, DONE),
    ("the same table in other letters", ["Create Table ROWS ( Key text primary key,\n revision integer NOT NULL, body TEXT not null )", POOL], DONE, DONE),
    ("one more column", [TABLE.replace(")", ", more TEXT)"), POOL], KEEPER, KEEPER),
    ("a strict table", [TABLE + " STRICT", POOL], KEEPER, KEEPER),
    ("revisions of text", [TABLE.replace("revision INTEGER", "revision TEXT")], KEEPER, KEEPER),
    ("pages of 512 bytes", ["pragma page_size = 512", TABLE, POOL], DONE, DONE),
    ("pages of 65,536 bytes", ["pragma page_size = 65536", TABLE, POOL], DONE, DONE),
    ("a log of SQLite's", ["pragma journal_mode = wal", TABLE, POOL], DONE, DONE),
    ("a table with a check", [TABLE.replace("INTEGER NOT NULL", "INTEGER NOT NULL CHECK (revision < 2)"), POOL], KEEPER, KEEPER),
    ("the last revision", [TABLE, row("'pools'", 2**62, f"'{NONE}'")], DONE, REFUSED),
    ("the revision 0", [TABLE, row("'pools'", 0, f"'{NONE}'")], RULES, RULES),
    ("a revision above the last", [TABLE, row("'pools'", 2**62 + 1, f"'{NONE}'")], RULES, RULES),
    ("the greatest number", [TABLE, row("'pools'", 2**63 - 1, f"'{NONE}'")], RULES, RULES),
    ("a key of no kind", [TABLE, row("'x'", 1, "'{}'")], RULES, RULES),
    ("a key with a zero byte", [TABLE, row("'pools' || char(0)", 1, f"'{NONE}'")], RULES, RULES),
    ("a body that is no JSON", [TABLE, row("'pools'", 1, "'{'")], RULES, RULES),
    ("a body with a blank", [TABLE, row("'pools'", 1, """'{"pools": []}'""")], RULES, RULES),
    ("a negative revision", [TABLE, row("'pools'", -1, f"'{NONE}'")], KEEPER, KEEPER),
    ("a revision that is a text", [TABLE, row("'pools'", "'one'", f"'{NONE}'")], KEEPER, KEEPER),
    ("a revision that is no whole number", [TABLE, row("'pools'", 1.5, f"'{NONE}'")], KEEPER, KEEPER),
    ("a body of bytes", [TABLE, row("'pools'", 1, "X'7b7d'")], KEEPER, KEEPER),
    ("a body that is no UTF-8", [TABLE, row("'pools'", 1, "CAST(X'ff' AS TEXT)")], KEEPER, KEEPER),
    ("no body", [TABLE.replace("body TEXT NOT NULL", "body TEXT"), row("'pools'", 1, "NULL")], KEEPER, KEEPER),
    ("a key of bytes", [TABLE, row("X'706f6f6c73'", 1, f"'{NONE}'")], KEEPER, KEEPER),
    ("a key that is no UTF-8", [TABLE, row("CAST(X'ff' AS TEXT)", 1, "'{}'")], KEEPER, KEEPER),
    ("no key", [TABLE, row("NULL", 1, f"'{NONE}'")], KEEPER, KEEPER),
    ("a key twice", [TABLE.replace(" PRIMARY KEY", ""), POOL, POOL], KEEPER, KEEPER),
    ("keys in another order", [TABLE.replace("key TEXT", "key TEXT COLLATE NOCASE"), row("'handle/n.a'", 1, "'{}'"), row("'handle/n.B'", 2, "'{}'")], KEEPER, KEEPER),
    ("no column of bodies", ["create table rows(key TEXT PRIMARY KEY, revision INTEGER NOT NULL)"], KEEPER, KEEPER),
    ("one column of another name", ["create table rows(a)", "insert into rows values(1)"], KEEPER, KEEPER),
    ("an index of the table's name", ["create table t(a)", "create index rows on t(a)"], KEEPER, KEEPER),
    ("a view of the table's name", ["create view rows as select 'x' as key, -1 as revision, '' as body"], KEEPER, KEEPER),
    ("a table without row numbers", [TABLE + " WITHOUT ROWID", POOL], KEEPER, KEEPER),
    ("a trigger", [TABLE, POOL, "create trigger t after insert on rows begin delete from rows; end"], KEEPER, KEEPER),
    ("texts in UTF-16", ["pragma encoding = 'UTF-16le'", TABLE, POOL], KEEPER, KEEPER),
    ("a file that shrinks by itself", ["pragma auto_vacuum = 1", TABLE, POOL], KEEPER, KEEPER),
]


def reservation(name):
    return {
        "apiVersion": "projectcalico.org/v3",
        "kind": "IPReservation",
        "metadata": {"name": name},
        "spec": {"reservedCIDRs": ["192.168.1.0/30"]},
    }


ONE_MORE = json.dumps(reservation("r")).encode()
TWO_MORE = json.dumps({"apiVersion": "v1", "kind": "List", "items": [reservation("r"), reservation("s")]}).encode()


class Tally:
    passed = 0
    failed = 0

    def check(self, case, is_right, told):
        if is_right:
            self.passed += 1
        else:
            self.failed += 1
            print(f"FAILED {case}: {told}")


def run(path, words, given=b"", before=(), **more):
    """What the program answers over the file, in ten seconds; `before` are the words before it."""
    env = {"PATH": os.environ["PATH"], "IPAM_DB": path}
    env.update(more.pop("env", {}))
    return subprocess.run([*before, PROGRAM, *words], input=given, env=env, capture_output=True, timeout=10, **more)


def make(path, statements):
    conn = sqlite3.connect(path, isolation_level=None)
    for statement in statements:
        conn.execute(statement)
    conn.close()


def is_told(got):
    """A line on standard error tells why, where the keeper failed, and there is none else."""
    if got.returncode != KEEPER:
        return not got.stderr
    return got.stderr.startswith(b"ipam: ") and got.stderr.count(b"\n") == 1


def rows_of(path):
    """All that SQLite finds in a copy of the file and its log, or why it finds nothing."""
    with tempfile.TemporaryDirectory() as folder:
        copy = os.path.join(folder, "copy.db")
        for end in ("", "-wal", "-journal"):
            if os.path.isfile(path + end):
                shutil.copyfile(path + end, copy + end)
        if not os.path.exists(copy):
            return []
        conn = sqlite3.connect(copy)
        conn.text_factory = bytes
        try:
            if conn.execute("pragma integrity_check").fetchall() != [(b"ok",)]:
                return "damaged"
            if not conn.execute("select 1 from sqlite_master where lower(name) = 'rows' and type <> 'index'").fetchall():
                return []
            return conn.execute("select * from rows order by 1").fetchall()
        except sqlite3.Error as error:
            return str(error)
        finally:
            conn.close()


def names_of(rows):
    """The names of the reservations in the rows."""
    bodies = [row[2] for row in rows if row[0] == b"reservations"]
    return [it["name"] for it in json.loads(bodies[0])["reservations"]] if bodies else []


def told_names(output):
    return [line.split()[2].decode() for line in output.splitlines() if line.startswith(b"applied ")]


def shapes(tally, folder):
    for at, (case, statements, on_get, on_apply) in enumerate(SHAPES):
        path = os.path.join(folder, f"shape{at}.db")
        make(path, statements)
        before = rows_of(path)
        got = run(path, ["get"])
        right = got.returncode == on_get and (on_get != KEEPER or got.stdout == FAULT)
        tally.check(case, right and is_told(got), f"get: {got}")
        tally.check(case, rows_of(path) == before, "other rows after get")
        got = run(path, ["apply"], ONE_MORE)
        tally.check(case, got.returncode == on_apply and is_told(got), f"apply: {got}")
        after = rows_of(path)
        kept = [it for it in after if it[0] != b"reservations"]
        tally.check(case, kept == before, "other rows after apply")
        tally.check(case, (names_of(after) == ["r"]) == (on_apply == DONE) or after == before and on_apply != DONE, f"rows {after}")


READERS = [["get"], ["routes", "a"]]
WRITERS = [["release", "a", "10.0.0.0/26"], ["apply"]]


def fault_over(tally, case, path, commands=tuple(READERS + WRITERS), first=(), **more):
    """Each command is to tell of a fault of the keeper, and a CNI call of code 5. `first` are words before theirs."""
    for words in commands:
        got = run(path, [*first, *words], ONE_MORE, **more)
        tally.check(f"{case}, {words[0]}", got.returncode == KEEPER and got.stdout == FAULT and is_told(got), got)
    got = cni(path, "ADD", first, **more)
    is_code = got.returncode == REFUSED and json.loads(got.stdout)["code"] == 5
    tally.check(f"{case}, cni", is_code, got)


def cni(path, command, words=(), **more):
    conf = {"cniVersion": "1.0.0", "name": "n", "type": "calico", "nodename": "a", "ipam": {"type": "calico-ipam"}}
    env = {"CNI_COMMAND": command, "CNI_CONTAINERID": "c1", "CNI_NETNS": "/n", "CNI_IFNAME": "eth0", "CNI_PATH": "/"}
    return run(path, list(words), json.dumps(conf).encode(), env=env, **more)


def places(tally, folder):
    """Files that are no database, and names without one."""
    contents = {"a text": b"no database", "zeros": bytes(8192), "a header alone": b"SQLite format 3\0"}
    for at, (case, content) in enumerate(contents.items()):
        path = os.path.join(folder, f"place{at}.db")
        with open(path, "wb") as file:
            file.write(content)
        fault_over(tally, case, path)
        with open(path, "rb") as file:
            tally.check(case, file.read() == content, "other bytes")
    here = os.path.join(folder, "folder.db")
    os.mkdir(here)
    os.mkfifo(os.path.join(folder, "fifo.db"))
    log = os.path.join(folder, "log.db")
    make(log, [TABLE, POOL])
    os.mkdir(log + "-wal")
    # (who only looks finds no rows where there is no file)
    fault_over(tally, "a name in no folder", os.path.join(folder, "none/x.db"), WRITERS)
    for case, path in {
        "a folder": here,
        "an empty name": "",
        "a name of SQLite's": ":memory:",
        "a pipe": os.path.join(folder, "fifo.db"),
        "a device": "/dev/null",
        "a folder for a log": log,
    }.items():
        fault_over(tally, case, path)
    tally.check("a folder for a log", len(rows_of(log)) == 1, "other rows")


def names(tally, folder):
    """A second name, a log without its file, and a name that leads nowhere."""
    second = os.path.join(folder, "second.db")
    make(second, [TABLE, POOL])
    os.link(second, second + ".other")
    fault_over(tally, "a hard link", second)
    os.unlink(second + ".other")
    tally.check("no hard link", run(second, ["get"]).returncode == DONE, "refused")
    alone = os.path.join(folder, "alone.db")
    got = killed(alone)
    tally.check("a killed daemon", got.returncode == DONE and len(rows_of(alone)) > 1, f"{got} {rows_of(alone)}")
    os.unlink(alone)
    fault_over(tally, "a log without its file", alone)
    tally.check("a log without its file", not os.path.exists(alone), "a file was made")
    lost = os.path.join(folder, "lost.db")
    os.symlink("nowhere.db", lost)
    fault_over(tally, "a link that leads nowhere", lost)


def killed(path):
    """A file whose last rows are in its log, since the program was killed: those of one address."""
    make(path, [TABLE, POOL])
    held, address = holder(path)
    for _ in range(100):
        got = cni(path, "ADD", words=["call", address])
        if got.returncode == DONE:
            break
        time.sleep(0.05)
    let_go(held)
    return got


def unlogged(tally, folder):
    """A file that is copied without its log is none whose making was stopped: it has its table."""
    path = os.path.join(folder, "unlogged.db")
    tally.check("unlogged", run(path, ["apply"], ONE_MORE).returncode == DONE, "apply failed")
    tally.check("a file and its log", names_of(rows_of(path)) == ["r"], rows_of(path))
    copy = path + ".copy"
    shutil.copyfile(path, copy)
    conn = sqlite3.connect(copy)
    found = conn.execute("select name from sqlite_master where type = 'table'").fetchall()
    conn.close()
    tally.check("a copy without its log", found == [("rows",)], found)
    backup = path + ".backup"
    got = run(path, ["backup", backup])
    os.unlink(backup + "-wal")
    tally.check("a backup without its log", got.returncode == DONE and names_of(rows_of(backup)) == ["r"], got)


def emptied(tally, folder):
    """A file that lost all its bytes, beside the log that has its rows, is no new one."""
    path = os.path.join(folder, "emptied.db")
    killed(path)
    before = contents(path + "-wal")
    os.truncate(path, 0)
    fault_over(tally, "an empty file and its log", path)
    tally.check("an empty file and its log", os.path.getsize(path) == 0 and contents(path + "-wal") == before, "other bytes")
    os.truncate(path + "-wal", 0)
    tally.check("an empty file and an empty log", run(path, ["apply"], ONE_MORE).returncode == DONE, "refused")


def contents(path):
    with open(path, "rb") as file:
        return file.read()


def session(address, lines):
    """The replies of a daemon to these lines, as far as it gives them."""
    host, port = address.split(":")
    with socket.create_connection((host, int(port)), timeout=60) as link, link.makefile("rwb") as file:
        replies = []
        for line in lines:
            file.write(line + b"\n")
            file.flush()
            replies.append(file.readline())
            if not replies[-1]:
                break
    return replies


def listening(address):
    """Waits until the daemon is there."""
    host, port = address.split(":")
    for _ in range(500):
        with contextlib.suppress(OSError):
            socket.create_connection((host, int(port))).close()
            return
        time.sleep(0.02)


def reserve(number):
    return b'{"request":{"reserve":{"cidrs":["10.0.0.0/24"],"name":"r%d"}}}' % (number % 100)


def flips(tally, folder):
    """One byte is changed in a log of 40 writes that is not folded: who opens the file is to find all of them but
    the last, or is refused."""
    path = os.path.join(folder, "flips.db")
    make(path, [TABLE])
    held, address = holder(path)
    listening(address)
    replies = session(address, [reserve(number) for number in range(40)])
    let_go(held)
    tally.check("flips", all(b"done" in reply for reply in replies) and len(names_of(rows_of(path))) == 40, "too few rows")
    log = contents(path + "-wal")
    pages = [at for at in range(32, len(log) - 24, 24 + 4096) if log[at + 8 : at + 16] == log[16:24]]
    draw = random.Random(2)
    counts = {"all": 0, "without the last": 0, "refused": 0, "fewer": 0}
    drawn = [draw.randrange(pages[-1] + 24 + 4096) for _ in range(200)]
    for at in [*range(32), *drawn]:
        copy = os.path.join(folder, "flipped.db")
        shutil.copyfile(path, copy)
        with open(copy + "-wal", "wb") as file:
            file.write(log[:at] + bytes([log[at] ^ 0xFF]) + log[at + 1 :])
        got = run(copy, ["get"])
        found = got.stdout.count(b'"name":"r')
        if got.returncode == KEEPER and b"log" in got.stderr:
            counts["refused"] += 1
        elif got.returncode == DONE and found >= 39:
            counts["all" if found == 40 else "without the last"] += 1
        else:
            counts["fewer"] += 1
    tally.check("flips", counts["fewer"] == 0 and counts["refused"] > 150, counts)
    print(f"one byte changed in a log of 40 writes: {counts}")


def cuts(tally, folder):
    """The log of a running daemon is made shorter: the daemon ends, and answers nothing more. A log that grows and is
    folded by the daemon itself is no such one."""
    path = os.path.join(folder, "cut.db")
    make(path, [TABLE])
    held, address = holder(path)
    listening(address)
    replies = session(address, [reserve(number) for number in range(1500)])
    tally.check("a log of many folds", len(replies) == 1500 and all(b"done" in reply for reply in replies), replies[-1])
    tally.check("a log of many folds", os.path.getsize(path + "-wal") < 6_000_000, os.path.getsize(path + "-wal"))
    os.truncate(path + "-wal", os.path.getsize(path + "-wal") - 1)
    replies = session(address, [reserve(0)])
    tally.check("a log that was cut", replies == [b""], replies)
    out, _ = held.communicate(timeout=30)
    tally.check("a log that was cut", held.returncode == KEEPER and out == FAULT, (held.returncode, out))


def unfolded(tally, folder):
    """Once a sync failed, nobody folds the log: a command and a daemon leave the file as it was."""
    for number in range(1, 40):
        path = used(folder, f"unfolded{number}.db")
        before = contents(path)
        trace = ["strace", "-f", "-o", "/dev/null", "-e", "trace=fdatasync", "-e", f"inject=fdatasync:error=EIO:when={number}"]
        got = run(path, ["apply"], TWO_MORE, before=trace)
        if got.returncode == DONE:
            break
        tally.check(f"sync {number} failed", got.returncode == KEEPER and contents(path) == before, got)
    tally.check("syncs that fail", 2 < number < 39, number)
    path = used(folder, "unfolded.db")
    held, address = holder(path)
    listening(address)
    session(address, [reserve(1)])
    before = contents(path)
    trace = ["strace", "-f", "-q", "-o", "/dev/null", "-e", "trace=fdatasync", "-e", "inject=fdatasync:error=EIO", "-p", str(held.pid)]
    with subprocess.Popen(trace, stderr=subprocess.DEVNULL) as tracer:
        time.sleep(1)
        replies = session(address, [reserve(2)])
        out, _ = held.communicate(timeout=30)
        tracer.wait(30)
    tally.check("a daemon's sync that failed", replies == [b""] and out == FAULT, (replies, out))
    tally.check("a daemon's sync that failed", contents(path) == before, "the file was changed")
    got = run(path, ["get"])
    tally.check("a daemon's sync that failed", got.returncode == DONE and b'"r1"' in got.stdout, got)


def full_disk(tally, folder):
    """With 64 KB left on the disk a DEL goes well, wherever the log ends."""
    if os.geteuid() != 0:
        return
    here = os.path.join(folder, "disk")
    os.mkdir(here)
    if subprocess.run(["mount", "-t", "tmpfs", "-o", "size=2m", "tmpfs", here], capture_output=True).returncode:
        return
    try:
        path = os.path.join(here, "full.db")
        make(path, [TABLE, POOL])
        for count in range(12):
            tally.check("a full disk", cni(path, "ADD").returncode == DONE, "ADD")
            room = os.statvfs(here).f_bavail * os.statvfs(here).f_frsize
            with open(os.path.join(here, "filler"), "wb") as file:
                file.write(bytes(max(0, room - 65536)))
            got = cni(path, "DEL")
            tally.check(f"a full disk, DEL {count}", got.returncode == DONE, got)
            os.unlink(os.path.join(here, "filler"))
    finally:
        subprocess.run(["umount", here], check=False)


def dropped(tally, folder):
    """A file of the program's whose table SQLite dropped is none whose making was stopped."""
    for at, statements in enumerate([["drop table rows"], ["drop table rows", "vacuum"]]):
        path = os.path.join(folder, f"dropped{at}.db")
        tally.check("dropped", run(path, ["apply"], ONE_MORE).returncode == DONE, "apply failed")
        make(path, statements)
        fault_over(tally, "; ".join(statements), path)


def modes(tally, folder):
    """What the program makes has one mode, whatever the mask."""
    for mask in (0o000, 0o022, 0o077):
        path = os.path.join(folder, f"mask{mask}.db")
        got = run(path, ["apply"], ONE_MORE, umask=mask)
        found = [oct(os.stat(path + end).st_mode & 0o7777) for end in ("", "-wal")]
        tally.check(f"mask {mask:o}", got.returncode == DONE and found == ["0o640", "0o640"], found)


def untouched(tally, folder):
    """Commands that need no database, or only look, make none."""
    for at, (words, given, env, status) in enumerate([
        (["get"], b"", {}, DONE),
        (["routes", "a"], b"", {}, DONE),
        (["audit", "1"], b"", {}, DONE),
        (["nonsense"], b"", {}, 2),
        ([], b'{"cniVersion":"1.0.0"}', {"CNI_COMMAND": "VERSION"}, DONE),
        ([], b"{", {"CNI_COMMAND": "ADD"}, REFUSED),
    ]):
        path = os.path.join(folder, f"untouched{at}.db")
        got = run(path, words, given, env=env)
        left = [it for it in os.listdir(folder) if it.startswith(f"untouched{at}.")]
        tally.check(f"no file for {words} {env}", got.returncode == status and not left, f"{left} {got}")


def rights(tally, folder):
    """A file, and a folder, that the program may only read."""
    if os.geteuid() == 0:
        os.chmod(os.path.dirname(folder), 0o755)
        more = {"user": NOBODY, "group": NOBODY, "extra_groups": []}
    else:
        more = {}
    for case, of_folder, of_file, may_read in [("a file to be read alone", 0o777, 0o444, True), ("a file without rights", 0o777, 0o000, False), ("a folder to be read alone", 0o555, 0o666, True)]:
        here = os.path.join(folder, case.replace(" ", "_"))
        os.mkdir(here)
        path = os.path.join(here, "a.db")
        make(path, [TABLE, POOL])
        before = rows_of(path)
        os.chmod(path, of_file)
        os.chmod(here, of_folder)
        fault_over(tally, case, path, WRITERS if may_read else READERS + WRITERS, **more)
        for words in READERS if may_read else []:
            got = run(path, words, **more)
            right = got.returncode == DONE and not got.stderr and (words != ["get"] or got.stdout.startswith(b"pools 1 "))
            tally.check(f"{case}, {words[0]}", right, got)
        os.chmod(here, 0o755)
        os.chmod(path, 0o644)
        tally.check(case, rows_of(path) == before, "other rows")


def holder(path):
    """A daemon that has the file, and its address."""
    with socket.socket() as found:
        found.bind(("127.0.0.1", 0))
        address = "127.0.0.1:%d" % found.getsockname()[1]
    env = {"IPAM_DB": path}
    held = subprocess.Popen([PROGRAM, "serve", address, "1"], env=env, stdout=subprocess.PIPE, stderr=subprocess.DEVNULL)
    while held.poll() is None and f"{os.path.realpath(path)}-wal" not in files_of(held.pid):
        pass
    return held, address


def let_go(held):
    held.send_signal(signal.SIGKILL)
    held.communicate()


def files_of(pid):
    """The names of the files that the process has open, but for those that it closes meanwhile."""
    folder = f"/proc/{pid}/fd"
    names = []
    for name in os.listdir(folder):
        with contextlib.suppress(OSError):
            names.append(os.path.realpath(os.path.join(folder, name)))
    return names


def locks(tally, folder):
    path = os.path.join(folder, "locked.db")
    make(path, [TABLE, POOL])
    run(path, ["apply"], ONE_MORE)
    held, _ = holder(path)
    fault_over(tally, "locked by the program", path, first=["--no-wait"])
    let_go(held)
    tally.check("a killed program's lock", run(path, ["get"]).returncode == DONE, "not free")
    for begin in ("begin exclusive", "begin immediate", "begin"):
        conn = sqlite3.connect(path, isolation_level=None)
        conn.execute(begin)
        conn.execute("select * from rows").fetchall()
        fault_over(tally, f"locked by SQLite, {begin}", path, first=["--no-wait"])
        conn.execute("commit")
        conn.close()
    tally.check("a lock of SQLite's", names_of(rows_of(path)) == ["r"], rows_of(path))


def stopped_sqlite(tally, folder):
    """SQLite was killed in a transaction, of which the file has a part, and the way back is in its journal."""
    path = os.path.join(folder, "stopped.db")
    make(path, [TABLE, POOL])
    child = os.fork()
    if child == 0:
        conn = sqlite3.connect(path, isolation_level=None)
        conn.execute("pragma cache_size = 1")
        conn.execute("begin")
        for number in range(2000):
            conn.execute(row(f"'handle/n.{number}'", 1, "'{}'"))
        os.kill(os.getpid(), signal.SIGKILL)
    os.waitpid(child, 0)
    tally.check("SQLite's journal", os.path.getsize(path) > 100_000, "the file has no part of it")
    fault_over(tally, "SQLite's journal", path)
    tally.check("SQLite's journal", len(rows_of(path)) == 1, "other rows")


def used(folder, name):
    """A file that the program has written, with a reservation q, and its log."""
    path = os.path.join(folder, name)
    make(path, [TABLE, POOL])
    run(path, ["apply"], json.dumps(reservation("q")).encode())
    return path


def check_left(tally, case, path, got, names):
    """What is left of an `apply` of two reservations that was killed or failed: a front part."""
    left = rows_of(path)
    if left == HALF_MADE and not names:
        left = []
    if isinstance(left, str):
        tally.check(case, False, left)
        return
    found = names_of(left)
    parts = [names + more for more in ([], ["r"], ["r", "s"])]
    tally.check(case, found in parts, f"rows {left}")
    tally.check(case, set(told_names(got.stdout)) <= set(found), f"{got.stdout} but rows {found}")
    again = run(path, ["get"])
    tally.check(case, again.returncode == DONE and rows_of(path) == left, f"get: {again}")
    again = run(path, ["apply"], json.dumps(reservation("t")).encode())
    tally.check(case, again.returncode == DONE and names_of(rows_of(path)) == found + ["t"], f"apply: {again}")


CALLS = ["pwrite64", "fdatasync"]
FATES = ["signal=KILL", "error=EIO", "error=ENOSPC"]


def failed_writes(tally, folder, is_new):
    """The program is killed at, or fails at, each of its writes in turn."""
    for call in CALLS:
        for fate in FATES:
            for number in range(1, 100):
                name = f"{call}.{fate}.{number}.{is_new}.db"
                path = os.path.join(folder, name) if is_new else used(folder, name)
                trace = ["strace", "-f", "-o", "/dev/null", "-e", f"trace={call}", "-e", f"inject={call}:{fate}:when={number}"]
                got = run(path, ["apply"], TWO_MORE, before=trace)
                if got.returncode == DONE:
                    break
                case = f"{fate} at {call} {number}, {'new' if is_new else 'used'} file"
                wanted = -signal.SIGKILL if fate == "signal=KILL" else KEEPER
                tally.check(case, got.returncode in (wanted, 128 + signal.SIGKILL if wanted < 0 else wanted), got)
                check_left(tally, case, path, got, [] if is_new else ["q"])
            tally.check(f"{fate} at {call}", 1 < number < 99, f"{number} calls: {got}")


def small_files(tally, folder):
    """No file may grow past a size, as on a full disk."""
    for size in range(0, 300_000, 10_007):
        path = used(folder, f"small{size}.db")

        def limit():
            signal.signal(signal.SIGXFSZ, signal.SIG_IGN)
            resource.setrlimit(resource.RLIMIT_FSIZE, (size, size))

        got = run(path, ["apply"], TWO_MORE, preexec_fn=limit, restore_signals=False)
        case = f"files of at most {size} bytes"
        tally.check(case, got.returncode in (DONE, KEEPER), got)
        check_left(tally, case, path, got, ["q"])


def damage(tally, folder):
    """Drawn bytes of the file or its log are changed, or an end is cut off."""
    draw = random.Random(1)
    whole = used(folder, "whole.db")
    for number in range(400):
        path = os.path.join(folder, "damaged.db")
        for end in ("", "-wal"):
            shutil.copyfile(whole + end, path + end)
        with open(path + draw.choice(["", "-wal"]), "r+b") as file:
            size = os.path.getsize(file.name)
            if draw.randrange(4) == 0:
                file.truncate(draw.randrange(size))
            for _ in range(draw.randrange(1, 4)):
                file.seek(draw.randrange(min(size, 8192)))
                file.write(bytes([draw.randrange(256)]))
        for words in (["get"], ["apply"]):
            got = run(path, words, ONE_MORE)
            tally.check(f"damage {number}, {words[0]}", got.returncode in (DONE, REFUSED, KEEPER, RULES) and is_told(got), got)


def main():
    tally = Tally()
    with tempfile.TemporaryDirectory() as top:
        folder = os.path.join(top, "files")
        os.mkdir(folder)
        shapes(tally, folder)
        places(tally, folder)
        names(tally, folder)
        unlogged(tally, folder)
        emptied(tally, folder)
        flips(tally, folder)
        cuts(tally, folder)
        unfolded(tally, folder)
        full_disk(tally, folder)
        dropped(tally, folder)
        modes(tally, folder)
        untouched(tally, folder)
        rights(tally, folder)
        locks(tally, folder)
        stopped_sqlite(tally, folder)
        failed_writes(tally, folder, True)
        failed_writes(tally, folder, False)
        small_files(tally, folder)
        damage(tally, folder)
    print(f"{tally.passed} passed, {tally.failed} failed")
    return 1 if tally.failed else 0


if __name__ == "__main__":
    sys.exit(main())
