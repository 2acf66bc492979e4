#!/usr/bin/env python3
"""Times `get` over a SQLite file, step by step, and puts of rows, beside SQLite's own.

    bench/database.py PROGRAM [ROWS..]

Each step is a run over a file of so many rows that ends where the next step would begin:

    start   `--version`: the process alone
    open    `apply` of a bad document: the file is opened, which reads and checks all of it
    load    `get`, with a last row whose revision is negative: all rows are loaded, which is a fault
    texts   `get`, with a first row whose key is none: all keys and bodies are read too
    tests   `get`, with a row whose revision is too high: all ten rules are tested too
    rows    `get config`, where there is none: the datastore is made too, and nothing is printed
    print   `get`: all rows are printed too

What a step costs is the difference to the one before.
"""
import json
import os
import shutil
import sqlite3
import subprocess
import sys
import tempfile

from bases import FIRST_REVISION, TABLE, Block, rows_of, so_many_rows, text, write_file
from measured import Checks, median, ran

PUT = ("INSERT INTO rows(key, revision, body) VALUES (?1, ?2, ?3)"
       " ON CONFLICT(key) DO UPDATE SET revision = excluded.revision, body = excluded.body")
CONFIG = text({"autoAllocateBlocks": True, "maxBlocksPerHost": 0, "strictAffinity": False})
HIGH = "affinity/high/10.0.0.0/26", 2**62 + 1, text({"cidr": "10.0.0.0/26", "node": "high", "state": "pending"})
SELECT = "select key, revision, body from rows order by key"


class Bench:
    def __init__(self, program, folder):
        self.program, self.folder, self.checks = program, folder, Checks()
        self.out, self.document = f"{folder}/out", f"{folder}/document"

    def words(self, words, file, source="/dev/null", runs=5):
        """The median run of the program over the file, and what it wrote."""
        environment = {**os.environ, "IPAM_DB": file}
        one = median([ran([self.program, *words], source, self.out, environment) for _ in range(runs)])
        with open(self.out) as told:
            return one, told.read()

    def with_row(self, rows, row):
        file = f"{self.folder}/other.db"
        if os.path.exists(file):
            os.remove(file)
        write_file(file, [*rows, row] if row[0] > "b" else [row, *rows])
        return file


def steps(bench, rows, file):
    """The steps: a name, the words and their file, what is written, and the status."""
    pool = rows or rows_of([])
    yield "start", ["--version"], file, "ipam 0.1.0\n", 0
    yield "open", ["apply"], file, "refused: kind\n", 1
    yield "load", ["get"], bench.with_row(rows, ("zone", -1, "")), "keeper fault\n", 5
    yield "texts", ["get"], bench.with_row(rows, ("a", 1, "")), "datastore OR1 a\n", 7
    yield "tests", ["get"], bench.with_row(pool, HIGH if rows else ("config", 2**62 + 1, CONFIG)), \
        f"datastore OR10 {HIGH[0] if rows else 'config'}\n", 7
    yield "rows", ["get", "config"], file, "", 0
    yield "print", ["get"], file, "".join(f"{key} {revision} {body}\n" for key, revision, body in rows), 0


def tell_steps(bench, count):
    rows = so_many_rows(count) if count else []
    bench.checks.same(f"{count} rows are made", len(rows), count)
    file = f"{bench.folder}/rows-{count}.db"
    write_file(file, rows)
    before = 0
    with open(bench.document, "w") as document:
        document.write("{}")
    runs = 5 if count < 100_000 else 3
    for name, words, path, want, status in steps(bench, rows, file):
        one, got = bench.words(words, path, bench.document, runs)
        bench.checks.same(f"{count} rows, {name}", (got, one.status), (want, status))
        own = one.processor - before
        a_row = f"{own / count * 1e6:>8.2f}" if count else f"{'':>8}"
        tell(count, name, one, f"{own * 1e3:>9.1f}{a_row}")
        before = one.processor
    others(count, file, runs)


def tell(count, name, one, own=""):
    print(f"{count:>8} {name:<14}{one.wall * 1e3:>9.1f}{one.processor * 1e3:>9.1f}{own:>17}{one.peak:>10}", flush=True)


def others(count, file, runs):
    """SQLite's own programs on the same file."""
    script = f"import sqlite3; print(len(sqlite3.connect({file!r}).execute({SELECT!r}).fetchall()))"
    for name, words in (("sqlite3", ["sqlite3", file, SELECT]), ("Python", [sys.executable, "-c", script])):
        if shutil.which(words[0]):
            one = median([ran(words) for _ in range(runs)])
            tell(count, name, one)


def tell_puts(bench, count):
    """Puts one row so many times, each in a transaction of its own."""
    print("\nputs of a row, each on the disk before the next, in a file of 1,008 rows")
    print(f"{'':<44}{'puts':>6}{'wall s':>9}{'cpu s':>8}{'a second':>10}")
    rows = so_many_rows(1_008)
    items = [{"kind": "IPAMConfig", "spec": {"maxBlocksPerHost": number}} for number in range(count)]
    file = fresh(bench, rows)
    with open(bench.document, "w") as document:
        json.dump({"kind": "List", "items": items}, document)
    one, got = bench.words(["apply"], file, bench.document, 1)
    bench.checks.same("apply", (got, one.status), ("applied IPAMConfig default\n" * count, 0))
    last = text({"autoAllocateBlocks": True, "maxBlocksPerHost": count - 1, "strictAffinity": False})
    revision = FIRST_REVISION + len(rows) - 1 + count
    bench.checks.same("the row that is left", read(file, "config"), [("config", revision, last)])
    tell_put("apply of IPAMConfigs, one process", one, count)
    tell_collection(bench, count // 2)
    for mode in ("delete", "wal"):
        script = (f"import sqlite3\nbase = sqlite3.connect({fresh(bench, rows)!r}, isolation_level=None)\n"
                  f"base.execute('pragma journal_mode={mode}'); base.execute('pragma synchronous=full')\n"
                  f"for n in range({count}): base.execute({PUT!r}, ('config', n, {CONFIG!r}))\n")
        tell_put(f"Python, journal mode {mode}, synchronous full", ran([sys.executable, "-c", script]), count)
    if shutil.which("sqlite3"):
        with open(bench.document, "w") as document:
            document.writelines(f"INSERT INTO rows VALUES ('config', {n}, '{CONFIG}') ON CONFLICT(key) DO UPDATE"
                                " SET revision = excluded.revision, body = excluded.body;\n" for n in range(count))
        tell_put("sqlite3, as it comes", ran(["sqlite3", fresh(bench, rows)], bench.document), count)


def tell_collection(bench, leaks):
    """A CNI GC that frees so many addresses: of each it puts the block and removes the handle."""
    secondary = {"network": "net", "node": "node-a"}
    blocks = [Block(n, 26, "node-a", 50, 50, secondary=secondary) for n in range(leaks // 50)]
    file = fresh(bench, rows_of(blocks))
    with open(bench.document, "w") as document:
        json.dump({"cniVersion": "1.1.0", "name": "net", "type": "calico", "nodename": "node-a",
                   "ipam": {"type": "calico-ipam"}, "cni.dev/valid-attachments": []}, document)
    words = ["env", "CNI_COMMAND=GC", "CNI_PATH=/x", f"IPAM_DB={file}", bench.program]
    one = ran(words, bench.document, bench.out)
    with open(bench.out) as told:
        bench.checks.same("GC", (told.read(), one.status), ("", 0))
    base = sqlite3.connect(file)
    handles = base.execute("select count(*) from rows where key glob 'handle/*'").fetchone()
    bench.checks.same("handles that are left", handles, (0,))
    base.close()
    tell_put(f"CNI GC of {leaks} leaks, one process", one, 2 * leaks)


def fresh(bench, rows):
    file = f"{bench.folder}/puts.db"
    for end in ("", "-wal", "-shm", "-journal", "-lock"):
        if os.path.exists(file + end):
            os.remove(file + end)
    write_file(file, rows)
    return file


def read(file, key):
    base = sqlite3.connect(file)
    rows = base.execute("select key, revision, body from rows where key = ?", (key,)).fetchall()
    base.close()
    return rows


def tell_put(what, one, count):
    print(f"{what:<44}{count:>6}{one.wall:>9.2f}{one.processor:>8.2f}{count / one.wall:>10.0f}", flush=True)


def main():
    with tempfile.TemporaryDirectory(dir=os.environ.get("BENCH_FOLDER")) as folder:
        bench = Bench(sys.argv[1], folder)
        print(f"{'rows':>8} {'step':<14}{'wall ms':>9}{'cpu ms':>9}{'its own':>9}{'us/row':>8}{'KiB':>10}")
        for count in [int(one) for one in sys.argv[2:]] or [0, 1_000, 10_000, 100_000]:
            tell_steps(bench, count)
        if not sys.argv[2:]:
            rows = so_many_rows(262_144)
            write_file(f"{folder}/most.db", rows)
            one, got = bench.words(["get"], f"{folder}/most.db", runs=1)
            want = "".join(f"{key} {revision} {body}\n" for key, revision, body in rows)
            bench.checks.same("262144 rows", (got == want, one.status), (True, 0))
            tell(len(rows), "all of it", one)
        tell_puts(bench, 300)
        bench.checks.end()


main()
