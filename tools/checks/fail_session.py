#!/usr/bin/env python3
"""Refuses memory to a session of the daemon, one allocation at a time, from where the client connects.

Each line of the session has to get its own reply, or the session ends without it. The second allocator
decides which rows may be left: those after the lines with a reply and a front part of the writes of the next
line. A further session of the same daemon, with all its memory, then goes on from these rows. Usage:

    tools/checks/fail_session.py PROGRAM REFUSE FOLDER

REFUSE is the library that refuses one allocation (tools/checks/fail_alloc.sh builds it). The file REFUSED has the
number of that allocation, and the library counts it down. The script puts its files into FOLDER.
"""

import json
import mmap
import shutil
import sqlite3
import sys
from pathlib import Path

TOOLS = Path(__file__).resolve().parents[1]
sys.path += [str(TOOLS / "second"), str(TOOLS / "tables")]
# pylint: disable=wrong-import-position
import cni_table
from links import Daemon
from second_records import compact
from second_session import Sessions

POOL = {"pools": [{"blockSize": 30, "cidr": "10.0.0.0/29", "disabled": False, "name": "p"}]}
BASE = {"pools": (1, POOL)}
CLOSED, EARLY = "session closed", "session ended early"


def call(command, container):
    env = dict(cni_table.good_env(command), CNI_CONTAINERID=container)
    return compact({"env": env, "stdin": compact(cni_table.good_config(command))})


LINES = [call("ADD", "c1"), '{"request":{"collect":{"live":[]}}}', '{"feed":[]}', call("ADD", "c2"), call("DEL", "c2"), "x"]
AFTER = [call("DEL", "c1"), call("ADD", "c3"), call("CHECK", "c3")]


def data_of(lines):
    return "".join(line + "\n" for line in lines).encode()


class Wanted:
    """The replies to lines over these rows and this counter, and what is left behind each write: the line that
    made it, the rows and the counter."""

    def __init__(self, rows, counter, lines):
        second = Sessions(rows, False, counter)
        store = second.cluster.store
        self.replies, self.states = [], [(0, dict(store.rows), counter)]
        apply = store.apply

        def noted(what):
            apply(what)
            self.states.append((len(self.replies) + 1, dict(store.rows), store.counter))

        store.apply = noted
        for line in lines:
            self.replies.append((compact(second.reply(line.encode())) + "\n").encode())

    def counter_of(self, rows, count):
        """The counter with these rows, or None where they can't be left behind so many replies."""
        before = [state for state in self.states if state[0] <= count]
        may_be = before[-1:] + [state for state in self.states if state[0] == count + 1]
        return next((counter for _, left, counter in may_be if left == rows), None)


def rows_of(path, folder):
    """The rows of a copy of the file and its log."""
    for file in folder.glob("copy.db*"):
        file.unlink()
    for end in ("", "-wal"):
        if Path(f"{path}{end}").exists():
            shutil.copyfile(f"{path}{end}", folder / f"copy.db{end}")
    opened = sqlite3.connect(folder / "copy.db")
    rows = opened.execute("SELECT key, revision, body FROM rows").fetchall()
    opened.close()
    return {key: (revision, json.loads(body)) for key, revision, body in rows}


class Trial:
    def __init__(self, program, library, folder):
        self.program, self.folder, self.database = program, folder, folder / "session.db"
        self.wrong, self.told, self.number = 0, {}, 0
        with open(folder / "refused", "wb") as file:
            file.write(bytes(8))
        with open(folder / "refused", "r+b") as file:
            self.left = mmap.mmap(file.fileno(), 8)
        self.env = {"LD_PRELOAD": str(library), "REFUSED": str(folder / "refused")}

    def base(self):
        for file in self.folder.glob("session.db*"):
            file.unlink()
        with sqlite3.connect(self.database) as opened:
            opened.execute("CREATE TABLE rows(key TEXT PRIMARY KEY, revision INTEGER NOT NULL, body TEXT NOT NULL)")
            opened.execute("INSERT INTO rows VALUES('pools', 1, ?)", [compact(POOL)])
        opened.close()

    def count(self, what):
        self.told[what] = self.told.get(what, 0) + 1

    def is_wrong(self, text):
        self.wrong += 1
        print(f"session, allocation {self.number}: {text}"[:1200], flush=True)

    def refuse(self, number):
        self.left[:] = number.to_bytes(8, "little")

    def run(self, number, wanted):
        """Refuses the allocation of this number to the session. Whether it was reached."""
        self.number = number
        self.base()
        daemon = Daemon(self.program, self.database, 1, self.env, 1)
        self.refuse(number)
        found, end = daemon.session(data_of(LINES))
        is_reached = self.left[:] == bytes(8)
        self.refuse(0)
        rows = rows_of(self.database, self.folder)
        self.judge(found, end, wanted, is_reached)
        counter = wanted.counter_of(rows, found.count(b"\n"))
        if counter is None:
            self.is_wrong(f"was replied {found!r}, and left {rows}")
        else:
            self.go_on(daemon, rows, counter)
        daemon.stop()
        return is_reached

    def judge(self, found, end, wanted, is_reached):
        own = b"".join(wanted.replies)
        if not own.startswith(found):
            self.is_wrong(f"replied {found!r}")
        is_whole = found == own
        if end != (CLOSED if is_whole else EARLY):
            self.is_wrong(f"{end}, where it was replied {found!r}")
        if not is_reached and not is_whole:
            self.is_wrong("ended early with all its memory")
        if is_reached:
            self.count("end as with all memory" if is_whole else "end the session early")

    def go_on(self, daemon, rows, counter):
        wanted = Wanted(rows, counter, AFTER)
        found, end = daemon.session(data_of(AFTER))
        if (found, end) != (b"".join(wanted.replies), CLOSED):
            self.is_wrong(f"the next session {end}, and was replied {found!r}, wanted {wanted.replies}")
        if (left := rows_of(self.database, self.folder)) != wanted.states[-1][1]:
            self.is_wrong(f"the next session left {left}")


def main():
    program, library, folder = sys.argv[1], Path(sys.argv[2]), Path(sys.argv[3])
    trial, wanted, number = Trial(program, library, folder), Wanted(BASE, 1, LINES), 1
    while trial.run(number, wanted):
        number += 1
    told = ", ".join(f"{count} {what}" for what, count in sorted(trial.told.items()))
    print(f"session: {number - 1} allocations: {told}")
    return 1 if trial.wrong else 0


if __name__ == "__main__":
    sys.exit(main())
