#!/usr/bin/env python3
"""Plays scenarios of commands, those that are written by hand in `command_cases.txt` and those of tables: each
command over a file, or over a daemon whose replies are canned.

    tools/checks/command_cases.py [PROGRAM]        else release/ipam

A scenario has a title, and below it steps, each with the lines that are wanted of it, which begin with `= `. Between
two scenarios is a blank line. `⇒` parts the words of a command, its environment and its input, `¦` the pairs of the
environment, and `␤` stands for a line feed. The steps are methods of `Scene`. Each step that fails has a line. The
last line is `N passed, M failed`.
"""

import functools
import multiprocessing
import os
import re
import resource
import shutil
import signal
import socket
import sqlite3
import stat
import subprocess
import sys
import tempfile
import threading
from pathlib import Path

HERE = Path(__file__).resolve().parent
TOP = HERE.parents[1]
sys.path[:0] = [str(TOP / "tools/second"), str(TOP / "tools/tables")]
# pylint: disable=wrong-import-position
import broken_calls
import failing_calls
import fault_table
import play_table
from links import Daemon
from second_records import compact

DATABASES = HERE / "databases"
COMMON = "CNI_NETNS=/var/run/netns/x¦CNI_IFNAME=eth0¦CNI_PATH=/opt/cni/bin"
TABLE = "CREATE TABLE rows(key TEXT PRIMARY KEY, revision INTEGER NOT NULL, body TEXT NOT NULL)"
PATIENCE = 60
# Where an output that is cut off begins to be written: no other file here grows as long.
FAR = 2**30


# ---- a command


class Ends:
    """Standard input and output of a command: the bytes that are given, or what else is to be read."""

    def __init__(self, folder, given, room=None, is_full=False):
        self.output, self.room, self.is_full = folder / "output", room, is_full
        if isinstance(given, bytes):
            (folder / "input").write_bytes(given)
            given = folder / "input"
        self.source = given.detach() if isinstance(given, socket.socket) else os.open(given, os.O_RDONLY)
        self.start = 0 if room is None else FAR - room
        self.sink = open("/dev/full" if is_full else self.output, "wb", buffering=0)
        if self.start:
            self.sink.seek(self.start)

    def prepare(self):
        """In the new process: what is written behind the room fails."""
        if self.room is not None:
            signal.signal(signal.SIGXFSZ, signal.SIG_IGN)
            resource.setrlimit(resource.RLIMIT_FSIZE, (FAR, FAR))

    def close(self):
        """What was written."""
        os.close(self.source)
        self.sink.close()
        if self.is_full:
            return b""
        with open(self.output, "rb") as file:
            file.seek(self.start)
            return file.read()


def reset_after(data):
    """A socket that can be read up to the end of the data, and fails then: the other end left a byte unread."""
    one, other = socket.socketpair()
    other.sendall(data)
    one.send(b"x")
    other.close()
    return one


def lines_of(text):
    return text.replace("␤", "\n").encode()


def shown(data):
    return data.decode().replace("\n", "␤")


def pairs_of(text):
    return dict(pair.split("=", 1) for pair in text.split("¦") if "=" in pair)


def input_of(text):
    """The input of `START⇒COUNT⇒PART`: the start, and after it so many times the part."""
    start, *more = text.split("⇒", 2)
    return lines_of(start) + (int(more[0]) * more[1].encode() if len(more) == 2 else b"")


def told(status, written):
    """The lines of an answer: `|` ends what has no line feed at its end."""
    text = f"{status} {written.decode()}"
    return (text[:-1] if text.endswith("\n") else f"{text}|").split("\n")


# ---- a daemon whose replies are canned


class Canned:
    """A daemon at a socket file: each line that comes has the next of the replies, and behind the last one is no
    more."""

    def __init__(self, address, replies):
        self.address = address
        self.parts = re.findall(rb"[^\n]*\n|[^\n]+", replies)
        self.listener = socket.socket(socket.AF_UNIX)
        self.listener.bind(str(address))
        self.listener.listen()
        self.asked, self.thread = bytearray(), threading.Thread(target=self.serve, daemon=True)
        self.thread.start()

    def serve(self):
        connection, _ = self.listener.accept()
        with connection:
            replied = 0
            try:
                while part := connection.recv(2**16):
                    self.asked += part
                    while replied < min(self.asked.count(b"\n"), max(1, len(self.parts))):
                        replied += 1
                        self.reply(connection, replied)
            except ConnectionError:
                pass

    def reply(self, connection, number):
        connection.sendall(b"".join(self.parts[number - 1 : number]))
        if number >= len(self.parts):
            connection.shutdown(socket.SHUT_WR)

    def ended(self):
        """What was asked. A client that came not at all is waited for no longer."""
        with socket.socket(socket.AF_UNIX) as last:
            last.connect(str(self.address))
        self.thread.join(PATIENCE)
        self.listener.close()
        os.unlink(self.address)
        return bytes(self.asked)


def fate_of(word, number):
    """Which call fails by `link 2`, where all replies are there once the first is read, or write of the backup by
    `keeper 3`: the first two make its table, and the third puts its rows on the disk."""
    if word == "keeper":
        return failing_calls.Writes({number: "fail"})
    if word == "link":
        return failing_calls.Call("recvfrom", 1) if number == 2 else failing_calls.Call("sendto", max(1, number - 1))
    return None


# ---- a scenario


class Scene:
    """The file `db` in a folder of its own, and what the steps of a scenario do to it."""

    def __init__(self, program, folder, steps):
        self.program, self.folder, self.path = program, folder / "files", folder / "files/db"
        self.around, self.kept, self.told, self.daemon = folder, None, "", None
        self.folder.mkdir()
        words = [step.split(" ", 1) for step in steps]
        fates = {int(rest): word for word, rest in ((one[0], one[-1]) for one in words) if word in ("fail", "lose")}
        if 0 in fates:
            self.path.write_bytes(b"no database")
        self.writes = failing_calls.Writes(fates) if fates and 0 not in fates else None
        if self.writes:
            self.put([])

    def played(self, step):
        """What comes of a step."""
        word, _, rest = step.partition(" ")
        return getattr(self, f"step_{word}")(rest) or []

    def close(self):
        if self.daemon:
            self.daemon.stop()

    # -- rows

    def put(self, rows):
        """Puts the rows, by Python's SQLite."""
        with sqlite3.connect(self.path) as database:
            # (these files need not outlive a loss of power)
            database.execute("PRAGMA synchronous = OFF")
            if not database.execute("SELECT 1 FROM sqlite_master").fetchall():
                database.execute(TABLE)
            database.executemany("REPLACE INTO rows(revision, key, body) VALUES(?, ?, ?)", rows)
        database.close()

    def rows(self, path=None):
        path = path or self.path
        if not path.exists():
            return []
        with sqlite3.connect(path) as database:
            rows = database.execute("SELECT key, revision, body FROM rows ORDER BY 1").fetchall()
        database.close()
        return [f"{key} {revision} {body}" for key, revision, body in rows]

    def step_row(self, rest):
        """Puts the row `REVISION KEY BODY`."""
        if self.path.exists() and self.path.read_bytes() == b"no database":
            return
        revision, key, body = rest.split(" ", 2)
        self.put([(int(revision), key, body)])

    def step_blocks(self, rest):
        """Puts so many blocks of one address each, which no node has, and no container."""
        self.put(free_block(number) for number in range(int(rest)))

    def step_owners(self, rest):
        """Puts so many blocks of one address each, which are held. The handle of each seventh counts two addresses."""
        self.put(row for number in range(int(rest)) for row in owner(number))

    def step_get(self, rest):
        """The rows whose keys begin so, by Python's SQLite, which removes the log."""
        return [row for row in self.rows() if row.startswith(rest)]

    def step_keep(self, _):
        """Notes the rows."""
        self.kept = self.rows()

    def step_same(self, _):
        """Whether the rows are as they were noted."""
        return ["same" if self.rows() == self.kept else "changed"]

    def step_fail(self, _):
        """The write of this number fails; each look at the rows does where it is 0."""

    step_lose = step_fail

    # -- commands

    def run(self, words, env, given, room=None, is_full=False, fate=None):
        """The status of the words, and what they wrote."""
        words, fate = [self.program, *words], fate or self.writes
        ends = Ends(self.around, given, room, is_full)
        with open(self.around / "error", "wb") as error:
            more = {"cwd": self.folder, "env": {"IPAM_DB": "db", **env}, "restore_signals": False}
            more |= {"stdin": ends.source, "stdout": ends.sink, "stderr": error}
            if fate:
                status = failing_calls.run(words, fate, ends.prepare, **more)
            else:
                prepare = None if room is None else ends.prepare
                status = subprocess.run(words, preexec_fn=prepare, timeout=PATIENCE, check=False, **more).returncode
        self.told = (self.around / "error").read_text()
        return status, ends.close()

    def command(self, line, common=COMMON, given=None, **more):
        """Runs the command of a line `WORDS⇒ENVIRONMENT⇒INPUT`."""
        words, env, text = (line.split("⇒", 2) + ["", ""])[:3]
        env = {**pairs_of(common), **pairs_of(env)}
        return told(*self.run(words.split(" "), env, given or input_of(text), **more))

    def step_do(self, rest):
        return self.command(rest)

    def step_bare(self, rest):
        """The environment has only the pairs that the line has."""
        return self.command(rest, common="")

    def step_unread(self, rest):
        """Standard input can't be read."""
        return self.command(rest, given=self.around)

    def step_room(self, rest):
        """No more than so many bytes of the output can be written."""
        room, rest = rest.split(" ", 1)
        return self.command(rest, room=int(room))

    def step_unwritten(self, rest):
        """Nothing can be written."""
        return self.command(rest, is_full=True)

    def step_why(self, _):
        """What the last command told on standard error. ADDRESS stands for that of a daemon, whose port is drawn."""
        lines = [re.sub("^ipam: (db: )?", "", line) for line in self.told.splitlines()]
        return [re.sub(r"127\.0\.0\.1:\d{4,}", "ADDRESS", line) for line in lines]

    def play(self, way, script):
        """Plays a script, of which a read or the first write may fail, as in `read 2`."""
        word, _, number = way.partition(" ")
        data = script_of(script)
        if word == "read":
            # (what the first reads give, of 4,096 bytes each)
            front = (int(number) - 1) * 4096
            data = reset_after(data[:front]) if front else self.around
        status, written = self.run(["play"], {}, data, is_full=word == "write")
        return [str(status), *written.decode().splitlines()]

    def step_ask(self, rest):
        """Asks a daemon `WORDS|INPUT|FAILING|REPLIES`: the status, what was sent and what was written."""
        words, given, failing, replies = rest.split("|", 3)
        word, number = failing.split(" ") if " " in failing else (failing, 0)
        given = self.around if word == "source" else lines_of(given)
        room = int(number) if word == "room" else None
        canned = Canned(self.around / "socket", lines_of(replies))
        words = ["--daemon", str(canned.address), *words.split(" ")]
        status, written = self.run(words, {}, given, room, fate=fate_of(word, int(number)))
        asked = canned.ended()
        return [f"{status}|{shown(asked)}|{shown(written)}{shown(self.backed_up())}"]

    def backed_up(self):
        """The rows of the backup `f`, which is removed."""
        rows = "".join(f"{row}\n" for row in self.rows(self.folder / "f"))
        for file in self.folder.glob("f*"):
            file.unlink()
        return rows.encode()

    # -- files

    def step_copy(self, rest):
        """Copies a file of this folder, or one of `databases`."""
        first, second = rest.split(" ")
        shutil.copyfile(self.folder / first if (self.folder / first).exists() else DATABASES / first, self.folder / second)

    def step_write(self, rest):
        name, _, text = rest.partition(" ")
        (self.folder / name).write_text(text)

    def step_swap(self, rest):
        """Swaps a text in a file for one as long."""
        name, old, new = rest.split(" ", 2)
        file = self.folder / name
        file.write_bytes(file.read_bytes().replace(old.encode(), new.encode()))

    def step_folder(self, rest):
        (self.folder / rest).mkdir()

    def step_erase(self, rest):
        file = self.folder / rest
        if file.is_dir():
            file.rmdir()
        else:
            file.unlink()

    def step_move(self, rest):
        first, second = rest.split(" ")
        (self.folder / first).replace(self.folder / second)

    def step_link(self, rest):
        """Makes a link of this target and name."""
        first, second = rest.split(" ")
        (self.folder / second).symlink_to(first)

    def step_name(self, rest):
        """Makes a second name, a hard link."""
        first, second = rest.split(" ")
        os.link(self.folder / first, self.folder / second)

    def step_mode(self, rest):
        file = self.folder / rest
        return [f"{stat.S_IMODE(file.stat().st_mode):o}" if file.exists() else "none"]

    def step_size(self, rest):
        file = self.folder / rest
        return [str(file.stat().st_size) if file.exists() else "none"]

    def step_left(self, rest):
        """The rows whose keys begin so that a kill would leave here: those of a copy of the file and its log."""
        copy = self.around / "left"
        for end in ("", "-wal"):
            if (self.folder / f"db{end}").exists():
                shutil.copyfile(self.folder / f"db{end}", f"{copy}{end}")
        rows = self.rows(copy)
        for file in self.around.glob("left*"):
            file.unlink()
        return [row for row in rows if row.startswith(rest)]

    # -- a daemon

    def step_serve(self, _):
        """A daemon holds the file from here on."""
        self.daemon = Daemon(self.program, self.path)

    def step_say(self, rest):
        """What the daemon replies to this line."""
        return self.daemon.session(rest.encode() + b"\n")[0].decode().splitlines()

    def step_ended(self, _):
        """The status with which the daemon ended by itself."""
        return [str(self.daemon.process.wait(PATIENCE))]

    def step_stop(self, _):
        self.daemon.stop()

    def step_kill(self, _):
        self.daemon.process.kill()
        self.daemon.process.wait()


def block(cidr, holders, stamps):
    """The key and the body of a block of one address, which nobody holds or the one holder does."""
    body = {"affinity": None, "allocations": [0 if holders else None], "attributes": holders, "cidr": cidr}
    body |= {"sequenceNumber": len(holders), "sequenceNumberForAllocation": stamps, "unallocated": [] if holders else [0]}
    return f"block/{cidr}", compact(body)


def free_block(number):
    return number + 2, *block(f"10.0.{number // 256}.{number % 256}/32", [], {})


def owner(number):
    cidr, handle = f"10.0.0.{number}/32", f"n.c{number}"
    counts = {"block": {cidr: 1 if number % 7 else 2}, "handleID": handle}
    return [(2, *block(cidr, [{"handle_id": handle, "secondary": {}}], {"0": 1})), (2, f"handle/{handle}", compact(counts))]


def script_of(lines):
    """`×N` is a line of so many bytes that has no line feed, `∎` ends another one, and `¶` is an empty line."""
    script = ""
    for line in lines:
        if line.startswith("×"):
            script += "x" * int(line[1:])
        elif line.endswith("∎"):
            script += line[:-1]
        else:
            script += "\n" if line == "¶" else f"{line}\n"
    return script.encode()


# ---- all scenarios


def steps_of(lines):
    """Each step with the lines that are wanted of it."""
    steps = []
    for line in lines:
        if line.startswith("= "):
            steps[-1][1].append(line[2:])
        else:
            steps.append((line, []))
    return steps


class Played:
    """How many steps of a scenario passed, and what is told of the others."""

    def __init__(self, title):
        self.title, self.passed, self.failed, self.is_left = title, 0, [], False

    def want(self, step, found, wanted):
        if found == wanted:
            self.passed += 1
        else:
            self.failed.append(f"{self.title} {step[:300]}\n  found  {str(found)[:600]}\n  wanted {str(wanted)[:600]}")


def play(program, scenario):
    title, *lines = scenario.split("\n")
    played = Played(title)
    script = [line for line in lines if not line.startswith("= ")]
    with tempfile.TemporaryDirectory(prefix="ipam-command-", dir=place()) as folder:
        scene = Scene(program, Path(folder), script)
        try:
            if script[0].startswith("script"):
                wanted = [line[2:] for line in lines if line.startswith("= ")]
                played.want(script[0], scene.play(script[0].partition(" ")[2], script[1:]), wanted)
                return played
            for step, wanted in steps_of(lines):
                found = scene.played(step)
                if found or wanted:
                    played.want(step, found, wanted)
        except failing_calls.NotThere:
            played.is_left = True
        finally:
            scene.close()
    return played


def place():
    """Where files need no disk, which would take most of the time, if there is such a place."""
    return "/dev/shm" if os.access("/dev/shm", os.W_OK) else None


def scenarios():
    yield from (HERE / "command_cases.txt").read_text().rstrip("\n").split("\n\n")
    yield from broken_calls.all_scenarios()
    yield from (text.rstrip("\n") for text in fault_table.doubts())
    yield from play_table.failing_scenarios()


def main():
    program = os.path.abspath(sys.argv[1]) if len(sys.argv) > 1 else str(TOP / "release/ipam")
    passed = failed = left = 0
    with multiprocessing.Pool() as pool:
        for played in pool.imap(functools.partial(play, program), scenarios()):
            passed, failed, left = passed + played.passed, failed + len(played.failed), left + played.is_left
            for one in played.failed:
                print(one, flush=True)
    if left:
        print(f"{left} scenarios are not played to their end: here no call of the system can be made to fail")
    print(f"{passed} passed, {failed} failed")
    return 1 if failed or not passed else 0


if __name__ == "__main__":
    sys.exit(main())
