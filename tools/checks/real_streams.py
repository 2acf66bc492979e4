"""What passes over the program's own streams: lines that it reads, and texts that it writes."""

import array
import fcntl
import functools
import os
import re
import resource
import signal
import socket
import struct
import subprocess
import tempfile
import termios
import time
import tty
from pathlib import Path

import bad_input
import links
from second_allocator import play
from second_records import compact

PATIENCE = 60
ENDS = {"session closed": "End", "session ended early": "Cut"}
LATE = 0.02


def bytes_of(text):
    """`FRONT|COUNT|BACK`: the bytes of the front, as many `x`, and the bytes of the back."""
    front, count, back = text.split("|")
    signs = front + "x" * int(count) + back
    return signs.replace("␤", "\n").replace("␍", "\r").replace("␀", "\0").encode("latin-1")


def told_of_lines(wanted):
    """The answer of a case as the program can tell it: how many lines, and how they end."""
    told = re.sub(r"Line\(\[.*?\]\)|\b\d+\b", "Line", wanted)
    return re.sub(r"(End|Cut|TooLong|Read)( .*)?$", r"\1", told).replace("TooLong", "Cut").strip()


def waiting(connection, request):
    """How many bytes wait: those that the other side has not read yet, or those that came."""
    count = array.array("i", [0])
    fcntl.ioctl(connection.fileno(), request, count)
    return count[0]


def until(is_done):
    end = time.monotonic() + PATIENCE
    while not is_done():
        if time.monotonic() > end:
            raise TimeoutError
        time.sleep(0)


def served(program):
    """A daemon over the rows that are there, at a socket file, where a session may begin with any byte."""
    file = bad_input.DATABASE.with_suffix(".sock")
    file.unlink(missing_ok=True)
    return links.Daemon(program.path, bad_input.DATABASE, address=str(file))


def told(came, end):
    count = came.count(b"\n")
    assert came == b'{"refused":"line"}\n' * count, came[:200]
    return " ".join(["Line"] * count + [ENDS.get(end, str(end))])


def answer_to_lines(program, question):
    """Lines of a session, which each have a reply; or lines that `play` reads, which the first read that fails ends."""
    _, reads, data = question.split("|", 2)
    data = bytes_of(data)
    if reads:
        return told_of_fault(program, b"" if "1" in reads.split() else data)
    bad_input.without_rows()
    daemon = served(program)
    answer = told(*daemon.session(data))
    daemon.stop()
    return answer


def told_of_fault(program, data):
    """What `play` reads before standard input fails: lines of a terminal whose other side goes, or none of a folder."""
    whole = data.count(b"\n")
    if not whole:
        with tempfile.TemporaryDirectory() as folder:
            given = os.open(folder, os.O_RDONLY)
            found = subprocess.run([program.path, "play"], stdin=given, capture_output=True, check=False)
            os.close(given)
    else:
        found = by_terminal(program, [f'begin {place} {{"config":{{}}}}\n' for place in range(whole)] + [data.rpartition(b"\n")[2].decode()])
    journal = "".join(f'{place} began {{"config":{{}}}}\n' for place in range(whole))
    assert (found.returncode, found.stdout.decode()) == (3, f"{journal}read fault\n"), found
    return " ".join(["Line"] * whole + ["Read"])


def by_terminal(program, pieces):
    """The program reads one side of a terminal, which fails once the other side is closed."""
    near, far = os.openpty()
    tty.setraw(far)
    process = subprocess.Popen([program.path, "play"], stdin=near, stdout=subprocess.PIPE)
    with os.fdopen(near, "rb") as left:
        for piece in pieces:
            os.write(far, piece.encode())
            until(lambda: waiting(left, termios.FIONREAD) == 0)
        os.close(far)
        written = process.communicate()[0]
    return subprocess.CompletedProcess(process.args, process.returncode, written)


def answer_to_pieces(program, question):
    """Each byte is sent after the daemon took the one before it."""
    data = bytes_of(question.split("|", 2)[2])
    bad_input.without_rows()
    daemon = served(program)
    with daemon.connect() as connection:
        for place in range(len(data)):
            connection.sendall(data[place : place + 1])
            until(lambda: waiting(connection, termios.TIOCOUTQ) == 0)
        connection.shutdown(socket.SHUT_WR)
        came = links.received(connection)
    answer = told(came, daemon.end())
    daemon.stop()
    return answer


def answer_to_socket(program, text):
    """Two lines in one write have two replies, none of which waits for the other to be taken."""
    bad_input.without_rows()
    daemon = links.Daemon(program.path, bad_input.DATABASE)
    lines, reply, times = f"\n{text}\n".encode(), b'{"refused":"line"}\n', []
    with daemon.connect() as connection:
        for _ in range(30):
            # (the system puts off what it says of bytes that came)
            connection.setsockopt(socket.IPPROTO_TCP, socket.TCP_QUICKACK, 0)
            start = time.monotonic()
            connection.sendall(lines)
            until(lambda: waiting(connection, termios.FIONREAD) == 2 * len(reply))
            times.append(time.monotonic() - start)
            assert connection.recv(100) == 2 * reply
        connection.shutdown(socket.SHUT_WR)
        assert links.received(connection) == b""
    end = daemon.end()
    daemon.stop()
    return f"{'true' if min(times) < LATE else 'false'} . Line Line {ENDS.get(end, end)}"


# ---- what is written

SCRIPT = 'begin 0 {"config":{}}\nturn 0 2\n' * 2000


@functools.lru_cache(maxsize=None)
def journal_of_script():
    return play(SCRIPT)[0].encode()


class Playing:
    """A long journal that goes to this file or socket."""

    def __init__(self, program, out, **more):
        with tempfile.TemporaryFile() as given:
            given.write(SCRIPT.encode())
            given.seek(0)
            self.process = subprocess.Popen([program.path, "play"], stdin=given, stdout=out, **more)
        self.journal = journal_of_script()

    def is_asleep(self):
        stat = Path(f"/proc/{self.process.pid}/stat").read_text()
        return stat.rpartition(")")[2].split()[0] == "S"

    def stopped_and_gone_on(self):
        until(self.is_asleep)
        os.kill(self.process.pid, signal.SIGSTOP)
        os.waitpid(self.process.pid, os.WUNTRACED)
        os.kill(self.process.pid, signal.SIGCONT)

    def told(self, data):
        """The status, and how much of the journal came."""
        status = self.process.wait()
        assert data == self.journal[: len(data)], data[-200:]
        return f"{status} {'whole' if data == self.journal else len(data)}"


def journal_by_socket(program, stops, takes):
    """The program waits in a write, and is stopped there so often. Then so many bytes are taken, or all."""
    near, far = socket.socketpair()
    # (a stop ends a write that has a time limit: it has taken a part, or it is interrupted)
    far.setsockopt(socket.SOL_SOCKET, socket.SO_SNDTIMEO, struct.pack("ll", PATIENCE, 0))
    with near:
        with far:
            playing = Playing(program, far)
        until(lambda: waiting(near, termios.FIONREAD) > 0)
        for _ in range(stops):
            playing.stopped_and_gone_on()
        data = links.received(near) if takes is None else near.recv(takes)
    return playing.told(data)


def answer_to_written(program, way):
    word, _, number = way.partition(" ")
    if word == "stops":
        return journal_by_socket(program, int(number), None)
    if word == "gone":
        return journal_by_socket(program, 1, int(number))
    return journal_in_room(program, int(number))


def journal_in_room(program, size):
    """The journal goes to a file that may have so many bytes."""

    def limit():
        signal.signal(signal.SIGXFSZ, signal.SIG_IGN)
        resource.setrlimit(resource.RLIMIT_FSIZE, (size, size))

    with tempfile.TemporaryFile() as file:
        playing = Playing(program, file, preexec_fn=limit, restore_signals=False)
        playing.process.wait()
        file.seek(0)
        return playing.told(file.read())


def answer_to_source(program, way):
    """A script that comes in pieces, each after the one before it was taken, or all at once."""
    pieces = way.replace("␤", "\n").replace("␀", "\0").split("|")
    process = subprocess.Popen([program.path, "play"], stdin=subprocess.PIPE, stdout=subprocess.PIPE, bufsize=0)
    for piece in pieces:
        process.stdin.write(piece.encode())
        until(lambda: waiting(process.stdin, termios.FIONREAD) == 0)
    written = process.communicate()[0].decode()
    return f"{process.returncode} {written}".strip().replace("\n", "␤").replace("\0", "␀")


# ---- long replies


def long_rows():
    names = [f"r{place:03}{'x' * 200}" for place in range(256)]
    cidrs = [f"2001:db8:1111:2222:3333:4444:5555:{place:x}/128" for place in range(1, 65)]
    bad_input.with_rows([("reservations", 1, compact({"reservations": [{"name": one, "reservedCIDRs": cidrs} for one in names]}))])


def answer_to_reply(program, way):
    """A reply longer than what a link holds, to a peer that takes it late, or goes; and the session after it."""
    long_rows()
    daemon = served(program)
    with daemon.connect() as connection:
        connection.sendall(b'{"rows":"reservations"}\n')
        until(lambda: waiting(connection, termios.FIONREAD) > 100_000)
        if way == "stops":
            for _ in range(2):
                os.kill(daemon.process.pid, signal.SIGSTOP)
                os.waitpid(daemon.process.pid, os.WUNTRACED)
                os.kill(daemon.process.pid, signal.SIGCONT)
            connection.shutdown(socket.SHUT_WR)
            came = links.received(connection)
        else:
            came = connection.recv(100)
    ended = daemon.end()
    after = daemon.session(b'{"rows":"reservations"}\n')[0]
    daemon.stop()
    assert after.endswith(b"}]}\n") and after.startswith(came), (came[:80], after[-80:])
    return f"{'whole' if came == after else len(came)}, {ENDS[ended]}"
