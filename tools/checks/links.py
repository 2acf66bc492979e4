"""The daemon with one worker as a second reader needs it, and a daemon that only seems one."""

import os
import socket
import subprocess
import threading
import time
from pathlib import Path

PATIENCE = 60
PIECE = 65_536


def free_port(host="127.0.0.1"):
    with socket.socket() as one:
        one.bind((host, 0))
        return one.getsockname()[1]


def sent(connection, data, whole):
    """Sends the data, as far as the other side takes it, and maybe that there is no more."""
    try:
        connection.sendall(data)
        if whole:
            connection.shutdown(socket.SHUT_WR)
    except OSError:
        pass


def received(connection):
    """All that comes until the other side ends."""
    came = bytearray()
    try:
        while part := connection.recv(PIECE):
            came += part
    except ConnectionError:
        pass
    return bytes(came)


def connected(address):
    """A connection to a socket file or a port of the loopback."""
    if not address.startswith("/"):
        host, _, port = address.rpartition(":")
        connection = socket.create_connection((host, int(port)), timeout=PATIENCE)
        connection.setsockopt(socket.IPPROTO_TCP, socket.TCP_NODELAY, 1)
        return connection
    connection = socket.socket(socket.AF_UNIX)
    try:
        connection.settimeout(PATIENCE)
        connection.connect(address)
    except OSError:
        connection.close()
        raise
    return connection


class Daemon:
    """A daemon over this file, whose sessions come one after the other. It is at a port of the loopback, or at this
    address; `before` are words before the program's own, and `start` starts them."""

    def __init__(
        self, program, database, workers=1, env=None, patience=PATIENCE, address=None, before=(), start=subprocess.Popen
    ):
        self.address, self.log, self.sessions, self.patience = address, Path(f"{database}.log"), 0, patience
        if address is None:
            self.port = free_port()
            self.address = f"127.0.0.1:{self.port}"
        whole = {"IPAM_DB": str(database), "RUST_LOG": "info", **(env or {})}
        with open(self.log, "wb") as log, open(f"{database}.out", "wb") as out:
            words = [*before, program, "serve", self.address, str(workers)]
            self.process = start(words, env=whole, stdout=out, stderr=log)
        self.connect().close()
        self.end()

    def connect(self):
        until = time.monotonic() + PATIENCE
        while True:
            try:
                return connected(self.address)
            except (ConnectionRefusedError, FileNotFoundError):
                if time.monotonic() > until or self.process.poll() is not None:
                    raise
                time.sleep(0.01)

    def end(self):
        """How the session ended that ends next: the last words of its line of the log, or none."""
        until = time.monotonic() + self.patience
        is_over = False
        while not is_over:
            is_over = time.monotonic() > until or self.process.poll() is not None
            lines = self.log.read_text().split("\n")[:-1]
            if len(lines) > self.sessions:
                self.sessions += 1
                return lines[self.sessions - 1].rpartition("] ")[2]
            time.sleep(0.001)
        return None

    def session(self, data):
        """What is replied to these bytes, and how the session ended."""
        with self.connect() as connection:
            sender = threading.Thread(target=sent, args=(connection, data, True))
            sender.start()
            came = received(connection)
            sender.join()
        return came, self.end()

    def spent(self):
        """The processor seconds of its threads so far."""
        tasks = Path(f"/proc/{self.process.pid}/task").iterdir()
        return sum(int((task / "schedstat").read_text().split()[0]) for task in tasks) / 1e9

    def stop(self):
        self.process.terminate()
        self.process.wait()


class Seeming:
    """A daemon that reads one line of each client and answers it with the bytes that it was given."""

    def __init__(self):
        self.listener = socket.create_server(("127.0.0.1", 0))
        self.address = f"127.0.0.1:{self.listener.getsockname()[1]}"
        self.reply, self.is_reset, self.line, self.served = b"", False, None, threading.Event()
        threading.Thread(target=self.serve, daemon=True).start()

    def serve(self):
        while True:
            connection, _ = self.listener.accept()
            with connection:
                self.line = b""
                while not self.line.endswith(b"\n") and (part := connection.recv(PIECE)):
                    self.line += part
                sent(connection, self.reply, not self.is_reset)
                if self.is_reset:
                    time.sleep(0.01)
                    connection.setsockopt(socket.SOL_SOCKET, socket.SO_LINGER, (1).to_bytes(4, "little") + bytes(4))
            self.served.set()

    def answers(self, reply, is_reset=False):
        self.reply, self.is_reset, self.line = reply, is_reset, None
        self.served.clear()
