"""A session of the daemon, for the tools that ask one: a line is asked, and its reply is read."""

import json
import socket

PATIENCE = 30


class Lost(Exception):
    """The connection failed, or what came is no reply."""


def address_of(text):
    """The path of a socket file, or the host and the port."""
    if text.startswith("/"):
        return text
    host, _, port = text.rpartition(":")
    return host.strip("[]"), int(port)


def connected(address):
    """A socket that is connected to the file of this path, or to this host and port."""
    if isinstance(address, tuple):
        return socket.create_connection(address, timeout=PATIENCE)
    link = socket.socket(socket.AF_UNIX)
    link.settimeout(PATIENCE)
    link.connect(address)
    return link


class Session:
    """One session. A request of it that loses its races, or a collection of many blocks, may take long."""

    def __init__(self, address):
        try:
            self.link = connected(address)
        except OSError as fault:
            raise Lost(str(fault)) from fault
        self.input = self.link.makefile("rb")

    def ask(self, wish):
        """The reply, an object."""
        line = json.dumps(wish, separators=(",", ":")).encode() + b"\n"
        try:
            self.link.sendall(line)
            reply = self.input.readline()
        except OSError as fault:
            raise Lost(str(fault)) from fault
        if not reply.endswith(b"\n"):
            raise Lost("no reply")
        try:
            told = json.loads(reply)
        except ValueError as fault:
            raise Lost(f"unreadable reply: {fault}") from fault
        if not isinstance(told, dict):
            raise Lost(f"unexpected reply: {told}")
        return told

    def rows(self, kind):
        """The bodies of all rows of this kind, page by page."""
        wish, bodies = {"rows": kind}, []
        while True:
            page = self.ask(wish)
            if not isinstance(page.get("rows"), list):
                raise Lost(f"unexpected reply: {page}")
            bodies += [json.loads(row["body"]) for row in page["rows"]]
            if not page.get("more") or not page["rows"]:
                return bodies
            wish = {"rows": kind, "after": page["rows"][-1]["key"]}

    def __enter__(self):
        return self

    def __exit__(self, *_):
        self.input.close()
        self.link.close()
