"""Runs a program of which calls of the system fail, by Linux's filter of such calls and nothing else.

The kernel stops the program before each call of the kinds that are named, and asks whether it is to be made or to
fail: `Writes` says so of changes of rows, and `Call` of calls of one kind.
"""

import ctypes
import errno
import fcntl
import os
import platform
import select
import socket
import struct
import subprocess
import threading

# The numbers of the calls, and the number of the machine, as the kernel has them.
NAMES = ("seccomp", "pwrite64", "fdatasync", "sendto", "recvfrom", "accept4", "chmod", "machine")
NUMBERS = {
    "x86_64": (317, 18, 75, 44, 45, 288, 90, 0xC000003E),
    "aarch64": (277, 67, 83, 206, 207, 242, 53, 0xC00000B7),
}
SYSTEM = dict(zip(NAMES, NUMBERS.get(platform.machine(), NUMBERS["x86_64"])))

LIBC = ctypes.CDLL(None, use_errno=True)
NO_NEW_PRIVILEGES, FILTER_MODE, NEW_LISTENER = 38, 1, 8
ALLOW, ASK = 0x7FFF0000, 0x7FC00000
LOAD, IS_EQUAL, END = 0x20, 0x15, 0x06
RECEIVE, SEND = 0xC0502100, 0xC0182101
QUESTION, REPLY = struct.Struct("=QIIiIQ6Q"), struct.Struct("=QqiI")
CONTINUE = 1
HEAD_OF_LOG = 40


class NotThere(Exception):
    """This kernel, or what the gate runs in, lets no program answer the calls of another."""


class Writes:
    """Counts the changes of rows. Those of these numbers fail: `fail` before they are made, `lose` after it.

    A change ends with a write of one byte behind the head of the log, which marks it as whole, and `fdatasync`.
    """

    calls, error = ("pwrite64", "fdatasync"), errno.EIO

    def __init__(self, fates):
        self.fates, self.count, self.is_marked = fates, 0, False

    def fails(self, call, size, place):
        if call == "fdatasync":
            is_last, self.is_marked = self.is_marked, False
            return is_last and self.fates.get(self.count) == "lose"
        if size != 1 or place < HEAD_OF_LOG:
            return False
        self.count, self.is_marked = self.count + 1, True
        return self.fates.get(self.count) == "fail"


class Call:
    """The calls of this kind and these numbers fail, counted from 1, with this error."""

    def __init__(self, call, *numbers, error=errno.EIO):
        self.calls, self.numbers, self.error, self.count = (call,), numbers, error, 0

    def fails(self, _call, _size, _place):
        self.count += 1
        return self.count in self.numbers


def filter_of(calls):
    """The steps of the kernel's filter: it asks about these calls and allows all others."""
    steps = [(LOAD, 0, 0, 4), (IS_EQUAL, 0, len(calls) + 1, SYSTEM["machine"]), (LOAD, 0, 0, 0)]
    steps += [(IS_EQUAL, len(calls) - place, 0, SYSTEM[call]) for place, call in enumerate(calls)]
    steps += [(END, 0, 0, ALLOW), (END, 0, 0, ASK)]
    return b"".join(struct.pack("=HBBI", *step) for step in steps), len(steps)


def put_filter(calls, out):
    """Puts the filter on this process, and sends the file by which the kernel asks."""
    steps, length = filter_of(calls)
    kept = ctypes.create_string_buffer(steps, len(steps))
    whole = struct.pack("@HP", length, ctypes.addressof(kept))
    if LIBC.prctl(NO_NEW_PRIVILEGES, 1, 0, 0, 0) != 0:
        raise OSError(ctypes.get_errno(), "prctl")
    asking = LIBC.syscall(SYSTEM["seccomp"], FILTER_MODE, NEW_LISTENER, whole)
    if asking < 0:
        raise OSError(ctypes.get_errno(), "seccomp")
    socket.send_fds(out, [b"x"], [asking])
    os.close(asking)


def answer(asking, fate):
    """Answers one question of the kernel's."""
    question = bytearray(QUESTION.size)
    try:
        fcntl.ioctl(asking, RECEIVE, question)
        number, _, _, call, _, _, _, _, size, place, _, _ = QUESTION.unpack(question)
        name = next(one for one in fate.calls if SYSTEM[one] == call)
        reply = (-fate.error, 0) if fate.fails(name, size, place) else (0, CONTINUE)
        fcntl.ioctl(asking, SEND, REPLY.pack(number, 0, *reply))
    except OSError as error:
        # (the program may have ended meanwhile)
        if error.errno != errno.ENOENT:
            raise


def watch(asking, process, fate):
    """Answers what the kernel asks until the process has ended."""
    ended = os.pidfd_open(process)
    watched = select.poll()
    watched.register(asking, select.POLLIN)
    watched.register(ended, select.POLLIN)
    is_ended = False
    while not is_ended:
        ready = dict(watched.poll())
        is_ended = ended in ready
        if ready.get(asking, 0) & select.POLLIN:
            answer(asking, fate)
        elif asking in ready:
            watched.unregister(asking)
    os.close(ended)


def begun(words, fate, prepare, **more):
    """Starts the words, and gives the process and the file by which the kernel asks. `prepare` is done in the process."""
    here, there = socket.socketpair()

    def begin():
        prepare()
        put_filter(fate.calls, there)

    with here, there:
        try:
            process = subprocess.Popen(words, preexec_fn=begin, **more)
        except subprocess.SubprocessError as error:
            raise NotThere from error
        return process, socket.recv_fds(here, 1, 1)[1][0]


def answer_all(asking, process, fate):
    """Answers what the kernel asks until the process has ended."""
    try:
        watch(asking, process.pid, fate)
    finally:
        os.close(asking)


def run(words, fate, prepare=lambda: None, **more):
    """Runs the words to their end, where the fate says which calls fail. `prepare` is done in the new process."""
    process, asking = begun(words, fate, prepare, **more)
    answer_all(asking, process, fate)
    return process.wait()


def start(words, fate, **more):
    """Starts the words, where the fate says which calls fail, and does not wait for their end."""
    process, asking = begun(words, fate, lambda: None, **more)
    threading.Thread(target=answer_all, args=(asking, process, fate), daemon=True).start()
    return process
