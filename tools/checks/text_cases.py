#!/usr/bin/env python3
"""Asks the built program the cases of text_cases.txt: texts of rows and of keys, inputs at their limits, replies to
the client, and short scenes over a file or a daemon.

    tools/checks/text_cases.py [PROGRAM]      else release/ipam

A line of the table as `KIND|QUESTION` is a case, and the line after it, as `= ANSWER`, what has to come of it. A
scene has a title and steps, and behind a step the lines that are wanted of it. A step is a word, which the method of
its name in `Scene` does, and what belongs to it. In all of them `␤` stands for a line feed. The last line tells how
many cases passed and how many failed.
"""

import ctypes
import json
import os
import re
import resource
import subprocess
import sys
import tempfile
from pathlib import Path

TOP = Path(__file__).resolve().parents[2]
sys.path[:0] = [str(TOP / "tools" / folder) for folder in ("checks", "second", "tables")]
if os.access("/dev/shm", os.W_OK):
    tempfile.tempdir = "/dev/shm"

# pylint: disable=wrong-import-position
import asked_calls
import bad_environment
import bad_input
import bad_links
import cni_table
import session_table
from links import Daemon, Seeming, free_port
from second_records import Block, Cidr, compact
from second_session import OPENED

TABLE = Path(__file__).with_suffix(".txt")
REVISION = 9


# ---- rows


def pool_for(cidr):
    """A row of pools by which the CIDR is a slot."""
    return {"blockSize": int(cidr.partition("/")[2]), "cidr": cidr, "disabled": False, "name": "p"}


def affinity(node, cidr, state="confirmed"):
    return f"affinity/{node}/{cidr}", {"cidr": cidr, "node": node, "state": state}


def beside(body):
    """The rows that have to be beside this one."""
    if "cidr" not in body:
        return
    yield "pools", {"pools": [pool_for(body["cidr"])]}
    if body.get("state") == "confirmed":
        yield f"block/{body['cidr']}", Block.fresh(Cidr.read(body["cidr"]), body["node"])
    if body.get("affinity"):
        yield affinity(body["affinity"].partition(":")[2], body["cidr"])
    for one in body.get("attributes", []):
        yield f"handle/{one['handle_id']}", {"block": {body["cidr"]: len(body["allocations"])}, "handleID": one["handle_id"]}


def told_of_row(program, key, body, others):
    """What `get` tells of the row, or the line and the status by which the file is refused."""
    rows = [(key, REVISION, body), *((other, REVISION, compact(value)) for other, value in others)]
    bad_input.with_rows(rows)
    status, told = program.run(["get"], b"")
    lines = told.decode().split("\n")
    return status, [line for line in lines if status or line.startswith(f"{key} ")]


RULES = {"Form": 1, "Key": 2, "Table": 3, "Unsound": 5}


def ask_row(program, case, key, body, answer):
    """A row that is read is printed as it was; else the rule that it breaks is told, and its key."""
    others = dict(beside(json.loads(body))).items() if answer not in ("Form", "Key", "Table") else []
    wanted = (7, [f"datastore OR{RULES[answer]} {key}", ""]) if answer in RULES else (0, [f"{key} {REVISION} {answer}"])
    program.want(case, "", told_of_row(program, key, body, others), wanted)


def ask_record(program, case, question, answer):
    ask_row(program, case, *question.partition(" ")[::2], answer)


COUNTS = {"block": {"10.0.0.0/26": 1}, "handleID": "n.c1"}
BODIES = {
    "pools": {"pools": []},
    "reservations": {"reservations": []},
    "block": Block.fresh(Cidr.read("10.0.0.0/26"), None),
    "affinity": affinity("a", "10.0.0.0/26", "pending")[1],
    "handle": COUNTS,
}
CONFIG = {"autoAllocateBlocks": True, "maxBlocksPerHost": 0, "strictAffinity": False}


def body_for(key):
    """The body of a key that is read."""
    kind, _, rest = key.partition("/")
    if kind == "block":
        return Block.fresh(Cidr.read(rest), None)
    if kind == "affinity":
        node, _, cidr = rest.partition("/")
        return affinity(node, cidr, "pending")[1]
    return {"block": COUNTS["block"], "handleID": rest} if kind == "handle" else BODIES.get(kind, CONFIG)


def pages_after(key):
    """A line for each kind of rows, which asks for those after the key."""
    return [compact({"after": key, "rows": kind}) for kind in ("config", *BODIES)]


def ask_key(program, case, key, answer):
    """As the key of a row, where there may be such a row; and as the key after which rows of each kind are asked."""
    are_read = [session_table.told(line) != "line" for line in pages_after(key)]
    program.want(case, "", sum(are_read), int(answer != "none"))
    if answer == "none":
        ask_row(program, case, key, compact(BODIES.get(key.partition("/")[0], CONFIG)), "Form")
        return
    program.want(case, "", answer, key)
    if not key.endswith("::/0"):
        ask_row(program, case, key, compact(body_for(key)), compact(body_for(key)))


PAGED = [
    {"pool": {"cidr": "10.0.0.0/24", "name": "p", "size": 26}},
    {"pool": {"cidr": "2001:db8::/120", "name": "q", "size": 122}},
    {"config": {}},
    {"reserve": {"cidrs": [], "name": "r"}},
    *[{"add": {"handle": handle, "ipv6": True, "node": node}} for handle in ("0", "n.c0", "n.c1", "z") for node in ("a", "z")],
]


def ask_pages(program, keys, place):
    """Rows after each key, of a daemon."""
    served = bad_links.Served(program, place)
    lines = [compact({"request": one}) for one in PAGED]
    for key in keys:
        lines += pages_after(key)
    served.tried(bad_links.encoded("\n".join(lines) + "\n"))
    served.ended()


# ---- calls and documents


def environment(text):
    return [tuple(pair.split("=", 1)) for pair in text.split("¦") if pair]


def ask_call(program, case, env, stdin, answer):
    """A call that is refused with this, or that does what it asks over its sets of rows."""
    if answer.startswith("refused"):
        program.want(case, "", asked_calls.run(program, env, stdin), asked_calls.refused(answer))
    else:
        program.want(case, "", cni_table.read(env, stdin), answer)
        asked_calls.ask(program, case, env, stdin)


def ask_worked(program, case, question, answer):
    env, _, stdin = question.partition("⇒")
    ask_call(program, case, environment(env), stdin, answer)


DEL = environment("CNI_COMMAND=DEL¦CNI_CONTAINERID=c1¦CNI_IFNAME=eth0")
CONFIGURATION = '{"cniVersion":"1.0.0","name":"n","nodename":"a","ipam":{"type":"calico-ipam"}}'


def ask_padded(program, case, size, answer):
    """A DEL with spaces after its configuration, so many bytes in all."""
    ask_call(program, case, DEL, CONFIGURATION.ljust(int(size)), answer)


def ask_bytes(program, case, text, answer):
    """A DEL whose standard input has the bytes of these numbers."""
    program.want(case, "", program.run(["cni"], text.encode("latin-1"), dict(DEL)), asked_calls.refused(answer))


def ask_document(program, case, data, answer):
    bad_input.without_rows()
    program.want(case, "", program.run(["apply"], data), (1, answer.encode()))


def ask_document_byte(program, case, question, answer):
    """A document in which `¤` stands for the byte of this number."""
    number, _, text = question.partition(" ")
    ask_document(program, case, text.encode().replace("¤".encode(), bytes([int(number)])), answer)


def ask_document_bytes(program, case, count, answer):
    ask_document(program, case, b"\xff" * int(count), answer)


# ---- the client

CALLED = ["CNI_COMMAND=DEL", "CNI_NETNS=/n", "PATH=/bin", "CNI_COMMAND=ADD", "IPAM_CONNECT_SECONDS=0"]


def filled(text):
    """The bytes of `COUNT TEXT`, of which the first stands so many times."""
    count, _, rest = text.partition(" ")
    return rest[:1].encode("latin-1") * (int(count or 1) - 1) + rest.encode("latin-1")


def ended(program, address, given, out):
    """The status of a call of the daemon at this address, in exactly this environment."""
    libc, child, actions = bad_environment.LIBC, ctypes.c_int(), ctypes.create_string_buffer(512)
    libc.posix_spawn_file_actions_init(actions)
    for file, number in ((given, 0), (out, 1)):
        libc.posix_spawn_file_actions_adddup2(actions, file.fileno(), number)
    words = bad_environment.strings([b"ipam", b"call", address.encode()])
    entries = bad_environment.strings([one.encode() for one in CALLED])
    fault = libc.posix_spawn(ctypes.byref(child), os.fsencode(program.path), actions, None, words, entries)
    libc.posix_spawn_file_actions_destroy(actions)
    if fault:
        raise OSError(fault, os.strerror(fault))
    return os.waitstatus_to_exitcode(os.waitpid(child.value, 0)[1])


def client(program, address, failing, data):
    """The status of a call with this input, and what was written, where this call of the program's own fails."""
    with tempfile.TemporaryFile() as given, tempfile.TemporaryFile() as out:
        given.write(data)
        given.seek(0)
        if failing == "source 1":
            folder = os.open("/", os.O_RDONLY)
            os.dup2(folder, given.fileno())
            os.close(folder)
        if failing == "sink 1":
            with open("/dev/full", "wb") as full:
                return ended(program, address, given, full), b""
        status = ended(program, address, given, out)
        out.seek(0)
        return status, out.read()


def ask_client(program, case, question, answer):
    """A call of a daemon that replies so: its status, the line that it sent, and what it wrote."""
    failing, given, replies = question.split("⇒")
    status, line, written = answer.split("⇒")
    seeming = Seeming()
    seeming.answers(filled(replies) if failing != "link 2" else b"", failing == "link 2")
    address = seeming.address if failing != "link 1" else f"127.0.0.1:{free_port()}"
    found = client(program, address, failing, filled(given))
    if line:
        seeming.served.wait(bad_links.PATIENCE)
    sent = seeming.line or b""
    program.want(case, "", (*found, sent), (int(status), written.encode(), line.encode()))


# ---- resources that are refused

POOL = b'{"kind":"IPPool","metadata":{"name":"q"},"spec":{"cidr":"10.0.0.128/25"}}'
ASKED = b'{"request":{"pool":{"cidr":"10.0.0.128/25","name":"q","size":26}}}\n'
ANSWERS = {"10": "full", "11": "spent", "12": {"done": {"revision": 1}}}


def ask_refusal(program, case, number, answer):
    """A pool that a daemon refuses so. An answer that no change of a pool has is no reply."""
    seeming = Seeming()
    reply = ANSWERS.get(number, {"refused": {"name": "x", "number": int(number)}})
    seeming.answers(compact({"answer": reply}).encode() + b"\n")
    found = program.run(["--daemon", seeming.address, "apply"], POOL)
    wanted = (1, answer) if answer != "nothing" else (0, "applied IPPool q\n") if number == "12" else (11, "reply fault\n")
    program.want(case, "", (*found, seeming.line), (wanted[0], wanted[1].encode(), ASKED))


# ---- scenes


def on_one_line(written):
    """What is written, without its last line feed, which has to be there."""
    return written[:-1].replace("\n", "␤") if written.endswith("\n") else f"{written} and no line feed" if written else ""


class Scene:
    """A file or a daemon over it, whose rows are given first."""

    def __init__(self, program, place):
        self.program, self.place, self.rows, self.script = program, place, [], []
        self.daemon = self.connection = None
        self.database = bad_input.DATABASE

    # rows

    def row(self, rest):
        revision, key, body = rest.split(" ", 2)
        self.rows.append((key, int(revision), body))

    def pools(self, count):
        pools = [{**pool_for(f"10.{n}.0.0/24"), "blockSize": 26, "name": f"p{n}"} for n in range(int(count))]
        self.rows.append(("pools", 1, compact({"pools": pools})))

    def reservations(self, count):
        reservations = [{"name": f"r{n}", "reservedCIDRs": []} for n in range(int(count))]
        self.rows.append(("reservations", 1, compact({"reservations": reservations})))

    def handles(self, count):
        """So many handles, each with an address that nothing has."""
        body = '{"block":{"10.0.0.0/26":1},"handleID":"%d"}'
        self.rows += [(f"handle/{one}", 1, body % one) for one in range(int(count))]

    def blocks(self, count):
        """So many blocks of one address each, which are the node b's."""
        fresh = compact(Block.fresh(Cidr.read("10.0.0.0/32"), "b"))
        for cidr in (f"10.0.{one // 256}.{one % 256}/32" for one in range(int(count))):
            key, body = affinity("b", cidr)
            self.rows += [(f"block/{cidr}", 1, fresh.replace("10.0.0.0/32", cidr)), (key, 1, compact(body))]

    def wide(self, rest):
        """A handle with so many blocks."""
        revision, handle, count = rest.split(" ")
        blocks = {f"10.{n // 256}.{n % 256}.0/26": 1 for n in range(int(count))}
        self.rows.append((f"handle/{handle}", int(revision), compact({"block": blocks, "handleID": handle})))

    def folder(self, _):
        self.database = self.place

    def made(self):
        if self.rows:
            bad_input.with_rows(self.rows)
            self.rows = []

    # words

    def told(self, words, data=b"", env=(), **limits):
        self.made()
        whole = {"IPAM_DB": str(self.database), **dict(env)}
        told = subprocess.run([self.program.path, *words], input=data, capture_output=True, env=whole, check=False, **limits)
        return [f"{told.returncode} {on_one_line(told.stdout.decode())}".rstrip(" ")]

    def run(self, words):
        return self.told(words.split(" "))

    def cni(self, rest, **limits):
        env, _, stdin = rest.partition("⇒")
        whole = {"CNI_CONTAINERID": "c1", "CNI_NETNS": "/x", "CNI_IFNAME": "eth0", **dict(environment(env))}
        return self.told(["cni"], stdin.encode(), {name: text.replace("␤", "\n") for name, text in whole.items()}, **limits)

    def memory(self, rest):
        """A call with so many mebibytes of memory."""
        size, _, call = rest.partition(" ")
        most = int(size) << 20
        return self.cni(call, preexec_fn=lambda: resource.setrlimit(resource.RLIMIT_AS, (most, most)))

    def apply(self, document):
        return self.told(["apply"], document.encode())

    def handle(self, handle):
        """The handle's counts, or that it is empty."""
        self.made()
        row = bad_links.rows_of(self.database).get(f"handle/{handle}")
        counts = [f"{cidr}={count}" for cidr, count in row[1]["block"].items()] if row else ["empty"]
        return [" ".join([handle, *counts])]

    def counted(self, rest):
        """Another count for a block of the handle."""
        handle, cidr, count = re.split("[ =]", rest)
        rows = {**bad_links.rows_of(self.database)}
        rows[f"handle/{handle}"][1]["block"][cidr] = int(count)
        bad_input.with_rows([(key, revision, compact(body)) for key, (revision, body) in rows.items()])

    # a daemon

    def line(self, line):
        if self.daemon is None:
            self.made()
            self.daemon = Daemon(self.program.path, self.database)
            self.connection = self.daemon.connect().makefile("rwb")
        self.connection.write(line.encode() + b"\n")
        self.connection.flush()
        reply = self.connection.readline().decode().removesuffix("\n")
        return [OPENED.sub("SECONDS-WORD", reply)]

    def page(self, line):
        """The keys of a page, and whether there is more."""
        page = json.loads(self.line(line)[0])
        return [" ".join([one["key"] for one in page["rows"]] + ["more"] * page.get("more", False))]

    def ends(self):
        if self.daemon:
            self.connection.close()
            self.daemon.stop()

    # scripts

    def play(self, line):
        self.script.append(line)

    def journal(self):
        """The lines of the journal of the script so far."""
        rows = [f"row {revision} {key} {body}" for key, revision, body in self.rows]
        script = "".join(f"{line}\n" for line in rows + self.script)
        return self.program.run(["play"], script.encode())[1].decode().splitlines()

    def said(self, _):
        return self.journal()[-1:]

    def block(self, cidr):
        """The free ordinals of the block in their order, and those that are held with their stamps, as it was written last."""
        words = [line.split(" ") for line in self.journal() if f" update block/{cidr} " in line]
        body = json.loads(words[-1][8])
        stamps = sorted(body["sequenceNumberForAllocation"].items(), key=lambda pair: int(pair[0]))
        return [" ".join([*map(str, body["unallocated"]), *(f"{ordinal}@{stamp}" for ordinal, stamp in stamps)])]


def ask_scene(program, title, steps, place):
    bad_input.without_rows()
    scene, wrong = Scene(program, place), program.wrong
    for step, wanted in steps:
        word, _, rest = step.partition(" ")
        found = getattr(scene, word)(rest)
        if found is not None and program.wrong == wrong:
            program.want(title, step, found, wanted)
    scene.ends()


# ---- the table


KINDS = {
    "record": ask_record,
    "key": ask_key,
    "worked": ask_worked,
    "padded": ask_padded,
    "bytes": ask_bytes,
    "document byte": ask_document_byte,
    "document bytes": ask_document_bytes,
    "client": ask_client,
    "refusal": ask_refusal,
}


def with_wanted(lines):
    """Each line with those that are wanted of it."""
    found = []
    for line in lines:
        if line.startswith("= ") or line == "=":
            found[-1][1].append(line[2:])
        elif not line.startswith("#"):
            found.append((line, []))
    return found


def cases_of(table):
    """The cases, each with its kind: a question and its answer, or a title and its steps."""
    for part in table.split("\n\n"):
        lines = part.strip("\n").split("\n")
        if lines[0].startswith("scene|"):
            yield "scene", lines[0].partition("|")[2], with_wanted(lines[1:])
            continue
        for line, wanted in with_wanted(lines):
            kind, _, question = line.partition("|")
            yield kind, question.replace("␤", "\n"), wanted[0].replace("␤", "\n")


def main():
    program = bad_input.Program(os.path.abspath(sys.argv[1] if len(sys.argv) > 1 else TOP / "release/ipam"))
    passed = failed = 0
    with tempfile.TemporaryDirectory(prefix="ipam-texts-") as place:
        cases = list(cases_of(TABLE.read_bytes().decode()))
        for kind, question, answer in cases:
            wrong = program.wrong
            if kind == "scene":
                ask_scene(program, question, answer, Path(place))
            else:
                KINDS[kind](program, f"{kind}|{question}", question, answer)
            passed, failed = passed + (program.wrong == wrong), failed + (program.wrong > wrong)
        wrong = program.wrong
        ask_pages(program, [question for kind, question, _ in cases if kind == "key"], Path(place))
        failed += program.wrong > wrong
    print(f"{passed} passed, {failed} failed")
    return failed != 0 or passed == 0


if __name__ == "__main__":
    sys.exit(main())
