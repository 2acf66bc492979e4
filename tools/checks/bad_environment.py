#!/usr/bin/env python3
"""Words and environments that no test of the gate can make: bytes that are no UTF-8, and names twice.

Each row runs the program in an empty folder with these words and exactly these entries of the
environment, and says what has to come of it: the status, standard output, whether standard error has a
line, and which files are there afterwards. It also says which commands make no file.

    tools/checks/bad_environment.py [PROGRAM]      by ./ipam
"""

import ctypes
import json
import os
import sys
import tempfile
from pathlib import Path

TOP = Path(__file__).resolve().parents[2]
CONFIG = {"cniVersion": "1.0.0", "name": "net", "nodename": "n1", "type": "calico", "ipam": {"type": "calico-ipam"}}
CALL = {b"CNI_CONTAINERID": b"c1", b"CNI_NETNS": b"/var/run/netns/x", b"CNI_IFNAME": b"eth0", b"CNI_ARGS": b""}
LIBC = ctypes.CDLL(None, use_errno=True)


def strings(items):
    return (ctypes.c_char_p * (len(items) + 1))(*items, None)


def run(program, words, entries, stdin):
    """The status, standard output, standard error and the files that are there afterwards."""
    with tempfile.TemporaryDirectory() as place, tempfile.TemporaryFile() as given, tempfile.TemporaryFile() as out, tempfile.TemporaryFile() as err:
        given.write(stdin)
        given.seek(0)
        child = os.fork()
        if child == 0:
            os.chdir(place)
            os.dup2(given.fileno(), 0)
            os.dup2(out.fileno(), 1)
            os.dup2(err.fileno(), 2)
            LIBC.execve(os.fsencode(program), strings([b"ipam", *words]), strings(entries))
            os._exit(127)
        status = os.waitstatus_to_exitcode(os.waitpid(child, 0)[1])
        out.seek(0)
        err.seek(0)
        return status, out.read(), err.read(), sorted(os.listdir(place))


def entries_of(command, changed=(), more=()):
    named = {b"CNI_COMMAND": command, **CALL, **dict(changed)}
    return [*(name + b"=" + value for name, value in named.items()), *more]


def refusal(name):
    return lambda out: (json.loads(out)["code"], json.loads(out)["details"]) == (4, name)


def rows():
    """The name of a row, its words, its entries, its input, and what is wanted."""
    config = json.dumps(CONFIG).encode()
    fault = "keeper fault\n".encode()
    bad = b"\xff\xfe"
    for words in ([bad], [b"get", bad], [b"\xc3"], [b"routes", b"n\xff"], [b"call", bad]):
        yield f"words {words}", words, [], b"", 2, b"unknown words\n", True, []
    for words in ([b"gen", b"x"], [b"audit", b"0"], [b"serve", b"a:1", b"17"], [b"nothing"], [b"play", b"twice"]):
        yield f"words {words}", words, [], b"", 2, b"unknown words\n", True, []
    for name in (b"CNI_COMMAND", *CALL):
        told = refusal(name.decode())
        yield f"ADD, {name} is no UTF-8", [], entries_of(b"ADD", {name: bad}.items()), config, 1, told, False, []
        yield f"ADD, the last {name} is no UTF-8", [], entries_of(b"ADD", more=[name + b"=" + bad]), config, 1, told, False, []
    yield "DEL does not look at a namespace", [], entries_of(b"DEL", {b"CNI_NETNS": bad}.items()), config, 0, b"", True, None
    yield "the last command counts", [], entries_of(b"ADD", more=[b"CNI_COMMAND=DEL"]), config, 0, b"", True, None
    yield "the last interface counts", [], entries_of(b"ADD", more=[b"CNI_IFNAME=a/b"]), config, 1, refusal("CNI_IFNAME"), False, []
    yield "another entry is no UTF-8", [], entries_of(b"DEL", more=[b"OTHER=" + bad, bad]), config, 0, b"", True, None
    version = entries_of(b"VERSION")
    yield "VERSION makes no file", [], version, config, 0, lambda out: "supportedVersions" in json.loads(out), False, []
    yield "a refused call makes no file", [], entries_of(b"ADD", {b"CNI_IFNAME": b""}.items()), config, 1, refusal("CNI_IFNAME"), False, []
    yield "--help makes no file", [b"--help"], [], b"", 0, lambda out: out.startswith(b"Pod addresses"), False, []
    yield "--version makes no file", [b"--version"], [], b"", 0, lambda out: out.startswith(b"ipam "), False, []
    yield "play makes no file", [b"play"], [], b"", 0, lambda out: True, False, []
    yield "gen makes no file", [b"gen", b"1"], [], b"", 0, lambda out: True, False, []
    for command in ([b"get"], [b"routes", b"n1"], [b"audit", b"2"]):
        yield f"{command} makes no file", command, [], b"", 0, lambda out: True, True, []
    for path in (bad, b"rows\xff.db", b""):
        for command in ([b"get"], [b"audit", b"2"], [b"release", b"n1", b"10.0.0.0/26"]):
            yield f"{command}, IPAM_DB is {path}", command, [b"IPAM_DB=" + path], b"", 5, fault, True, []
        yield f"VERSION, IPAM_DB is {path}", [], [*version, b"IPAM_DB=" + path], config, 0, lambda out: True, False, []
    yield "the last IPAM_DB counts", [b"apply"], [b"IPAM_DB=a.db", b"IPAM_DB=b.db"], b'{"kind":"IPAMConfig","spec":{}}', 0, lambda out: True, False, lambda files: "b.db" in files and "a.db" not in files


def main():
    program = Path(sys.argv[1] if len(sys.argv) > 1 else TOP / "ipam").resolve()
    tried = wrong = 0
    for name, words, entries, stdin, status, output, tells, files in rows():
        found = run(program, words, entries, stdin)
        tried += 1
        right = found[0] == status and (output(found[1]) if callable(output) else found[1] == output) and bool(found[2]) == tells
        right = right and (files is None or (files(found[3]) if callable(files) else found[3] == files))
        if not right:
            wrong += 1
            print(f"{name}: found {found!r}")
    print(f"{tried} words and environments, {wrong} wrong")
    sys.exit(1 if wrong else 0)


if __name__ == "__main__":
    main()
