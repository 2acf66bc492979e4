#!/usr/bin/env python3
"""Times CNI calls whose configuration has 1,048,576 bytes, beside Python's json.loads of the same bytes.

    bench/look.py PROGRAM

Each configuration has one member that the program ignores, which fills it. VERSION reads the whole and
answers. ADD tests the whole and finds no pool. The printed time is the difference to the same call with a
short configuration.
"""
import json
import os
import sys
import tempfile

from measured import Checks, in_processor, median, ran

MOST = 1_048_576
HEAD = '{"cniVersion":"1.0.0","ipam":{"type":"calico-ipam"},"name":"net","nodename":"node-a",'
VERSIONS = '{"cniVersion":"1.0.0","supportedVersions":["0.3.0","0.3.1","0.4.0","1.0.0","1.1.0"]}\n'
NO_POOL = '{"cniVersion":"1.0.0","code":100,"details":"IPv4","msg":"no address available"}\n'
UNDECODED = '{"cniVersion":"1.0.0","code":6,"details":"","msg":"cannot decode network configuration"}\n'


def repeated(front, piece, back, size=MOST):
    """The front, the piece as often as it fits, and the back, of so many bytes by spaces before the back."""
    count = (size - len(front) - len(back)) // len(piece)
    middle = piece * count
    return front + middle + " " * (size - len(front) - len(middle) - len(back)) + back


def members(size=MOST):
    """Members with names that differ."""
    count = (size - len(HEAD) - 20) // 12
    middle = "".join(f'"n{number:06}":0,' for number in range(count))[:-1]
    return (HEAD + middle).ljust(size - 1) + "}"


def listed(piece):
    return repeated(f'{HEAD}"x":[', piece + ",", "0]}")


def configurations():
    deep = 120
    yield "short", HEAD + '"x":0}'
    yield "one text", repeated(HEAD + '"x":"', "a", '"}')
    yield "a text of escapes", repeated(HEAD + '"x":"', "\\u00e9", '"}')
    yield "spaces", repeated(HEAD, " ", '"x":0}')
    yield "whole numbers", listed("1")
    yield "other numbers", listed("1.5e3")
    yield "texts", listed('"a"')
    yield "empty lists", listed("[]")
    yield "empty objects", listed("{}")
    yield "objects of one member", listed('{"a":0}')
    yield "members, all different", members()
    yield "members, all of one name", repeated(HEAD, '"a":0,', '"x":0}')
    yield "lists, 120 deep", listed("[" * deep + "]" * deep)
    yield "objects, 120 deep", listed('{"a":' * deep + "0" + "}" * deep)


def refused():
    yield "one byte more", repeated(HEAD + '"x":"', "a", '"}', MOST + 1).encode()
    yield "lists, never closed", b"[" * MOST
    yield "lists in an object, never closed", (HEAD + '"x":').encode().ljust(MOST, b"[")
    yield "objects, never closed", (b'{"a":' * MOST)[:MOST]
    yield "200 lists in an object", b'{"x":' + b"[" * 200
    yield "a text, never closed", (HEAD + '"x":"').encode().ljust(MOST, b"a")
    yield "the last byte is no UTF-8", repeated(HEAD + '"x":"', "a", '"}').encode()[:-3] + b'\xff"}'


class Bench:
    def __init__(self, program, folder):
        self.program, self.folder, self.checks = program, folder, Checks()

    def call(self, command, given, what, want, status):
        with open(f"{self.folder}/given", "wb") as file:
            file.write(given)
        environment = {
            "CNI_COMMAND": command, "CNI_CONTAINERID": "c1", "CNI_NETNS": "/x", "CNI_IFNAME": "eth0", "CNI_PATH": "/x",
            "IPAM_DB": f"{self.folder}/ipam.db"}
        one = median([ran([self.program], f"{self.folder}/given", f"{self.folder}/out", environment) for _ in range(7)])
        with open(f"{self.folder}/out") as file:
            self.checks.same(f"{what}, {command}", (file.read(), one.status), (want, status))
        return one


def by_python(given):
    """The milliseconds of processor, and whether it is JSON."""
    def read():
        try:
            json.loads(given)
        except (ValueError, RecursionError):
            pass
    return sorted(in_processor(read) for _ in range(5))[2] * 1e3


def tell_read(bench):
    print(f"{'':<34}{'VERSION ms':>11}{'ADD ms':>8}{'Python ms':>11}{'KiB':>8}   (of cpu)")
    short = {}
    for what, configuration in configurations():
        given = configuration.encode()
        if what != "short":
            bench.checks.same(f"{what}: bytes", len(given), MOST)
        told = []
        for command, want, status in (("VERSION", VERSIONS, 0), ("ADD", NO_POOL, 1)):
            one = bench.call(command, given, what, want, status)
            short.setdefault(command, one.processor)
            told.append(one.processor if what == "short" else one.processor - short[command])
        print(f"{what:<34}{told[0] * 1e3:>11.1f}{told[1] * 1e3:>8.1f}{by_python(given):>11.1f}{one.peak:>8}", flush=True)
    return short["ADD"]


def tell_refused(bench, short):
    for what, given in refused():
        one = bench.call("ADD", given, what, UNDECODED, 1)
        python = "" if what.startswith(("one", "the last")) else f"{by_python(given):.1f}"
        print(f"{'refused: ' + what:<45}{(one.processor - short) * 1e3:>8.1f}{python:>11}{one.peak:>8}", flush=True)


def main():
    with tempfile.TemporaryDirectory(dir=os.environ.get("BENCH_FOLDER")) as folder:
        bench = Bench(sys.argv[1], folder)
        tell_refused(bench, tell_read(bench))
        bench.checks.end()


main()
