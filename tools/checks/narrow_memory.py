#!/usr/bin/env python3
"""Runs a built program with deep JSON under limits of memory, 4 KiB apart, and counts how it ends.

    tools/checks/narrow_memory.py [PROGRAM]      else release/ipam

The limits go from the first under which the program begins to where all works. Each run has to end as without a limit or
to tell want of memory, and none by a signal. It needs Linux. Each line says what ran and how often it ended how; the last
is `N passed, M failed`, of runs, and the status is 1 where one failed.
"""
import collections
import concurrent.futures
import pathlib
import shutil
import subprocess
import sys
import tempfile

TOP = pathlib.Path(__file__).resolve().parents[2]
POOL = b'{"kind":"IPPool","metadata":{"name":"pods"},"spec":{"cidr":"10.0.0.0/16"}}'
CALL = {"CNI_COMMAND": "ADD", "CNI_CONTAINERID": "c", "CNI_NETNS": "/x", "CNI_IFNAME": "eth0"}
WANT = '{"cniVersion":"%s","code":101,"details":"","msg":"want of memory"}\n'
NO_MEMORY = 6
STEP = 4           # KiB between two limits
BEYOND = 64        # KiB above the first limit under which a command works that are tried too
MOST = 65536       # KiB under which everything works
PASSED_ON = {"PATH": "/usr/bin:/bin"}


def deep(levels, is_object):
    return '{"a":' * levels + "1" + "}" * levels if is_object else "[" * levels + "]" * levels


def configuration(levels, is_object):
    return ('{"cniVersion":"1.0.0","name":"n","nodename":"a","ipam":{"type":"calico-ipam"},"x":%s}'
            % deep(levels, is_object)).encode()


def document(levels, is_object):
    return ('{"kind":"IPPool","metadata":{"name":"more"},"x":%s,"spec":{"cidr":"10.1.0.0/16"}}' % deep(levels, is_object)).encode()


class Case:
    """A command with its standard input. A JSON text may be 127 levels deep: the values have one level more around."""

    def __init__(self, name, words, stdin=b"", call=None):
        self.name, self.words, self.stdin, self.call = name, words, stdin, call or {}

    def run(self, program, base, limit):
        """The status and the output under a limit in KiB, over rows of its own."""
        with tempfile.TemporaryDirectory() as folder:
            for file in base.iterdir():
                shutil.copy(file, folder)
            env = {**PASSED_ON, **self.call, "IPAM_DB": f"{folder}/ipam.db", "IPAM_CONNECT_SECONDS": "0"}
            ran = subprocess.run(["sh", "-c", 'ulimit -v "$0" && exec "$@"', str(limit), program, *self.words],
                                 input=self.stdin, env=env, capture_output=True)
        return ran.returncode, ran.stdout

    def end(self, seen, whole):
        """How it ended, in words, and whether it may."""
        status, told = seen
        if seen == whole:
            return "as without a limit", True
        if self.call and (status, told.decode()) in ((1, WANT % "1.0.0"), (NO_MEMORY, "")):
            return f"want of memory, {'code 101' if status == 1 else 'status 6'}", True
        if not self.call and status == NO_MEMORY:
            return "want of memory, status 6", True
        return f"status {status} and {told[:60]!r}", False


CASES = (
    *(Case(f"ADD, {levels} levels of {kind}", [], configuration(levels, kind == "objects"), CALL)
      for levels, kind in ((100, "lists"), (126, "objects"), (128, "objects"))),
    Case("call of nobody, 126 levels of objects", ["call", "/nowhere/ipam.sock"], configuration(126, True), CALL),
    Case("apply, 126 levels of objects", ["apply"], document(126, True)),
    Case("show", ["show"]),
    Case("--version", ["--version"]),
)


def least(holds, low, high):
    """The least limit that it holds of, where it holds of `high`."""
    while high - low > STEP:
        middle = (low + high) // 2
        low, high = (low, middle) if holds(middle) else (middle, high)
    return high


def try_case(case, program, base, first, pool):
    whole = case.run(program, base, MOST)
    works = least(lambda limit: case.run(program, base, limit) == whole, first, MOST)
    limits = range(first, works + BEYOND, STEP)
    ends = collections.Counter(case.end(seen, whole) for seen in pool.map(lambda limit: case.run(program, base, limit), limits))
    print(f"{case.name}, {limits[0]} to {limits[-1]} KiB: "
          + "; ".join(f"{count} {end}{'' if may else ': FAILED'}" for (end, may), count in sorted(ends.items())), flush=True)
    failed = sum(count for (_, may), count in ends.items() if not may)
    return ends.total() - failed, failed


def main():
    program = str(pathlib.Path(sys.argv[1] if len(sys.argv) > 1 else TOP / "release/ipam").resolve())
    with tempfile.TemporaryDirectory() as name, concurrent.futures.ThreadPoolExecutor(8) as pool:
        base = pathlib.Path(name)
        subprocess.run([program, "apply"], input=POOL, env={**PASSED_ON, "IPAM_DB": f"{name}/ipam.db"}, check=True,
                       stdout=subprocess.DEVNULL)
        # (two steps more, since the system places a program's parts at random)
        begins = 2 * STEP + least(lambda limit: CASES[-1].run(program, base, limit)[0] in (0, NO_MEMORY), 1024, MOST)
        counts = [try_case(case, program, base, begins, pool) for case in CASES]
    passed, failed = (sum(column) for column in zip(*counts))
    print(f"{passed} passed, {failed} failed")
    return failed != 0


sys.exit(main())
