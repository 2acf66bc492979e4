"""Runs the program and reports its time, its memory and its output."""
import os
import statistics
import subprocess
import sys
import tempfile
import time


class Ran:
    """One run: its status, seconds by the clock, seconds of processor, and most memory in KiB."""

    def __init__(self, status, wall, processor, peak):
        self.status, self.wall, self.processor, self.peak = status, wall, processor, peak


def ran(words, source="/dev/null", target="/dev/null", environment=None, limit=None):
    """Runs the words from a file to a file; `limit` holds its memory to so many KiB."""
    with tempfile.NamedTemporaryFile() as told, open(source, "rb") as given, open(target, "wb") as taken:
        # (`time` forks again, so that this process's own memory is not counted)
        command = ["/usr/bin/time", "-q", "-o", told.name, "-f", "%M", *words]
        if limit:
            command = ["sh", "-c", f'ulimit -v {limit}; exec "$@"', "sh", *command]
        start = time.perf_counter()
        process = subprocess.Popen(command, stdin=given, stdout=taken, env=environment)
        _, status, used = os.wait4(process.pid, 0)
        process.returncode = os.waitstatus_to_exitcode(status)
        wall = time.perf_counter() - start
        peak = int(told.read().split()[-1])
        return Ran(process.returncode, wall, used.ru_utime + used.ru_stime, peak)


def median(runs):
    """The run of the medians, of runs that end alike."""
    if len({one.status for one in runs}) != 1:
        sys.exit("the runs ended with different statuses")
    middle = lambda of: statistics.median(of(one) for one in runs)
    return Ran(
        runs[0].status,
        middle(lambda one: one.wall),
        middle(lambda one: one.processor),
        int(middle(lambda one: one.peak)),
    )


class Checks:
    """What was compared, and what differed."""

    def __init__(self):
        self.made, self.bad = 0, []

    def same(self, what, got, want):
        self.made += 1
        if got != want:
            self.bad.append(what)
            print(f"DIFFERS: {what}\n  got  {clipped(got)}\n  want {clipped(want)}", flush=True)

    def end(self):
        print(f"{self.made} checks, {len(self.bad)} differ")
        sys.exit(1 if self.bad else 0)


def clipped(value):
    told = repr(value)
    return told if len(told) < 300 else f"{told[:200]} .. {told[-80:]}"


def numbers_of(program, *measures):
    """What `ipam_bench` computes of these measurements, and the nanoseconds of each in the fastest of three runs."""
    given = "\n\n".join(measure.rstrip("\n") for measure in measures)
    runs = [subprocess.run([program], input=given, capture_output=True, text=True, check=True) for _ in range(3)]
    times = [[int(line.split()[0]) for line in run.stderr.splitlines()] for run in runs]
    return [int(line) for line in runs[0].stdout.split()], [min(one) for one in zip(*times)]


def in_processor(work):
    """The seconds of processor that the work takes here."""
    start = time.process_time()
    work()
    return time.process_time() - start
