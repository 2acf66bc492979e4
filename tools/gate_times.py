#!/usr/bin/env python3
"""Runs the gate and prints the processor seconds that each crate took, for its proof, its tests and
its wrong bodies. The compiler that a prover starts counts for the prover's crate. What descends from the gate and
from no prover, such as a program of tests that runs, counts for `(runs)`.

It looks twice a second at the processes that descend from the gate's process, so what one spends in its last half
second is missed. Usage, at the top of the repository:

    tools/gate_times.py COMMAND..      as in: tools/gate_times.py rt ci --anew

The gate's own output goes to standard error. The status is the gate's.
"""

import os
import subprocess
import sys
import time
from collections import defaultdict

TICKS = os.sysconf("SC_CLK_TCK")
KINDS = ("proof", "tests", "edits")


class Process:
    def __init__(self, number):
        with open(f"/proc/{number}/stat") as file:
            stat = file.read().rsplit(")", 1)[1].split()
        with open(f"/proc/{number}/cmdline", "rb") as file:
            self.words = file.read().decode(errors="replace").split("\0")
        self.parent = int(stat[1])
        self.spent = (int(stat[11]) + int(stat[12])) / TICKS
        # A number is used again, but not with this moment.
        self.start = stat[19]


def processes():
    """All processes by their numbers."""
    found = {}
    for name in os.listdir("/proc"):
        if name.isdigit():
            try:
                found[int(name)] = Process(name)
            except OSError:
                pass
    return found


def line_of(found, number, root):
    """The processes from this one up to the root, if it descends from that."""
    line = []
    while number in found:
        line.append(found[number])
        if number == root:
            return line
        number = found[number].parent
    return None


def part_of(words):
    """The crate and the kind of work of a prover, if these are a prover's words."""
    if len(words) < 2 or not words[0].endswith("/rattle") or "--crate-name" not in words:
        return None
    crate = words[words.index("--crate-name") + 1]
    if "--only" in words or any("rt-edits-" in word for word in words):
        return crate, "edits"
    return crate, "tests" if "--test" in words else "proof"


def part_in(line):
    """What a process with these ancestors works for."""
    parts = [part for part in (part_of(it.words) for it in line) if part]
    return parts[0] if parts else ("(runs)", "tests")


def main():
    if len(sys.argv) < 2:
        sys.exit(__doc__)
    start = time.time()
    gate = subprocess.Popen(sys.argv[1:], stdout=sys.stderr)
    seconds = {}
    while gate.poll() is None:
        found = processes()
        for number, process in found.items():
            line = line_of(found, number, gate.pid)
            # (one that has ended has no words)
            if line and process.words[0]:
                seconds[number, process.start, part_in(line)] = process.spent
        time.sleep(0.5)
    table = defaultdict(lambda: dict.fromkeys(KINDS, 0.0))
    for (_, _, (crate, kind)), spent in seconds.items():
        table[crate][kind] += spent
    print(f"{'crate':24}" + "".join(f"{kind:>9}" for kind in KINDS) + f"{'all':>9}")
    for crate, row in sorted(table.items(), key=lambda item: -sum(item[1].values())):
        print(f"{crate:24}" + "".join(f"{row[kind]:9.0f}" for kind in KINDS) + f"{sum(row.values()):9.0f}")
    sums = [sum(row[kind] for row in table.values()) for kind in KINDS]
    print(f"{'all':24}" + "".join(f"{part:9.0f}" for part in sums) + f"{sum(sums):9.0f}")
    print(f"{time.time() - start:.0f} seconds by the clock")
    sys.exit(gate.returncode)


if __name__ == "__main__":
    main()
