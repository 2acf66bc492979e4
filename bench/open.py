#!/usr/bin/env python3
"""Times the opening of rows by `play`, step by step, beside Python's reading of the same bodies.

    bench/open.py PROGRAM [ROWS..]

Each step is a script of the same rows that ends where the next step would begin:

    rows    the lines are read and put in order; the next line is refused before the base is opened
    texts   all keys and bodies are read too; the first test refuses the first row
    tests   all ten rules are tested too; the last one refuses the counter
    open    the datastore is made too, and one request begins

What a step costs is the difference to the one before.
"""
import json
import sys
import tempfile

from bases import row_lines, so_many_rows
from measured import Checks, in_processor, median, ran

BEGIN = 'begin 0 {"del":{"handle":"net.none"}}\n'


def steps(rows):
    """The steps: a name, the script, what is written of it, and the status."""
    lines = row_lines(rows)
    yield "rows", lines + "?\n", f"line {len(rows) + 1}: unreadable\n", 8
    yield "texts", "row 1 a a\n" + lines, "datastore OR1 a\n", 7
    yield "tests", f"counter {2**62 + 1}\n" + lines, "datastore OR10 counter\n", 7
    yield "open", lines + BEGIN, BEGIN.replace("begin 0", "0 began"), 0


def timed(program, script, runs):
    """The median run over the script, and what it wrote."""
    with tempfile.TemporaryDirectory() as folder:
        with open(f"{folder}/script", "w") as file:
            file.write(script)
        one = median([ran([program, "play"], f"{folder}/script", f"{folder}/journal") for _ in range(runs)])
        with open(f"{folder}/journal") as file:
            return one, file.read(), len(script)


def tell(count, name, one, before, size):
    step = one.processor - before
    print(f"{count:>8} {name:<6}{one.wall:>9.3f}{one.processor:>9.3f}{step:>9.3f}{step / count * 1e6:>8.2f}"
          f"{one.peak:>10}{one.peak * 1024 / size:>7.1f}", flush=True)


def tell_rows(program, checks, count):
    rows = so_many_rows(count)
    checks.same(f"{count} rows are made", len(rows), count)
    before = 0
    for name, script, want, status in steps(rows):
        one, got, size = timed(program, script, 5 if count < 100_000 else 3)
        checks.same(f"{count} rows, {name}", (got, one.status), (want, status))
        tell(count, name, one, before, size)
        before = one.processor
    read = in_processor(lambda: [json.loads(body) for _, _, body in rows])
    print(f"{count:>8} Python's json.loads of each body: {read:.3f} s, {read / count * 1e6:.2f} us a row")
    tell_order(program, checks, rows)


def tell_order(program, checks, rows):
    """The same rows in the other order, so that each is put before all others."""
    rows = rows[:65_536]
    for name, ordered in (("up", rows), ("down", rows[::-1])):
        one, got, size = timed(program, row_lines(ordered) + "?\n", 1)
        checks.same(f"{len(rows)} rows, {name}", got, f"line {len(rows) + 1}: unreadable\n")
        tell(len(rows), name, one, 0, size)


def main():
    program, checks = sys.argv[1], Checks()
    print(f"{'rows':>8} {'step':<6}{'wall s':>9}{'cpu s':>9}{'its own':>9}{'us/row':>8}{'KiB':>10}{'x size':>7}")
    for count in [int(one) for one in sys.argv[2:]] or [10_000, 262_144]:
        tell_rows(program, checks, count)
    checks.end()


main()
