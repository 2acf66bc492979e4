#!/usr/bin/env python3
"""Plays long scripts, and reports the entries a second and the most memory.

    bench/play.py PROGRAM

Small scripts of the same kinds are compared byte for byte with what the second allocator makes of them.
"""
import os
import subprocess
import sys
import tempfile

import play_scripts as scripts
from bases import row_lines
from measured import Checks, median, ran

TOP = os.path.dirname(os.path.dirname(os.path.abspath(__file__)))
MOST = 67_108_864
LONGEST = 1_048_576


class Bench:
    """A program, a folder for scripts and journals, and what was checked."""

    def __init__(self, program, folder):
        self.program, self.folder, self.checks = program, folder, Checks()
        print(f"{'':<44}{'MB':>6}{'entries':>9}{'wall s':>8}{'cpu s':>7}{'a second':>10}{'of cpu':>9}{'KiB':>9}")

    def play(self, script, runs=3, limit=None):
        """The median run over the script."""
        with open(f"{self.folder}/script", "w") as file:
            file.write(script)
        words = [self.program, "play"]
        return median([ran(words, f"{self.folder}/script", f"{self.folder}/journal", limit=limit) for _ in range(runs)])

    def journal(self):
        with open(f"{self.folder}/journal") as file:
            return file.read()

    def tell(self, what, script, one, entries, rated=True):
        rates = f"{entries / one.wall:>10.0f}{entries / one.processor:>9.0f}" if rated else f"{'':>19}"
        size = len(script) / 1e6
        print(f"{what:<44}{size:>6.1f}{entries:>9}{one.wall:>8.2f}{one.processor:>7.2f}{rates}{one.peak:>9}", flush=True)

    def whole(self, what, script, want, status, runs=1, limit=None):
        """Plays the script and compares all that is written."""
        one = self.play(script, runs, limit)
        got = self.journal()
        self.checks.same(what, (got, one.status), (want, status))
        self.tell(what, script, one, got.count("\n"), rated=False)
        return one

    def answered(self, what, script, every, answers):
        """Plays the script; of its journal each entry with an answer is compared."""
        one = self.play(script)
        lines = self.journal().splitlines()
        got = [line.rpartition(" ")[2] for line in lines if " called " in line and not line.endswith(" -")]
        self.checks.same(f"{what}: status and entries", (one.status, len(lines)), (0, every * len(answers)))
        self.checks.same(f"{what}: answers", got, answers)
        self.tell(what, script, one, len(lines))


def tell_small(bench):
    """Small scripts of the kinds of the large ones, by the second allocator."""
    sys.path.insert(0, f"{TOP}/tools/second")
    from second_allocator import play

    adds = [scripts.add(number) for number in range(40)]
    dels = [scripts.delete(number, 10) for number in range(40)]
    base = row_lines(scripts.half_held(10))
    for what, script in (
        ("ADD", base + scripts.one_slot(adds, 8)),
        ("DEL", base + scripts.one_slot(dels, 5)),
        ("eight slots", base + scripts.in_turn(adds, 8) + scripts.in_turn(dels, 5)),
        ("leaks", scripts.leaks(150)[0]),
        ("all live", scripts.all_live(128)),
        ("one handle", scripts.churn(10)),
    ):
        one = bench.play(script, 1)
        bench.checks.same(f"small: {what}", (bench.journal(), one.status), play(script))


def tell_rates(bench):
    load = subprocess.run([sys.executable, f"{TOP}/bench/play_load.py"], capture_output=True, text=True, check=True).stdout
    one = bench.play(load)
    entries = bench.journal().count("\n")
    bench.checks.same("a new pool: status and entries", (one.status, entries), (0, 93_024))
    bench.tell("ADD and DEL, eight slots, 96 new blocks", load, one, entries)
    blocks, count = 1_000, 4_000
    base = row_lines(scripts.half_held(blocks))
    adds = [scripts.add(number) for number in range(count)]
    dels = [scripts.delete(number, blocks) for number in range(count)]
    nothing = bench.whole("1,000 blocks are opened", base, "", 0, 3)
    print(f"{'':<44}(the next four lines have these {nothing.processor:.2f} s of cpu in them)")
    bench.answered("ADD alone, 1,000 blocks", base + scripts.one_slot(adds, 8), 9, [scripts.added_alone(n) for n in range(count)])
    bench.answered("DEL alone, 1,000 blocks", base + scripts.one_slot(dels, 5), 6, [scripts.deleted_alone(n) for n in range(count)])
    tell_turns(bench, "ADD, eight slots in turn, 1,000 blocks", base + scripts.in_turn(adds, 8), 9, "added", count)
    tell_turns(bench, "DEL, eight slots in turn, 1,000 blocks", base + scripts.in_turn(dels, 5), 6, "deleted", count)


def tell_turns(bench, what, script, every, word, count):
    one = bench.play(script)
    journal = bench.journal()
    got = (one.status, journal.count("\n"), journal.count(f'{{"{word}":'))
    bench.checks.same(f"{what}: status, entries and answers", got, (0, every * count, count))
    if word == "added":
        told = [line.rpartition('{"added":[{"address":"')[2].split('"')[0] for line in journal.splitlines() if '{"added":' in line]
        bench.checks.same(f"{what}: addresses", told, [scripts.address_of(n) for n in range(count)])
    bench.tell(what, script, one, journal.count("\n"))


def tell_collections(bench):
    for count in (2_500, 10_000, 40_000):
        script, answer = scripts.leaks(count)
        one = bench.play(script, 1)
        lines = bench.journal().splitlines()
        bench.checks.same("leaks: status and entries", (one.status, len(lines)), (0, 4 * count + 4))
        bench.checks.same("leaks: the answer", lines[-1].rpartition(" ")[2], answer)
        bench.tell(f"{count:,} leaks are collected", script, one, len(lines))
    script = scripts.all_live(9_984)
    one = bench.play(script, 1)
    told = bench.journal().splitlines()[-1]
    want = '0 called list block well listed 156 - {"collected":{"b1":1,"b2":3,"items":[]}}'
    bench.checks.same("all live", (told, one.status), (want, 0))
    bench.tell("9,984 addresses, all live", script, one, 4, rated=False)


def tell_lengths(bench):
    """Scripts and lines at the limits of their lengths, and one byte past them."""
    pairs = 1_024
    told, filled = scripts.played(pairs), lambda size, end: scripts.filled(size, pairs, end)
    begin = "begin 0 " + scripts.CHECK
    began = scripts.began(1)
    bench.whole("67,108,864 bytes", filled(MOST, begin + "\n"), told + began, 0)
    bench.whole("67,108,864 bytes, no last LF", filled(MOST, begin), told + began, 0)
    bench.whole("67,108,865 bytes, the last an LF", filled(MOST + 1, begin + "\n"), told + began, 0)
    bench.whole("67,108,865 bytes, no last LF", filled(MOST + 1, begin), f"{told}line {2 * pairs + 1}: long\n", 8)
    bench.whole("67,108,866 bytes, the last an LF", filled(MOST + 2, begin + "\n"), f"{told}line {2 * pairs + 1}: long\n", 8)
    bench.whole("67,108,866 bytes, an empty line", filled(MOST + 2, begin + "\n\n"), f"{told}{began}line {2 * pairs + 2}: unreadable\n", 8)
    line = scripts.padded(1, LONGEST + 1)
    bench.whole("a line of 1,048,576 bytes", f"{begin}\n{line}", scripts.began(2), 0)
    bench.whole("a line of 1,048,577 bytes", f"{begin}\n {line}", began + "line 2: long\n", 8)
    one = bench.whole("a line of 200,000,000 bytes", f"{begin}\n" + "x" * 200_000_000, began + "line 2: long\n", 8)
    bench.checks.same("a long line is not kept", one.peak < 8_192, True)
    lines = "".join(scripts.padded(slot, LONGEST + 1) for slot in range(16))
    bench.whole("16 lines of 1,048,576 bytes", lines, scripts.began(16), 0)


def tell_size(one, script):
    print(f"{'':<44}(the most memory is {one.peak * 1024 / len(script):.1f} times the script's size)")


def tell_memory(bench):
    script = scripts.rows_to(MOST)
    bench.checks.same("rows to the limit: bytes", len(script), MOST)
    tell_size(bench.whole("67,108,864 bytes with 262,144 rows", script, scripts.played(64), 0), script)
    script = scripts.shared_pairs(2)
    tell_size(bench.whole("2 blocks of 4,096, one handle, long pairs", script, "", 0), script)
    few = bench.play(scripts.churn(200))
    script = scripts.churn(10_000)
    many = bench.play(script)
    bench.tell("one handle, 10,000 times", script, many, bench.journal().count("\n"))
    bench.checks.same("no memory is kept for a longer journal", many.peak - few.peak < 256, True)
    print(f"{'':<44}(the first fiftieth of that script takes {few.peak} KiB)")


def main():
    with tempfile.TemporaryDirectory() as folder:
        bench = Bench(sys.argv[1], folder)
        tell_small(bench)
        tell_rates(bench)
        tell_collections(bench)
        tell_lengths(bench)
        tell_memory(bench)
        bench.checks.end()


main()
