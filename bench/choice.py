#!/usr/bin/env python3
"""Times the choice of an address over 16, 1,000 and 16,000 blocks, for each rank and for nothing.

    bench/choice.py PROGRAM [BLOCKS..]

Half of the blocks are full. In one run every tenth block is of the node that asks, in another run ten of
them whatever their number. What is looked for comes after the full ones:

    own          of the node's confirmed blocks the first half is full
    unconfirmed  the same, with affinities that are pending
    unclaimed    all blocks of the node are full; the first slot without a block comes after all
    foreign      the same, with no further block allowed; of the other blocks the first ones are full
    nothing      the same with strict affinity

`choose` reads all affinities; `pick` has the node's confirmed ones gathered before, as a running ADD has.
"""
import sys

from bases import Block, bare_lines, rows_of, text
from measured import Checks, numbers_of

FIRST = 10 << 24  # 10.0.0.0
SIZE = 64


def blocks_of(count, step, room):
    """So many blocks, half of them full, and the full ones; each step-th is of node-0, which has room or not."""
    own = [number for number in range(count) if number % step == 0]
    other = [number for number in range(count) if number % step]
    full = set(range(count // 2)) if room else set(own + other[: count // 2 - len(own)])
    node = lambda number: f"node-{1 + number % 9 if number % step else 0}"
    return [Block(number, 26, node(number), SIZE if number in full else 0, 1) for number in range(count)], full


def rows_with(blocks, strict=False, auto=True, state="confirmed"):
    """The rows of these blocks with the configuration, and the node's affinities in this state."""
    config = {"autoAllocateBlocks": auto, "maxBlocksPerHost": 0, "strictAffinity": strict}
    rows = [*rows_of(blocks), ("config", 0, text(config))]
    mine = "affinity/node-0/"
    stated = lambda key, body: body.replace('"confirmed"', f'"{state}"') if key.startswith(mine) else body
    return sorted((key, revision, stated(key, body)) for key, revision, body in rows)


def use(address):
    """The number of this choice, as the program tells it."""
    return (1 << 32) + address


def claim(address):
    return (2 << 32) + address


def borrow(address):
    return (3 << 32) + address


def cases(count, step):
    """The name of each measurement, its rows, and the number of what is chosen."""
    roomy, full = blocks_of(count, step, True)
    own = FIRST + SIZE * min(n for n in range(0, count, step) if n not in full)
    yield "own", rows_with(roomy), use(own)
    yield "unconfirmed", rows_with(roomy, state="pending"), claim(own)
    busy, full = blocks_of(count, step, False)
    other = FIRST + SIZE * min(n for n in range(count) if n not in full)
    yield "unclaimed", rows_with(busy), claim(FIRST + SIZE * count)
    yield "foreign", rows_with(busy, auto=False), borrow(other)
    yield "nothing", rows_with(busy, auto=False, strict=True), 0


def tell(program, checks, count, step):
    often = max(200, 2_000_000 // count)
    for name, rows, want in cases(count, step):
        chosen, times = numbers_of(program, f"choose {often} 4\n{bare_lines(rows)}")
        choose, pick = (one / often for one in times)
        checks.same(f"{count} blocks, {name}", chosen, [often * want, often * want])
        own = (count + step - 1) // step
        print(f"{count:>8}{own:>6} {name:<12}{choose / 1000:>11.2f}{pick / 1000:>11.2f}", flush=True)


def main():
    program, checks = sys.argv[1], Checks()
    print(f"{'blocks':>8}{'own':>6} {'choice':<12}{'choose us':>11}{'pick us':>11}")
    counts = [int(one) for one in sys.argv[2:]] or [16, 1_000, 16_000]
    for count in counts:
        tell(program, checks, count, 10)
    for count in counts:
        if count > 100:
            tell(program, checks, count, count // 10)
    checks.end()


main()
