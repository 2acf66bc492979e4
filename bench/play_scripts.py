"""Makes scripts for `play`, with their answers."""
import ipaddress

from bases import Block, row_lines, rows_of, so_many_rows, text

NODES = 8


def half_held(blocks):
    """The rows of so many blocks of 64, the nodes' by turns, with 32 addresses held by a handle each."""
    return rows_of([Block(number, 26, f"node-{number % NODES}", 32, 32) for number in range(blocks)])


def add(number):
    return f'{{"add":{{"handle":"net.new-{number}","node":"node-{number % NODES}"}}}}'


def delete(number, blocks):
    """The request that deletes a handle; no two of one block follow each other in a slot."""
    place, block = divmod(number, blocks)
    return f'{{"del":{{"handle":"net.c{block}-{place}"}}}}'


def one_slot(requests, turns):
    return "".join(f"begin 0 {request}\nturn 0 {turns}\n" for request in requests)


def in_turn(requests, turns):
    """The requests in eight slots, a turn of each by turns."""
    lines = []
    for first in range(0, len(requests), NODES):
        lines += [f"begin {slot} {requests[first + slot]}\n" for slot in range(NODES)]
        lines += [f"turn {slot}\n" for _ in range(turns) for slot in range(NODES)]
    return "".join(lines)


def address_of(number):
    """What the ADD of this number is given: its node's blocks are filled one after the other."""
    round_, node = divmod(number, NODES)
    block, place = divmod(round_, 32)
    return str(ipaddress.IPv4Address("10.0.0.0") + (block * NODES + node) * 64 + 32 + place)


def added_alone(number):
    """The answer of an ADD that runs alone, of nine entries each."""
    c = 9 * number + 1
    return text({"added": [{"address": address_of(number), "b": c + 4, "c": c, "f": c + 3, "p": c + 1, "r": c + 2, "w": c + 7}]})


def deleted_alone(number):
    """The answer of a DEL that runs alone, of six entries each."""
    return text({"deleted": {"k": 6 * number + 1}})


def leaks(count):
    """The script of a collection that frees so many addresses, and its answer."""
    full, rest = divmod(count, 64)
    blocks = [Block(number, 26, f"node-{number % NODES}", 64, 64) for number in range(full)]
    if rest:
        blocks.append(Block(full, 26, f"node-{full % NODES}", rest, rest))
    items = [
        {"address": str(ipaddress.IPv4Address("10.0.0.0") + number * 64 + n), "freed": True,
         "handle": f"net.c{number}-{n}", "stamp": n + 1}
        for number, block in enumerate(blocks) for n in range(block.held)
    ]
    lines = ['begin 0 {"collect":{"live":[]}}\n', "turn 0\n", "feed 0 []\n"]
    calls = 1 + 4 * count
    lines += [f"turn 0 {min(100_000, calls - done)}\n" for done in range(0, calls, 100_000)]
    return row_lines(rows_of(blocks)) + "".join(lines), text({"collected": {"b1": 1, "b2": 3, "items": items}})


def all_live(count):
    """The script of a collection that frees none of so many addresses, since all their handles are live."""
    blocks = [Block(number, 26, f"node-{number % NODES}", 64, 64) for number in range(count // 64)]
    live = text([one for block in blocks for one in block.ids])
    lines = f'begin 0 {{"collect":{{"live":{live}}}}}\nturn 0\nfeed 0 {live}\nturn 0\n'
    return row_lines(rows_of(blocks)) + lines


def churn(rounds):
    """One handle that is added and deleted again and again, over eight blocks."""
    once = 'begin 0 {"add":{"handle":"net.one","node":"node-0"}}\nturn 0 8\nbegin 0 {"del":{"handle":"net.one"}}\nturn 0 5\n'
    return row_lines(half_held(8)) + once * rounds


CHECK = '{"check":{"addresses":[],"handle":"h"}}'


def padded(slot, size):
    """A line of so many bytes, its line end among them, that begins a request: its JSON is full of spaces."""
    front, back = f'begin {slot} {{"check":{{"addresses":[],', '"handle":"h"}}\n'
    return front + " " * (size - len(front) - len(back)) + back


def filled(size, pairs, end):
    """A script of so many bytes: so many requests that begin and are stopped, and `end`."""
    left = size - len(end) - pairs * len("stop 0\n")
    return "".join(padded(0, left // pairs + (place < left % pairs)) + "stop 0\n" for place in range(pairs)) + end


def began(slots):
    return "".join(f"{slot} began {CHECK}\n" for slot in range(slots))


def played(pairs):
    return f"0 began {CHECK}\n0 stopped\n" * pairs


def rows_to(size):
    """A script of so many bytes: as many rows as there may be, four pairs for each handle, and requests."""
    secondary = {"namespace": "default", "network": "net", "node": "node-17", "pod": "web-5d8f7c9b6-x2k4z"}
    lines = row_lines(so_many_rows(262_144, secondary))
    return lines + filled(size - len(lines), 64, "")


def shared_pairs(blocks):
    """Rows of blocks of 4,096 addresses, each block held by one handle with the longest id and pairs that there may be."""
    secondary = {f"{place}{'k' * 62}": "v" * 253 for place in range(8)}
    return row_lines(rows_of([Block(n, 20, f"node-{n}", 4096, 1, "n" * 490, secondary) for n in range(blocks)], size=20))
