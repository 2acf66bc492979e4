#!/usr/bin/env python3
"""Random scripts, and their comparison with the second allocator.

Each script has a base of a few small pools. It then begins requests in some slots, and gives them
random turns, failures, stops and restarts, none of which is refused. The same number gives the same
script. Usage:

    tools/second/random_scripts.py NUMBER                    prints the script of this number
    tools/second/random_scripts.py FIRST LAST PROGRAM ARG..  plays each by the program, and reports where the
                                                             journal is not the second allocator's
"""

import random
import subprocess
import sys

from second_allocator import Script, compact, play

NODES = ["a", "b"]
HANDLES = ["n.c1", "n.c2", "n.c3", "m.c1"]
POOLS = [
    {"blockSize": 30, "cidr": "10.0.0.0/29", "disabled": False, "name": "p"},
    {"blockSize": 31, "cidr": "10.0.1.0/30", "disabled": False, "name": "q"},
    {"assignmentMode": "Manual", "blockSize": 30, "cidr": "10.0.2.0/30", "disabled": False, "name": "m"},
    {"blockSize": 127, "cidr": "2001:db8::/126", "disabled": False, "name": "six"},
    {"blockSize": 32, "cidr": "10.0.3.0/31", "disabled": False, "name": "w", "nodeSelector": "zone == 'west'"},
]
ADDRESSES = ["10.0.0.0", "10.0.0.5", "10.0.1.1", "10.0.2.2", "2001:db8::1", "10.9.0.1"]
CIDRS = ["10.0.0.0/30", "10.0.0.4/30", "10.0.1.0/31", "2001:db8::/127"]


def some(draw, list_of, most):
    return sorted(draw.sample(list_of, draw.randint(0, most)))


def add_of(draw):
    request = {"handle": draw.choice(HANDLES), "node": draw.choice(NODES)}
    kind = draw.random()
    if kind < 0.15:
        request["address"] = draw.choice(ADDRESSES)
    elif kind < 0.35:
        request["ipv6"] = True
        if draw.random() < 0.5:
            request["ipv4"] = False
    if draw.random() < 0.2:
        request["pools4"] = [draw.choice(["p", "q", "m", "10.0.0.0/29", "x"])]
    if draw.random() < 0.2:
        request["labels"] = {"zone": draw.choice(["west", "east"])}
    if draw.random() < 0.3:
        request["secondary"] = {"network": "n", "node": request["node"]}
    return {"add": request}


def change_of(draw):
    kind = draw.randint(0, 4)
    if kind == 0:
        mode = draw.choice(["Automatic", "Manual"])
        cidr, size = draw.choice([("10.0.4.0/29", 30), ("10.0.0.0/28", 30), ("10.0.5.0/30", 19), ("10.0.0.0/29", 30)])
        return {"pool": {"cidr": cidr, "mode": mode, "name": draw.choice(["p", "z"]), "size": size}}
    if kind == 1:
        return {"disable": {"disabled": draw.random() < 0.5, "name": draw.choice(["p", "q", "x"])}}
    if kind == 2:
        return {"reserve": {"cidrs": some(draw, ["10.0.0.0/31", "10.0.0.4/30", "2001:db8::/128"], 2), "name": "r"}}
    if kind == 3:
        return {"unreserve": {"name": "r"}}
    names = {"strictAffinity": draw.random() < 0.5, "maxBlocksPerHost": draw.randint(0, 2)}
    return {"config": {**names, "autoAllocateBlocks": draw.random() < 0.8}}


def request_of(draw):
    kind = draw.random()
    if kind < 0.5:
        return add_of(draw)
    if kind < 0.65:
        return {"del": {"handle": draw.choice(HANDLES)}}
    if kind < 0.7:
        return {"check": {"addresses": draw.sample(ADDRESSES, draw.randint(0, 3)), "handle": draw.choice(HANDLES)}}
    if kind < 0.8:
        return {"release": {"cidr": draw.choice(CIDRS), "node": draw.choice(NODES)}}
    if kind < 0.87:
        collect = {"live": some(draw, HANDLES, 2)}
        if draw.random() < 0.4:
            collect["scope"] = {"network": "n", "node": draw.choice(NODES)}
        if draw.random() < 0.3:
            collect["at"], collect["grace"] = 5, draw.randint(0, 9)
        return {"collect": collect}
    if kind < 0.92:
        return {"probe": {"node": draw.choice(NODES)}}
    return change_of(draw)


def next_line(draw, cluster, slot):
    """A line for the slot, by what runs in it."""
    if slot not in cluster.slots:
        return f"begin {slot} {compact(request_of(draw))}"
    running = cluster.slots[slot]
    if running.waits():
        due = running.request["at"] + running.request["grace"]
        at = "" if due == 0 else f"{due + draw.randint(0, 3)} "
        return f"feed {slot} {at}{compact(some(draw, HANDLES, 2))}"
    kind = draw.random()
    if kind < 0.97:
        return f"turn {slot}"
    return draw.choice(["fail", "lose", "stop"]) + f" {slot}" if kind < 0.995 else "restart"


def script(number):
    """The lines of the script of this number."""
    draw = random.Random(number)
    pools = draw.sample(POOLS, draw.randint(1, len(POOLS)))
    lines = [f"row 1 pools {compact({'pools': pools})}"]
    played = Script()
    played.line(lines[0])
    played.open()
    slot = 0
    for _ in range(draw.randint(60, 240)):
        if draw.random() < 0.4:
            slot = draw.randint(0, 3)
        lines.append(next_line(draw, played.cluster, slot))
        played.line(lines[-1])
    return lines


def text_of(number):
    return "".join(line + "\n" for line in script(number))


def main():
    if len(sys.argv) == 2:
        sys.stdout.write(text_of(int(sys.argv[1])))
        return 0
    first, last, program = int(sys.argv[1]), int(sys.argv[2]), sys.argv[3:]
    bad = 0
    for number in range(first, last + 1):
        text = text_of(number)
        want, status = play(text)
        ran = subprocess.run(program, input=text.encode(), stdout=subprocess.PIPE, check=False)
        if (ran.stdout.decode(), ran.returncode) != (want, status):
            bad += 1
            print(f"script {number} differs")
    print(f"{last - first + 1} scripts, {bad} differ")
    return 1 if bad else 0


if __name__ == "__main__":
    sys.exit(main())
