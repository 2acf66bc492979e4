#!/usr/bin/env python3
"""A second allocator, written only from the rules and formats, to compare journals with.

It plays a script as `ipam play` does: it reads lines from standard input, and writes the journal and
the line of a refusal. Its status is 0 or 8. It shares no code with the product, and is slow and short.
It reads sound scripts: it opens any rows, and reports `unreadable` only for lines that have no form at
all. Usage:

    tools/second/second_allocator.py < examples/first-run.script
    tools/second/second_allocator.py --gen N
"""

import json
import sys
from pathlib import Path

sys.path.append(str(Path(__file__).resolve().parents[1] / "tables"))
# pylint: disable=wrong-import-position
from second_records import Block, Cidr, Datastore, address_text, compact, key_of, read_address
from second_requests import DEFAULTS, Stop, Tries, begun
from selector_table import Parser, printed as selector_text

MOST_ENTRIES = 2**62


# ---- the cluster


class Refused(Exception):
    """The line is of this kind."""


class Running:
    def __init__(self, what, request):
        self.what, self.request, self.tries = what, request, Tries()
        self.steps = begun(what, request, self.tries)
        self.answer, self.call = None, None
        self.go(None)

    def go(self, sent):
        """Goes on with what was sent, to the next call, a wait or the answer."""
        try:
            self.call = self.steps.send(sent)
        except StopIteration as end:
            self.answer = end.value
        except Stop as stop:
            self.answer = self.stopped(stop.args[0])

    def stopped(self, answer):
        if isinstance(answer, dict) and "again" in answer and self.what != "add":
            answer["again"]["claims"] = 0
        return answer

    def waits(self):
        return self.answer is None and self.call is None


class Cluster:
    def __init__(self, store):
        self.store, self.entries, self.slots, self.journal = store, 0, {}, []

    def tell(self, line):
        self.journal.append(line)
        self.entries += 1

    def room(self):
        if self.entries >= MOST_ENTRIES:
            raise Refused("worn")

    def begin(self, slot, what, request):
        if slot in self.slots:
            raise Refused("busy")
        self.room()
        whole = {**DEFAULTS.get(what, {}), **request}
        self.slots[slot] = Running(what, normal(what, whole))
        self.tell(f"{slot} began {compact({what: printed(what, whole)})}")

    def turn(self, slot, fate="well"):
        if slot not in self.slots:
            raise Refused("idle")
        running = self.slots[slot]
        if running.waits():
            raise Refused("waiting")
        self.room()
        call = running.call
        reply = self.store.reply(call)
        written = "-"
        if fate != "before" and reply[0] == "done":
            self.store.apply(call)
            if call[0] != "delete":
                written = compact(call[1])
        moment = self.entries
        if fate == "well":
            running.go((reply, moment))
            answer = running.answer
        else:
            answer = "fault"
        if answer is not None:
            del self.slots[slot]
        told = "none" if fate == "before" else told_of(reply)
        said = "-" if answer is None else compact(answer)
        self.tell(f"{slot} called {name_of(call)} {fate} {told} {written} {said}")
        return answer

    def feed(self, slot, at, live):
        running = self.slots.get(slot)
        if running is None or not running.waits():
            raise Refused("not waiting")
        if at < running.request["at"] + running.request["grace"]:
            raise Refused("too soon")
        self.room()
        running.go(live)
        self.tell(f"{slot} fed {compact(live)}" if at == 0 else f"{slot} fed {at} {compact(live)}")

    def stop(self, slot):
        if slot not in self.slots:
            raise Refused("idle")
        del self.slots[slot]
        self.tell(f"{slot} stopped")

    def restart(self):
        for slot in sorted(self.slots):
            self.stop(slot)


def normal(what, request):
    """The request with its CIDRs as they are printed."""
    out = dict(request)
    if "cidr" in out:
        out["cidr"] = str(Cidr.read(out["cidr"]))
    if "cidrs" in out:
        out["cidrs"] = [str(Cidr.read(one)) for one in out["cidrs"]]
    return out


def printed(what, request):
    """The request's members that are not as by default."""
    out = normal(what, request)
    if "address" in out:
        out["address"] = address_text(*read_address(out["address"]))
    if "addresses" in out:
        out["addresses"] = [address_text(*read_address(one)) for one in out["addresses"]]
    if "selector" in out:
        out["selector"] = selector_text(Parser(out["selector"]).whole())
    defaults = DEFAULTS.get(what, {})
    return {k: v for k, v in out.items() if k not in defaults or defaults[k] != v}


def told_of(reply):
    if reply[0] == "listed":
        return f"listed {len(reply[1])}"
    return " ".join(str(part) for part in reply[:2])


def name_of(call):
    if call[0] in ("get", "list"):
        return f"{call[0]} {call[1]}"
    if call[0] == "create":
        return f"create {key_of(call[1])}"
    if call[0] == "update":
        return f"update {key_of(call[1])} {call[2]}"
    return f"delete {call[1]} {call[2]}"


# ---- scripts


class Script:
    def __init__(self):
        self.rows, self.counter, self.cluster = {}, None, None

    def open(self):
        if self.cluster is None:
            greatest = max((revision for revision, _ in self.rows.values()), default=0)
            self.cluster = Cluster(Datastore(self.rows, greatest if self.counter is None else self.counter))

    def line(self, text):
        word, _, rest = text.partition(" ")
        if word in ("row", "counter"):
            return self.base(word, rest)
        if word not in ("begin", "turn", "fail", "lose", "feed", "stop", "restart"):
            raise Refused("unreadable")
        self.open()
        if word == "restart":
            return self.cluster.restart()
        slot, _, rest = rest.partition(" ")
        slot = int(slot)
        if word == "begin":
            ((what, request),) = json.loads(rest).items()
            self.cluster.begin(slot, what, request)
        elif word == "feed":
            at = 0
            if not rest.startswith("["):
                at, _, rest = rest.partition(" ")
            self.cluster.feed(slot, int(at), json.loads(rest))
        elif word == "stop":
            self.cluster.stop(slot)
        else:
            fate = {"turn": "well", "fail": "before", "lose": "after"}[word]
            for _ in range(int(rest or 1)):
                self.cluster.turn(slot, fate)

    def base(self, word, rest):
        if self.cluster is not None:
            raise Refused("base")
        if word == "counter":
            if self.counter is not None:
                raise Refused("base")
            self.counter = int(rest)
            return
        revision, key, body = rest.split(" ", 2)
        if key in self.rows:
            raise Refused("base")
        self.rows[key] = (int(revision), json.loads(body))


def play(text):
    """What is written for the script, and the status."""
    script, number, last = Script(), 0, ""
    lines = text.split("\n")
    if lines and lines[-1] == "":
        lines.pop()
    status = 0
    for line in lines:
        number += 1
        try:
            script.line(line)
        except Refused as why:
            status, last = 8, f"line {number}: {why.args[0]}\n"
            break
    journal = script.cluster.journal if script.cluster else []
    return "".join(one + "\n" for one in journal) + last, status


# ---- generated loads


def generate(count):
    """The six lines of a generated load of so many requests."""
    state = 1

    def draw(bound):
        nonlocal state
        state = (6364136223846793005 * state + 1442695040888963407) % 2**64
        return state // 2**33 % bound

    pools = {"pools": [{"blockSize": 26, "cidr": "10.0.0.0/16", "disabled": False, "name": "g"}]}
    cluster = Cluster(Datastore({"pools": (1, pools)}, 1))
    answers = []
    begun_so_far = 0

    def turn(slot):
        answer = cluster.turn(slot)
        if answer is not None:
            answers.append(answer)

    while begun_so_far < count:
        slot = draw(8)
        if slot in cluster.slots:
            turn(slot)
            continue
        if begun_so_far % 4 == 3:
            cluster.begin(slot, "del", {"handle": f"g.c{draw(begun_so_far)}"})
        else:
            cluster.begin(slot, "add", {"handle": f"g.c{begun_so_far}", "node": f"n{draw(4)}"})
        begun_so_far += 1
    for slot in range(8):
        while slot in cluster.slots:
            turn(slot)
    live = [f"g.c{i}" for i in range(0, count, 2)]
    cluster.begin(0, "collect", {"live": live})
    last = None
    while 0 in cluster.slots:
        if cluster.slots[0].waits():
            cluster.feed(0, 0, live)
        else:
            last = cluster.turn(0)
    owners = sum(len(Block(body).held) for _, body in cluster.store.listed("block"))
    told = [
        ("requests", count),
        ("entries", cluster.entries),
        ("owners", owners),
        ("again", sum("again" in one for one in answers)),
        ("exhausted", sum("exhausted" in one for one in answers)),
        ("freed", sum(item["freed"] for item in last["collected"]["items"])),
    ]
    return "".join(f"{name} {number}\n" for name, number in told)


def main():
    if sys.argv[1:2] == ["--gen"]:
        sys.stdout.write(generate(int(sys.argv[2])))
        return 0
    text, status = play(sys.stdin.read())
    sys.stdout.write(text)
    return status


if __name__ == "__main__":
    sys.exit(main())
