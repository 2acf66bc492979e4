#!/usr/bin/env python3
"""Faults and stops, by the second allocator.

Stops: four requests race in four slots, an ADD on each of two nodes, the release of a block and a
collection, round by round. For each turn of theirs, and for each of `stop`, `fail` and `lose` in its
place, the others go on to their ends. Then everything is stopped and opened again, and both handles are
deleted. The second allocator has to leave no owner. `tools/check` plays the script of each run.

Doubts: a call by itself of which a write fails, done or not, with its reply, the replies to the calls after it, and
the rows that are left. `tools/checks/command_cases.py` plays these scenarios.

With --states FOLDER it writes an ADD there, and the rows after each front part of its writes.
"""

import json
import sqlite3
import sys
from pathlib import Path

TOP = Path(__file__).resolve().parents[2]
sys.path.append(str(TOP / "tools/second"))
# pylint: disable=wrong-import-position
from play_table import POOLS, add, begin, delete
from second_allocator import Script, compact
from second_records import Block

LIVE = '["n.c2"]'

# ---- stops

BEGUN = POOLS + (
    add("n.c1", "a")
    + add("n.c2", "b", slot=1)
    + begin(2, '{"release":{"cidr":"10.0.0.0/30","node":"a"}}')
    + begin(3, f'{{"collect":{{"live":{LIVE}}}}}')
)
# the sign of each line: a turn of a slot, or what stands in the place of one
LINES = {str(slot): f"turn {slot}\n" for slot in range(4)}
LINES |= {"w": f"feed 3 {LIVE}\n", "r": "restart\n", "x": delete("n.c1"), "y": delete("n.c2")}
LINES |= {"c": begin(0, '{"collect":{"live":[]}}'), "z": "feed 0 []\n"}
IN_PLACE = {"stop": "efgh", "fail": "ijkl", "lose": "mnop"}
for word, signs in IN_PLACE.items():
    LINES |= {sign: f"{word} {slot}\n" for slot, sign in enumerate(signs)}


class Run:
    """A script that grows line by line, as the second allocator plays it."""

    def __init__(self):
        self.script, self.signs = Script(), ""
        for line in BEGUN.splitlines():
            self.script.line(line)
        self.slots = self.script.cluster.slots

    def add(self, sign):
        self.script.line(LINES[sign].rstrip("\n"))
        self.signs += sign

    def turn(self, slot):
        self.add("w" if self.slots[slot].waits() else str(slot))

    def to_end(self):
        while self.slots:
            for slot in range(4):
                if slot in self.slots:
                    self.turn(slot)

    def follow(self, signs):
        """The turns and feeds of these signs whose slots still run."""
        for sign in signs:
            slot = 3 if sign == "w" else int(sign)
            if slot in self.slots and self.slots[slot].waits() == (sign == "w"):
                self.add(sign)

    def clean(self):
        """All is opened again, and both handles are deleted; then a collection tells all owners."""
        self.add("r")
        for sign in "xy":
            self.add(sign)
            while 0 in self.slots:
                self.turn(0)
        owners = [h for _, body in self.script.cluster.store.listed("block") for h in Block(body).held]
        assert not owners, (self.signs, owners)
        for sign in "c0z0":
            self.add(sign)
        last = self.script.cluster.journal[-1]
        assert last.endswith('"items":[]}}') and not self.slots, last

    def text(self):
        return BEGUN + "".join(map(LINES.get, self.signs))

    def journal(self):
        return "".join(f"{line}\n" for line in self.script.cluster.journal)


def stops():
    whole = Run()
    whole.to_end()
    turns = whole.signs
    runs = []
    for place, sign in enumerate(turns):
        slot = 3 if sign == "w" else int(sign)
        for word, signs in IN_PLACE.items():
            if sign == "w" and word != "stop":
                continue
            run = Run()
            for earlier in turns[:place]:
                run.add(earlier)
            run.add(signs[slot])
            run.follow(turns[place + 1 :])
            run.clean()
            runs.append(run)
    return runs


# ---- doubts

V = {"cniVersion": "1.0.0", "name": "n", "type": "calico", "nodename": "a", "ipam": {"type": "calico-ipam"}}
CONF = json.dumps(V, separators=(",", ":"))
FAULT = '1 {"cniVersion":"1.0.0","code":5,"details":"keeper","msg":"input or output fault"}'


def call(command, container):
    return f"do cni⇒CNI_COMMAND={command}¦CNI_CONTAINERID={container}⇒{CONF}\n"


class Rows:
    """The rows under calls that come one by one, and what is told of these."""

    def __init__(self, base):
        self.script, self.text = Script(), ""
        for line in base.splitlines():
            self.script.line(line)
        self.script.open()

    def run(self, request, failing=0, lost=False):
        """Runs the request by itself; its write of this number fails, done where it is lost."""
        (line,) = request.splitlines()
        self.script.line(line)
        cluster, writes = self.script.cluster, 0
        while 0 in cluster.slots:
            is_write = cluster.slots[0].call[0] not in ("get", "list")
            writes += is_write
            fate = ("lose" if lost else "fail") if is_write and writes == failing else "turn"
            self.script.line(f"{fate} 0")
        said = cluster.journal[-1].rsplit(" ", 1)[1]
        # a call by itself opens the rows anew: its counter is their greatest revision
        cluster.store.counter = max(revision for revision, _ in cluster.store.rows.values())
        return json.loads(said)

    def rows(self):
        rows = self.script.cluster.store.rows
        return "".join(f"= {key} {rows[key][0]} {compact(rows[key][1])}\n" for key in sorted(rows, key=str.encode))


def secondary():
    return ',"secondary":{"network":"n","node":"a"}'


def told(answer):
    if "added" in answer:
        return f'= 0 {{"cniVersion":"1.0.0","ips":[{{"address":"{answer["added"][0]["address"]}/32"}}]}}\n'
    assert "deleted" in answer, answer
    return "= 0 |\n"


def doubt(base, first, writes):
    """A scenario for each write of the first call that fails, done or not."""
    out = []
    for number in range(1, writes + 1):
        for lost in (False, True):
            rows = Rows(base)
            title = f"Write {number} of the {first[0][0]} {'is done, but fails' if lost else 'fails'}.\n"
            text = f"{'lose' if lost else 'fail'} {number}\n"
            for command, container, failing in [*first, ("DEL", "c1", 0), ("ADD", "c2", 0)]:
                request = add(f"n.{container}", "a", secondary()) if command == "ADD" else delete(f"n.{container}")
                answer = rows.run(request, number if failing else 0, lost)
                text += call(command, container)
                text += f"= {FAULT}\n" if failing else told(answer)
                assert (answer == "fault") == bool(failing), (text, answer)
                text += "do get⇒⇒\n" + rows.rows().replace("= ", "= 0 ", 1)
            out.append(title + base + text)
    return out


ADD = [("ADD", "c1", 1)]
BASE_DELETED = POOLS + """\
row 2 affinity/a/10.0.0.0/30 {"cidr":"10.0.0.0/30","node":"a","state":"confirmed"}
row 4 block/10.0.0.0/30 {"affinity":"host:a","allocations":[0,null,null,null],\
"attributes":[{"handle_id":"n.c1","secondary":{"network":"n","node":"a"}}],"cidr":"10.0.0.0/30","sequenceNumber":1,\
"sequenceNumberForAllocation":{"0":1},"unallocated":[1,2,3]}
row 3 handle/n.c1 {"block":{"10.0.0.0/30":1},"handleID":"n.c1"}
"""


def doubts():
    return doubt(POOLS, ADD, 5) + doubt(BASE_DELETED, [("DEL", "c1", 1)], 2)


def write_states(place):
    """Writes to the folder an ADD over one pool, its reply, and the rows behind 0 to 5 of its writes."""
    for number in range(6):
        rows = Rows(POOLS)
        answer = rows.run(add("n.c1", "a", secondary()), number + 1)
        (place / f"state.{number}").write_text(rows.rows().replace("= ", ""))
    (place / "reply").write_text(told(answer)[4:])
    (place / "memory").write_text('{"cniVersion":"1.0.0","code":101,"details":"","msg":"want of memory"}\n')
    (place / "conf").write_text(CONF)
    with sqlite3.connect(place / "base.db") as database:
        database.execute("CREATE TABLE rows(key TEXT PRIMARY KEY, revision INTEGER NOT NULL, body TEXT NOT NULL)")
        database.execute("INSERT INTO rows VALUES('pools', 1, ?)", [POOLS.split(" ", 3)[3].rstrip("\n")])
    database.close()


if __name__ == "__main__":
    if sys.argv[1:2] != ["--states"]:
        sys.exit(__doc__)
    write_states(Path(sys.argv[2]))
