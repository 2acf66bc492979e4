"""What the replies of a record promise of the rows at each of its places.

A line or a command counts as sent from where the program has received it, and as answered from where it sends the
reply. What was sent and not answered may be done or not, in any part.
"""

import collections
import json

NETWORK = "net"
Step = collections.namedtuple("Step", "place thing what value")


class Wrong(Exception):
    """The rows are not as the replies say."""


class Lines:
    """The lines that one connection, or the output of one command, has had so far."""

    def __init__(self):
        self.text = b""

    def more(self, data):
        *lines, self.text = (self.text + bytes(data)).split(b"\n")
        return lines


def asked_of_line(line):
    """What a session's line asks for: a kind and a value. None where it changes nothing that is compared."""
    told = json.loads(line)
    if "env" in told:
        node = json.loads(told["stdin"])["nodename"]
        return told["env"]["CNI_COMMAND"], (told["env"]["CNI_CONTAINERID"], node)
    (kind, body), = told.get("request", {"": None}).items()
    if kind in ("reserve", "unreserve"):
        return kind, body["name"]
    if kind == "release":
        return kind, (body["node"], body["cidr"])
    return None


def steps_of(place, asked, reply=None):
    """What a request, or its reply, says of things: a container, a reservation or an affinity."""
    kind, value = asked
    if kind in ("ADD", "DEL"):
        container, node = value
        word = kind if reply is None else kind + ("ED" if reply[0] else "?")
        steps = [Step(place, ("container", container), word, reply and reply[1])]
        if kind == "ADD" and reply is None:
            steps.append(Step(place, ("node", node), "unsure", None))
        return steps
    if kind in ("reserve", "unreserve"):
        word = "unsure" if reply is None or not reply[0] else kind
        return [Step(place, ("reservation", value), word, None)]
    if kind == "release":
        word = "unsure" if reply is None or not reply[0] else "released"
        return [Step(place, ("node", value[0]), word, value[1])]
    return [] if reply is None or not reply[0] else [Step(place, ("pool", value), "applied", None)]


def reply_of_line(asked, line):
    """Whether a session's reply says that it is done, and the address that it gave."""
    told = json.loads(line)
    if asked[0] in ("ADD", "DEL"):
        is_done = told.get("status") == 0
        return is_done, address_of(told["stdout"]) if is_done and asked[0] == "ADD" else None
    answer = told.get("answer")
    return answer == "released" or isinstance(answer, dict) and "done" in answer, None


def address_of(stdout):
    return json.loads(stdout)["ips"][0]["address"].split("/")[0]


class Replies:
    """Goes through a record. `calls` has what each command asked for, by its number."""

    def __init__(self, events, calls):
        self.steps, self.counted = [], 0
        self.calls, self.running, self.lines, self.waiting = calls, {}, {}, {}
        for place, event in enumerate(events):
            self.see(place + 1, event)
        self.by_thing = collections.defaultdict(list)
        for step in self.steps:
            self.by_thing[step.thing].append(step)

    def see(self, place, event):
        if event.what == "P":
            self.end_all()
            asked = self.calls.get(event.place)
            if asked:
                self.running[event.process] = asked
                self.steps += steps_of(place, asked)
        elif event.what == "A":
            self.lines[event.process, event.file] = (Lines(), Lines())
            self.waiting[event.process, event.file] = collections.deque()
        elif event.what == "t":
            raise ValueError("a reply was not sent whole")
        elif event.what == "r" and (event.process, event.file) in self.lines:
            for line in self.lines[event.process, event.file][0].more(event.data):
                asked = asked_of_line(line)
                self.waiting[event.process, event.file].append(asked)
                self.steps += steps_of(place, asked) if asked else []
        elif event.what == "w" and (event.process, event.file) in self.lines:
            for line in self.lines[event.process, event.file][1].more(event.data):
                asked = self.waiting[event.process, event.file].popleft()
                if asked:
                    self.answered(place, asked, reply_of_line(asked, line))
        elif event.what in "wE" and event.process in self.running:
            self.see_command(place, event)

    def see_command(self, place, event):
        """A command is answered by its output, and a DEL, which has none, by its end."""
        asked = self.running[event.process]
        if event.what == "w":
            text = bytes(event.data)
            is_done = b'"ips"' in text or text.startswith((b"applied ", b"released\n", b"unreserved\n"))
            self.answered(place, asked, (is_done, address_of(text) if b'"ips"' in text else None))
        elif asked[0] == "DEL":
            self.answered(place, asked, (event.result == 0, None))
        if event.what == "E":
            del self.running[event.process]

    def answered(self, place, asked, reply):
        self.counted += reply[0]
        self.steps += steps_of(place, asked, reply)

    def end_all(self):
        """Another program begins, so those before have ended."""
        self.lines, self.waiting, self.running = {}, {}, {}

    def given_twice(self):
        """The replies that gave an address which another container had, by what it was answered."""
        held, wrong = {}, []
        for step in self.steps:
            if step.what == "ADDED":
                if step.value in held:
                    wrong.append(f"{step.value} was given to {step.thing[1]} while {held[step.value]} has it")
                held[step.value] = step.thing[1]
            elif step.what == "DEL":
                held = {address: who for address, who in held.items() if who != step.thing[1]}
        return wrong

    def compare(self, place, rows):
        """Raises `Wrong` where the rows are not as the replies before the place say."""
        for thing, steps in self.by_thing.items():
            steps = [step for step in steps if step.place <= place]
            if steps:
                COMPARED[thing[0]](thing[1], steps, rows)
        strange = {who for who in rows.owners.values() if ("container", who) not in self.by_thing}
        if strange:
            raise Wrong(f"the rows have {sorted(strange)}, which nobody added")


class Rows:
    """The rows, by the lines that `get` writes."""

    def __init__(self, text):
        self.owners, self.handles, self.affinities, self.reservations, self.pools = {}, set(), set(), set(), set()
        for line in text.splitlines():
            key, _, body = line.split(" ", 2)
            self.see(key, json.loads(body))

    def see(self, key, body):
        kind = key.split("/")[0]
        if kind == "block":
            self.see_block(body)
        elif kind == "handle":
            self.handles.add(body["handleID"].removeprefix(NETWORK + "."))
        elif kind == "affinity":
            self.affinities.add((body["node"], body["cidr"]))
        elif kind == "reservations":
            self.reservations = {one["name"] for one in body["reservations"]}
        elif kind == "pools":
            self.pools = {one["name"] for one in body["pools"]}

    def see_block(self, body):
        base = int.from_bytes(bytes(int(part) for part in body["cidr"].split("/")[0].split(".")), "big")
        for ordinal, place in enumerate(body["allocations"]):
            if place is not None:
                address = ".".join(str(part) for part in (base + ordinal).to_bytes(4, "big"))
                self.owners[address] = body["attributes"][place]["handle_id"].removeprefix(NETWORK + ".")


def compare_container(container, steps, rows):
    """What the container surely has, what it may have, and how many addresses more by ADDs that were not answered."""
    sure, may, more, is_stained = set(), set(), 0, False
    for step in steps:
        if step.what == "ADD":
            is_stained, more = is_stained or more > 0, more + 1
        elif step.what == "ADDED":
            sure.add(step.value)
            more -= 1
        elif step.what == "ADD?":
            more, is_stained = more - 1, True
        elif step.what == "DEL":
            is_stained = is_stained or more > 0 or bool(may)
            sure, may = set(), may | sure
        elif step.what == "DELED":
            may, more = set(), 0
    held = {address for address, who in rows.owners.items() if who == container}
    if not sure <= held:
        raise Wrong(f"{sorted(sure - held)} was answered to {container}, and the rows have {sorted(held)} for it")
    if len(held - sure - may) > more:
        raise Wrong(f"the rows have {sorted(held)} for {container}, of which it may have {sorted(sure | may)} and {more} more")
    if sure and container not in rows.handles:
        raise Wrong(f"{container} has {sorted(sure)} and no row of its own")
    if not (sure or may or more or is_stained) and container in rows.handles:
        raise Wrong(f"{container} was deleted, and its row is there")


def compare_reservation(name, steps, rows):
    told = steps[-1].what
    if told != "unsure" and (told == "reserve") != (name in rows.reservations):
        raise Wrong(f"the reservation {name}: the last answer was {told}, the rows have {sorted(rows.reservations)}")


def compare_node(node, steps, rows):
    if steps[-1].what == "released" and (node, steps[-1].value) in rows.affinities:
        raise Wrong(f"{node} released {steps[-1].value}, and the rows have its affinity")


def compare_pool(name, _steps, rows):
    if name not in rows.pools:
        raise Wrong(f"the pool {name} was applied, and the rows have {sorted(rows.pools)}")


COMPARED = {"container": compare_container, "reservation": compare_reservation, "node": compare_node,
            "pool": compare_pool}
