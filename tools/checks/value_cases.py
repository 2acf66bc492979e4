#!/usr/bin/env python3
"""Asks the program the cases of value_cases.txt: values of texts, pools and reservations, rows that are opened, routes
and lines.

A case is a line with a kind, a question and its answer. For each kind a function asks the program the question, by
scripts, files, calls or sessions of a daemon, and tells what came in the words of the table. `␤` stands for a line
feed, `␍` for a carriage return and `␀` for a zero byte.

    tools/checks/value_cases.py [PROGRAM]      else release/ipam
"""

import ipaddress
import json
import os
import re
import sys
import tempfile
from pathlib import Path

TOP = Path(__file__).resolve().parents[2]
# (files of the cases need no disk)
if os.access("/dev/shm", os.W_OK):
    tempfile.tempdir = "/dev/shm"
sys.path += [str(TOP / "tools/second"), str(TOP / "tools/tables")]
# pylint: disable=wrong-import-position
import asked_words
import bad_input
import cni_table
import links
import real_streams
from second_records import Block, Cidr, compact

CASES = Path(__file__).with_suffix(".txt")


# ---- scripts

CALLED = re.compile(r"0 called .* well (?:(?:found|listed|done|exists|conflict) \d+|missing|full|spent) (.*)")


def begin(request):
    return f"begin 0 {compact(request)}\n"


def value_and_rest(text):
    """What a line says first, and what is behind it: `-` is nothing."""
    if text.startswith("-"):
        return None, text[2:]
    value, end = json.JSONDecoder().raw_decode(text)
    return value, text[end + 1 :]


def journal_of(program, text):
    """The journal of a script whose last line makes more turns than its request has."""
    _, written = program.run(["play"], text.encode())
    *journal, last = written.decode().splitlines()
    assert last.endswith(": idle"), (text, written)
    return journal


class Played:
    """What was written of the last request, and its answer."""

    def __init__(self, program, requests, rows=""):
        *first, last = requests
        text = rows + "".join(f"{begin(one)}turn 0 2\n" for one in first) + f"{begin(last)}turn 0 100\n"
        self.written, self.answer = [], None
        for line in reversed(journal_of(program, text)):
            if " called " not in line:
                break
            body, rest = value_and_rest(CALLED.fullmatch(line)[1])
            if body is not None:
                self.written.insert(0, body)
            self.answer = self.answer or value_and_rest(rest)[0]


def is_read(program, request):
    """The request as it was read, or None."""
    status, written = program.run(["play"], begin(request).encode("utf-8", "surrogatepass"))
    if (status, written) == (8, b"line 1: unreadable\n"):
        return None
    return json.loads(written.decode().split(" ", 2)[2])


# ---- requests


def pool(name, cidr, size, **more):
    return {"pool": {"cidr": cidr, "name": name, "size": int(size), **more}}


def pool_of(text):
    return pool(*text.split(" "))


def families(address):
    return {"ipv4": ":" not in address, "ipv6": ":" in address}


def add(near, **more):
    """An ADD of an address of the family of this one."""
    return {"add": {"handle": "h", "node": "a", **families(near), **more}}


def add_this(address):
    return {"add": {"handle": "h", "node": "a", "address": address}}


def reserve(name, cidrs):
    return {"reserve": {"cidrs": cidrs, "name": name}}


def reservations(text):
    """A reservation of each of the CIDRs between spaces."""
    return [reserve(f"r{place}", [cidr]) for place, cidr in enumerate(text.split())]


def given(played):
    """The CIDR of the block that gave an address, and the address, or None."""
    if not set(played.answer) & {"added", "addedThis"}:
        assert set(played.answer) & {"exhausted", "notInPool"}, played.answer
        return None
    told = played.answer["addedThis"] if "addedThis" in played.answer else played.answer["added"][0]
    block = Block(played.written[-1])
    ((ordinal, (owner, _)),) = block.held.items()
    address = ipaddress.ip_address(told["address"])
    assert owner["handle_id"] == "h" and int(address) == block.cidr.base + ordinal, played.answer
    return block.cidr, told["address"]


def number_in(whole, slot):
    """Which slot of the CIDR this one is."""
    return (slot.base - whole.base) // slot.size()


def truth(value):
    return "true" if value else "false"


# ---- texts


def answer_to_cidr(program, text):
    """Beyond the reader, only `CHECK` tells a fault from others: it takes an address that has bits below its prefix."""
    read = is_read(program, pool("p", text, 26))
    if read:
        return read["pool"]["cidr"]
    env = dict(cni_table.good_env("CHECK"))
    config = {**cni_table.good_config("CHECK"), "prevResult": {"ips": [{"address": text}]}}
    bad_input.without_rows()
    status, written = program.run(["cni"], compact(config).encode(), env)
    code = json.loads(written)["code"]
    assert status == 1 and code in (7, 102), written
    return "HostBits" if code == 102 else ("Prefix", "Text")


def answer_to_name(program, text):
    node, handle = is_read(program, {"probe": {"node": text}}), is_read(program, {"del": {"handle": text}})
    return f"{truth(node)} {truth(handle)}"


def answer_to_length(program, count):
    return answer_to_name(program, "n" * int(count))


def answer_to_state(program, state):
    """The affinity of a file that has it with this state."""
    cidr = "10.0.0.0/26"
    affinity = compact({"cidr": cidr, "node": "node-a", "state": state})
    block = compact(Block.fresh(Cidr.read(cidr), "node-a"))
    pools = compact({"pools": [{"blockSize": 26, "cidr": "10.0.0.0/24", "disabled": False, "name": "p"}]})
    key = f"affinity/node-a/{cidr}"
    bad_input.with_rows([("pools", 1, pools), (key, 2, affinity), (f"block/{cidr}", 3, block)])
    status, written = program.run(["get", "affinity"], b"")
    if (status, written) == (7, f"datastore OR1 {key}\n".encode()):
        return "none"
    found = json.loads(written.decode().split(" ", 2)[2])
    return f"{found['state'][:1].upper()}{found['state'][1:]} {found['state']} {found['node']}"


def answer_to_selector_bytes(program, text):
    """The bytes of these numbers as the selector of a pool: the reader of JSON refuses those that are no UTF-8."""
    line = begin(pool("p", "10.0.0.0/24", 26, selector=text))
    status, written = program.run(["play"], line.encode("latin-1"))
    assert (status, written) == (8, b"line 1: unreadable\n"), written
    return "form"


# ---- slots and pools


def all_but_last(whole, size):
    """CIDRs of all slots but the last one."""
    halves = []
    while whole.prefix < size:
        halves.append(str(Cidr(whole.family, whole.base, whole.prefix + 1)))
        whole = Cidr(whole.family, whole.base + whole.size() // 2, whole.prefix + 1)
    return halves, str(whole)


def answer_to_slot(program, text):
    """The last slot is given where all others are reserved, and none where it is reserved too."""
    cidr, size, address = text.split(" ")
    whole, first = Cidr.read(cidr), pool("p", cidr, size)
    others, last = all_but_last(whole, int(size))
    reserved = [reserve(str(at), others[at : at + 64]) for at in range(0, len(others), 64)]
    slot, _ = given(Played(program, [first, *reserved, add(cidr)]))
    assert given(Played(program, [first, *reserved, reserve("last", [last]), add(cidr)])) is None
    found = given(Played(program, [first, add_this(address)]))
    return f"{number_in(whole, slot)} {f'Some({number_in(whole, found[0])})' if found else 'None'}"


def answer_to_overlap(program, text):
    """Whether a pool is refused beside another, and whether a pool has the first address of the other."""
    pools = [pool(name, cidr, 122 if ":" in cidr else 26) for name, cidr in zip("pq", text.split(" "))]
    refusal = Played(program, pools).answer.get("refused")
    assert refusal in (None, {"name": "p", "number": 2}), refusal
    bases = [cidr.partition("/")[0] for cidr in text.split(" ")]
    contains = any(given(Played(program, [one, add_this(base)])) for one, base in zip(pools, reversed(bases)))
    return f"{truth(refusal)} {truth(contains)}"


THREE = [pool_of("a 10.0.0.0/24 26"), pool_of("b 10.0.2.0/24 26"), pool_of("c 2001:db8::/48 122")]
WHY = {1: "NameTaken", 3: "Size", 4: "Prefix", 5: "TooMany", 6: "NoSuchPool"}


def told_of_pool(played, names):
    refusal = played.answer.get("refused")
    if not refusal:
        return f"{len(played.written[-1]['pools'])} pools"
    return f"Overlap({names.index(refusal['name'])})" if refusal["number"] == 2 else WHY[refusal["number"]]


def answer_to_add(program, text):
    return told_of_pool(Played(program, [*THREE, pool_of(text)]), "abc")


def answer_to_many(program, text):
    count, text = text.split(";")
    pools = [pool(f"pool-{number}", f"10.{number}.0.0/16", 26) for number in range(int(count))]
    return told_of_pool(Played(program, [*pools, pool_of(text)]), [])


def answer_to_of(program, address):
    found = given(Played(program, [*THREE, add_this(address)]))
    if not found:
        return "None"
    wholes = [Cidr.read(one["pool"]["cidr"]) for one in THREE]
    place = next(at for at, whole in enumerate(wholes) if whole.holds(found[0].family, found[0].base))
    return f"Some(({place}, {number_in(wholes[place], found[0])}))"


def opened(program, rows, counter=None):
    """What comes of rows that are opened, each a revision, a key and a body: the refusal, or the counter."""
    first = "" if counter is None else f"counter {counter}\n"
    text = first + "".join(f"row {' '.join(row)}\n" for row in rows) + begin({"config": {}}) + "turn 0 2\n"
    status, written = program.run(["play"], text.encode())
    lines = written.decode().splitlines()
    if status == 7:
        return re.fullmatch(r"datastore OR(\d+) (.*)", lines[-1]).expand(r"rule \1: \2")
    told = lines[-1].split(" well ")[1].split(" ")
    return int(told[1]) - 1 if told[0] == "done" else told[0]


def answer_to_is(program, cidr):
    """A block that is no slot of a pool breaks rule 4."""
    pools = Played(program, THREE).written[-1]
    rows = [("2", f"block/{cidr}", compact(Block.fresh(Cidr.read(cidr), None))), ("1", "pools", compact(pools))]
    told = opened(program, rows, 2)
    assert told in (2, f"rule 4: block/{cidr}"), told
    return truth(told == 2)


def told_of_pools(played):
    if "refused" in played.answer:
        return WHY[played.answer["refused"]["number"]]
    shown = ((one, one.get("assignmentMode", "Automatic")) for one in played.written[-1]["pools"])
    return "".join(f"{one['name']} {mode} {truth(one['disabled'])} {truth('nodeSelector' not in one)}," for one, mode in shown)


def answer_to_disable(program, name):
    return told_of_pools(Played(program, [*THREE, {"disable": {"disabled": True, "name": name}}]))


def answer_to_set(program, name):
    """A pool of that name, CIDR and size is set. The program sets none that is not there: it disables none either."""
    same = [one["pool"] for one in THREE if one["pool"]["name"] == name]
    if not same:
        return answer_to_disable(program, name)
    changed = {**same[0], "disabled": True, "mode": "Manual", "selector": "zone == 'west'"}
    played = Played(program, [*THREE, {"pool": changed}])
    assert [one.get("nodeSelector") for one in played.written[-1]["pools"] if one["name"] == name] == ["zone == 'west'"]
    return told_of_pools(played)


# ---- reservations


def answer_to_free(program, text):
    """The address that the first ADD is given in a pool of blocks of one address."""
    reserved, cidr = text.split(";")
    whole = pool("p", cidr, 128 if ":" in cidr else 32)
    found = given(Played(program, [whole, *reservations(reserved), add(cidr)]))
    return found[1] if found else "none"


def answer_to_reserved(program, text):
    """What `show` says of the address: it is in a pool."""
    reserved, address = text.split(";")
    rows = Played(program, reservations(reserved)).written[-1]
    whole = {"blockSize": 122 if ":" in address else 26, "cidr": "::/0" if ":" in address else "0.0.0.0/0"}
    pools = compact({"pools": [{**whole, "disabled": False, "name": "p"}]})
    bad_input.with_rows([("pools", 1, pools), ("reservations", 2, compact(rows))])
    told = program.run(["show", address], b"")[1].decode()
    assert told in (f"{address} reserved\n", f"{address} free\n"), told
    return truth(told.endswith("reserved\n"))


def answer_to_room(program, text):
    """The slot of the block that an ADD makes where all slots before `from` have another node's blocks."""
    reserved, rest = text.split(";")
    cidr, size, start = rest.split(" ")
    whole, size = Cidr.read(cidr), int(size)
    step = 2 ** ((32 if whole.family == 4 else 128) - size)
    taken = [Cidr(whole.family, whole.base + number * step, size) for number in range(int(start))]
    taken = [slot for slot in taken if slot.base <= whole.last()]
    pools = {"pools": [{"blockSize": size, "cidr": cidr, "disabled": False, "name": "p"}]}
    rows = [f"row 1 pools {compact(pools)}\n"] + [f"row 2 block/{slot} {compact(Block.fresh(slot, 'b'))}\n" for slot in taken]
    rows += [f"row 1 affinity/b/{slot} {compact({'cidr': str(slot), 'node': 'b', 'state': 'confirmed'})}\n" for slot in taken]
    strict = [{"config": {"strictAffinity": True}}, *reservations(reserved)]
    found = given(Played(program, [*strict, add(cidr)], "".join(rows)))
    return f"Some({number_in(whole, found[0])})" if found else "None"


def answer_to_count(program, count):
    request = reserve("lab", ["10.0.0.0/24"] * int(count))
    if not is_read(program, request):
        return "refused"
    (made,) = Played(program, [request]).written[-1]["reservations"]
    return f"{made['name']} {len(made['reservedCIDRs'])}"


# ---- rows


def opens_as(program, rows, counter, by_file=True):
    """Rows by a script, and where they open by a file too, of which each row is listed."""
    told = opened(program, rows, counter)
    if isinstance(told, str) and told.startswith("rule "):
        return told
    # (where nothing more can be written, the counter is what it was given as)
    told = int(counter) if told in ("spent", "full") else told
    if by_file:
        bad_input.with_rows([(key, int(revision), body) for revision, key, body in rows])
        status, written = program.run(["get"], b"")
        wanted = "".join(f"{key} {revision} {body}\n" for revision, key, body in rows)
        assert (status, written.decode()) == (0, wanted), written[:400]
    return f"{len(rows)} rows at {told}"


def answer_to_opens(program, text):
    counter, *lines = text.split("␤")
    return opens_as(program, [tuple(line.split(" ", 2)) for line in lines], counter)


def free_block(place):
    """The row of a free block of one address. Its last two numbers have three digits: so the keys are in order."""
    slot = f"10.100.{100 + place // 150}.{100 + place % 150}/32"
    return "1", f"block/{slot}", compact(Block.fresh(Cidr.read(slot), None))


def answer_to_blocks(program, text):
    """So many free blocks of one address, and their pool."""
    count, counter = text.split(" ")
    pools = {"pools": [{"blockSize": 32, "cidr": "10.100.0.0/16", "disabled": False, "name": "p"}]}
    rows = [free_block(place) for place in range(int(count))] + [("1", "pools", compact(pools))]
    return opens_as(program, rows, counter)


def answer_to_handles(program, text):
    """So many handles whose count nothing needs."""
    parts = [part.split(" ") for part in text.split(", ")]
    names = [f"h{100_000 + place}" for place in range(max(int(count) for count, _ in parts))]
    rows = [("1", f"handle/{name}", f'{{"block":{{"10.0.0.0/30":1}},"handleID":"{name}"}}') for name in names]
    return "; ".join(opens_as(program, rows[: int(count)], counter, by_file=False) for count, counter in parts)


def answer_to_order(program, text):
    """The keys of a file in the order in which a daemon lists each kind, each after its revision."""
    bad_input.with_rows([(key, int(revision), body_of(key)) for revision, key in (row.split(" ") for row in text.split("; "))])
    kinds = ("config", "pools", "reservations", "block", "affinity", "handle")
    pages = replies(program, [{"rows": kind} for kind in kinds])
    return "; ".join(f"{one['revision']} {one['key']}" for page in pages for one in page["rows"])


def body_of(key):
    """The least body of a key, and of `pools` one that has each block of the case."""
    kind, _, rest = key.partition("/")
    if kind == "block":
        return compact(Block.fresh(Cidr.read(rest), None))
    if kind == "affinity":
        node, _, cidr = rest.partition("/")
        return compact({"cidr": cidr, "node": node, "state": "pending"})
    return {
        "config": compact({"autoAllocateBlocks": True, "maxBlocksPerHost": 0, "strictAffinity": False}),
        "handle": compact({"block": {"10.0.0.0/26": 1}, "handleID": rest}),
        "pools": compact({"pools": [
            {"blockSize": 122 if ":" in cidr else 26, "cidr": cidr, "disabled": False, "name": name}
            for name, cidr in (("p", "9.0.0.0/24"), ("q", "10.0.0.0/24"), ("six", "2001:db8::/48"))
        ]}),
        "reservations": compact({"reservations": []}),
    }[kind]


def answer_to_loads(program, keys):
    """What a daemon says twice is no reply; of what it says once, the revision of the pools."""
    with tempfile.TemporaryDirectory() as folder:
        told = [loaded(program, Path(folder), place, key) for place, key in enumerate(keys.split(" "))]
        row = {**asked_words.row("pools", body_of("pools")), "revision": 3}
        found = asked_words.asked_of_stranger(program.path, Path(folder), "pools", ["get", "pools"], [asked_words.page([row])])
    assert found[0] == 0, found
    return "".join(told) + f"found {found[1].split(' ')[1]}"


# Words that ask a daemon for rows, and the kinds that they ask for.
LOOKS = [(["show"], ["pools", "reservations", "block", "affinity"]), (["audit", "1"], ["handle", "block", "affinity"] * 2)]


def loaded(program, folder, place, key):
    """Whether words take the row where it comes once, and none takes it where it comes twice."""
    kind, row, told = key.split("/")[0], asked_words.row(key, body_of(key)), []
    for words, kinds in [(["get", kind], [kind]), *(look for look in LOOKS if kind in look[1])]:
        for times in (1, 2):
            pages = [asked_words.page([row] * times if one == kind else []) for one in kinds]
            if times == 2:
                del pages[kinds.index(kind) + 1 :]
            told.append(asked_words.asked_of_stranger(program.path, folder, f"{place}-{words[0]}-{times}", words, pages)[0])
    return "." if told == [0, 11] * (len(told) // 2) else "!"


# ---- routes


def replies(program, lines):
    """The replies of a session of a daemon over the file that is there."""
    daemon = links.Daemon(program.path, bad_input.DATABASE)
    came, end = daemon.session("".join(f"{compact(line)}\n" for line in lines).encode())
    daemon.stop()
    assert end == "session closed", end
    return [json.loads(line) for line in came.decode().splitlines()]


def asked(program, requests, *lines):
    """What is replied to the lines after the requests, each of which has an answer."""
    told = replies(program, [*({"request": one} for one in requests), *lines])
    assert all(set(reply) == {"answer"} for reply in told[: len(requests)]), told
    return told[len(requests) :]


def with_pools(*more):
    """A file whose last revision is 3."""
    pools = {"pools": [
        {"blockSize": 30, "cidr": "10.0.0.0/29", "disabled": False, "name": "p"},
        {"blockSize": 122, "cidr": "2001:db8::/120", "disabled": False, "name": "six"},
    ]}
    bad_input.with_rows([("pools", 3, compact(pools)), *more])


def assigns(node, address):
    """Five writes: the affinity, pending; its block; the affinity, confirmed; a handle; the block."""
    return {"add": {"address": address, "handle": f"h-{address.replace(':', '.')}x", "node": node}}


def releases(node, cidr):
    """Three writes: the affinity, pendingDeletion; its block; the affinity is deleted."""
    return {"release": {"cidr": cidr, "node": node}}


COME = [assigns("b", "10.0.0.0"), assigns("a", "2001:db8::"), assigns("a", "10.0.0.4")]
GO = [releases("b", "10.0.0.0/30"), releases("a", "10.0.0.4/30")]
PENDING = ("affinity/b/10.0.0.0/30", 2, compact({"cidr": "10.0.0.0/30", "node": "b", "state": "pending"}))


def shown(route):
    return f"{route['node']} {route['cidr']};"


def answer_to_routes(program, count):
    """Of an opened file, of one with a pending affinity, after three routes came, and after two of these went."""
    with_pools(*([PENDING] if count == "1" else []))
    (told,) = asked(program, {"4": COME, "8": COME + GO}.get(count, []), {"routes": True})
    for node in "ab":
        status, written = program.run(["routes", node], b"")
        routes = "".join(f"{one['cidr']}\n" for one in told["routes"] if one["node"] == node)
        assert (status, written.decode()) == (0, routes), written
    return "".join(map(shown, told["routes"]))


# A case counts each write of an affinity from revision 4 on; here the revisions of the real writes. Its write 8 has none.
REAL = {2: 2, 3: 3, 4: 4, 5: 6, 6: 11, 7: 16, 9: 19, 10: 21, 11: 22}
LAST = 24


def since(told, counted):
    """What is told since a revision, where `counted` gives the numbers of a case for revisions."""
    if "changes" in told:
        return told["changes"]
    ((word, revision),) = told.items()
    return f"{word} {counted[revision]}"


def answer_to_changes(program, revision):
    with_pools()
    revision = {11: LAST, 12: LAST + 1}.get(int(revision), REAL.get(int(revision)))
    counted = {real: number for number, real in REAL.items()} | {LAST: 11}
    (told,) = asked(program, COME + GO, {"routesSince": revision})
    changes = since(told, counted)
    if isinstance(changes, str):
        return changes
    return "".join(f"{'+' if one['up'] else '-'}{counted[one['revision']]} {shown(one)}" for one in changes)


def answer_to_last(program, number):
    """A route comes and goes 515 times, each time by ten writes, of which the third and the sixth change it."""
    with_pools()
    address, cidr = "10.0.0.0", "10.0.0.0/30"
    turns = [assigns("a", address), releases("a", cidr), {"del": {"handle": assigns("a", address)["add"]["handle"]}}] * 515
    counted = {3 + 10 * (change // 2) + (6 if change % 2 else 3): change + 1 for change in range(1030)}
    real = {change: revision for revision, change in counted.items()}
    (told,) = asked(program, turns, {"routesSince": real[int(number)]})
    changes = since(told, counted)
    if isinstance(changes, str):
        return changes
    assert [counted[one["revision"]] for one in changes] == list(range(int(number) + 1, 1031)), changes[:3]
    return str(len(changes))


# ---- all


def function_of(kind):
    name = f"answer_to_{kind.replace(' ', '_')}"
    return globals().get(name) or getattr(real_streams, name)


def cases():
    """Each case of the table. What passes over streams is told of by how many lines there are, and how they end."""
    for line in CASES.read_text().split("\n")[:-1]:
        question, _, wanted = line.rpartition("|")
        kind, _, question = question.partition("|")
        yield kind, question, real_streams.told_of_lines(wanted) if kind in ("lines", "pieces", "socket") else wanted


def main():
    words = sys.argv[1:]
    if len(words) > 1:
        print(__doc__, file=sys.stderr)
        return 2
    program = bad_input.Program(os.path.abspath(words[0] if words else TOP / "release/ipam"))
    for kind, question, wanted in cases():
        try:
            found = function_of(kind)(program, question)
        except Exception as fault:  # (what came was of no form that a case has)
            found = repr(fault)
        # (some answers are told alike)
        program.want(kind, question, found if isinstance(found, str) else wanted if wanted in found else found, wanted)
    print(f"{program.tried - program.wrong} passed, {program.wrong} failed")
    return 1 if program.wrong or not program.tried else 0


if __name__ == "__main__":
    sys.exit(main())
