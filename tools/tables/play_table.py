"""Scripts that `play` is tested with, and what it must write for each. `tools/check` plays them.

The second allocator gives what is expected. For scripts that are refused before anything happens, and for
failing input and output, this script states it. Some scripts have lines that were worked out by hand, and
the second allocator's journal has to contain them. Those of failing input and output, and those of long lines, are
scenarios, which `tools/checks/command_cases.py` plays.
"""

import sys
from pathlib import Path

TOP = Path(__file__).resolve().parents[2]
sys.path.append(str(TOP / "tools/second"))
# pylint: disable=wrong-import-position
from random_scripts import text_of
from second_allocator import play

# How many of the scripts drawn at random are played whatever the seed is.
RANDOM = 16

POOL = '{"blockSize":30,"cidr":"10.0.0.0/29","disabled":false,"name":"p"}'
POOLS = f'row 1 pools {{"pools":[{POOL}]}}\n'
OWN = """\
row 2 affinity/a/10.0.0.0/30 {"cidr":"10.0.0.0/30","node":"a","state":"confirmed"}
row 3 block/10.0.0.0/30 {"affinity":"host:a","allocations":[null,null,null,null],"attributes":[],\
"cidr":"10.0.0.0/30","sequenceNumber":0,"sequenceNumberForAllocation":{},"unallocated":[0,1,2,3]}
"""
BASE = POOLS + OWN
MANUAL = BASE.replace('"blockSize"', '"assignmentMode":"Manual","blockSize"', 1)
HELD = POOLS + """\
row 2 affinity/a/10.0.0.0/30 {"cidr":"10.0.0.0/30","node":"a","state":"confirmed"}
row 3 block/10.0.0.0/30 {"affinity":"host:a","allocations":[0,null,null,null],\
"attributes":[{"handle_id":"n.c1","secondary":{}}],"cidr":"10.0.0.0/30","sequenceNumber":1,\
"sequenceNumberForAllocation":{"0":1},"unallocated":[1,2,3]}
row 4 handle/n.c1 {"block":{"10.0.0.0/30":1},"handleID":"n.c1"}
"""
LOOSE = OWN.split("\n", 1)[1].replace('"host:a"', "null")


def begin(slot, request):
    return f"begin {slot} {request}\n"


def add(handle, node, more="", slot=0):
    return begin(slot, f'{{"add":{{"handle":"{handle}","node":"{node}"{more}}}}}')


def add_this(address, handle, node, slot=0):
    return begin(slot, f'{{"add":{{"address":"{address}","handle":"{handle}","node":"{node}"}}}}')


def delete(handle, slot=0):
    return begin(slot, f'{{"del":{{"handle":"{handle}"}}}}')


def config(more):
    return f'row 5 config {{"autoAllocateBlocks":true,"maxBlocksPerHost":0,"strictAffinity":false}}\n'.replace(*more)


ADD = add("n.c1", "a")
RELEASE = begin(1, '{"release":{"cidr":"10.0.0.0/30","node":"a"}}')
COLLECT = begin(0, '{"collect":{"live":[]}}')
LATE = begin(0, '{"collect":{"at":100,"grace":60,"live":[]}}')
CHECK = '{{"check":{{"addresses":[{}],"handle":"n.c1"}}}}'
STRICT = config(('"strictAffinity":false', '"strictAffinity":true'))
NO_AUTO = config(('"autoAllocateBlocks":true', '"autoAllocateBlocks":false'))
ONE_BLOCK = config(('"maxBlocksPerHost":0', '"maxBlocksPerHost":1'))
TWO = """\
row 1 pools {"pools":[{"blockSize":31,"cidr":"10.0.0.0/30","disabled":false,"name":"p"}]}
row 2 affinity/a/10.0.0.0/31 {"cidr":"10.0.0.0/31","node":"a","state":"confirmed"}
row 3 affinity/b/10.0.0.2/31 {"cidr":"10.0.0.2/31","node":"b","state":"confirmed"}
row 4 block/10.0.0.0/31 {"affinity":"host:a","allocations":[0,0],"attributes":[{"handle_id":"n.x","secondary":{}}],\
"cidr":"10.0.0.0/31","sequenceNumber":2,"sequenceNumberForAllocation":{"0":1,"1":2},"unallocated":[]}
row 7 block/10.0.0.2/31 {"affinity":"host:b","allocations":[0,null],"attributes":[{"handle_id":"n.y","secondary":{}}],\
"cidr":"10.0.0.2/31","sequenceNumber":1,"sequenceNumberForAllocation":{"0":1},"unallocated":[1]}
row 5 handle/n.x {"block":{"10.0.0.0/31":2},"handleID":"n.x"}
row 6 handle/n.y {"block":{"10.0.0.2/31":1},"handleID":"n.y"}
row 8 config {"autoAllocateBlocks":true,"maxBlocksPerHost":1,"strictAffinity":STRICT}
"""
TWO_STRICT, TWO_LOOSE = TWO.replace("STRICT", "true"), TWO.replace("STRICT", "false")

POOL_32 = '{{"blockSize":32,"cidr":"10.0.0.{0}/32","disabled":false,"name":"p{0}"}}'
FULL_OF_POOLS = f"row 1 pools {{\"pools\":[{','.join(POOL_32.format(n) for n in range(64))}]}}\n"
RESERVED = '{{"name":"r{}","reservedCIDRs":[]}}'
FULL_OF_RESERVATIONS = f"row 1 reservations {{\"reservations\":[{','.join(RESERVED.format(n) for n in range(256))}]}}\n"

# Scripts, and lines of their journals that were worked out by hand, each with its place; or what the
# line at this place ends with. What is written of a script is the second allocator's.
WORKED = [
    (
        BASE + ADD + add("n.c2", "a", slot=1) + "turn 0 5\nturn 1 5\nturn 0 3\nturn 1 13\n",
        {
            13: "0 called create handle/n.c1 well done 4 {\"block\":{\"10.0.0.0/30\":1},\"handleID\":\"n.c1\"} -",
            14: ' {"added":[{"address":"10.0.0.0","b":6,"c":2,"f":5,"p":3,"r":4,"w":14}]}',
            17: "1 called update block/10.0.0.0/30 3 well conflict 5 - -",
            19: "1 called delete handle/n.c2 6 well done 7 - -",
            27: ' {"added":[{"address":"10.0.0.1","b":24,"c":20,"f":23,"p":21,"r":22,"w":27}]}',
        },
    ),
    (
        POOLS + ADD + add("n.c2", "b", slot=1) + "turn 0 5\nturn 1 5\nturn 0 12\nturn 1 20\n",
        {
            23: '"address":"10.0.0.0","b":20,"c":16,"f":19,"p":17,"r":18,"w":23}]}',
            26: "1 called create block/10.0.0.0/30 well exists 6 - -",
            43: '"address":"10.0.0.4","b":40,"c":36,"f":39,"p":37,"r":38,"w":43}]}',
        },
    ),
    (
        POOLS + ADD + "turn 0 7\n" + RELEASE + "turn 1 6\nturn 0\nturn 0 17\n",
        {
            14: '1 called delete affinity/a/10.0.0.0/30 3 well done 5 - "released"',
            15: "0 called create block/10.0.0.0/30 well exists 4 - -",
            32: '"address":"10.0.0.0","b":29,"c":25,"f":28,"p":26,"r":27,"w":32}]}',
        },
    ),
    (
        BASE + RELEASE + "turn 1 4\n" + ADD + "turn 0 9\nturn 1\nstop 1\nturn 0 8\n",
        {
            15: "1 called update block/10.0.0.0/30 3 well conflict 6 - -",
            16: "1 stopped",
            24: '"address":"10.0.0.0","b":21,"c":17,"f":20,"p":18,"r":19,"w":24}]}',
        },
    ),
    (
        BASE + ADD + "turn 0 7\nlose 0\n" + delete("n.c1") + "turn 0 5\n",
        {
            8: ' "fault"',
            12: '"unallocated":[1,2,3,0]} -',
            14: '0 called delete handle/n.c1 4 well done 7 - {"deleted":{"k":10}}',
        },
    ),
    (BASE + ADD + "turn 0 7\nstop 0\n" + delete("n.c1") + "turn 0 2\nrestart\n", {11: ' {"deleted":{"k":10}}'}),
    (
        HELD + COLLECT + "turn 0\n" + delete("n.c1", 1) + "turn 1 5\n"
        + add_this("10.0.0.0", "n.c1", "a", 1) + "turn 1 6\nfeed 0 []\nturn 0\n",
        {16: ' {"collected":{"b1":1,"b2":16,"items":[]}}'},
    ),
    (
        HELD + COLLECT + "turn 0\nfeed 0 []\nturn 0 5\n",
        {7: ' {"collected":{"b1":1,"b2":3,"items":[{"address":"10.0.0.0","freed":true,"handle":"n.c1","stamp":1}]}}'},
    ),
    (HELD + COLLECT + 'turn 0\nfeed 0 ["n.c1"]\nturn 0\n', {3: ' {"collected":{"b1":1,"b2":3,"items":[]}}'}),
    (HELD + COLLECT + "feed 0 []\n", {1: "line 6: not waiting"}),
    (
        BASE + add("n.c1", "a", ',"ipv6":true') + "turn 0 17\n",
        {17: ' {"exhausted":{"b":13,"c":9,"f":12,"family":6,"p":10,"r":11}}'},
    ),
    (
        BASE + "counter 4611686018427387903\n" + ADD + "turn 0 8\n",
        {
            7: '0 called create handle/n.c1 well done 4611686018427387904 {"block":{"10.0.0.0/30":1},"handleID":"n.c1"} -',
            8: '0 called update block/10.0.0.0/30 3 well spent - "spent"',
        },
    ),
    ("", {}),
    ("turn 0\n", {0: "line 1: idle"}),
    (BASE + ADD + ADD, {1: "line 5: busy"}),
    (
        BASE + ADD + "turn 0 8\n",
        {
            0: '0 began {"add":{"handle":"n.c1","node":"a"}}',
            8: ' {"added":[{"address":"10.0.0.0","b":5,"c":1,"f":4,"p":2,"r":3,"w":8}]}',
        },
    ),
    (BASE + ADD + "turn 0 8", {8: '"w":8}]}'}),
    (BASE + ADD + "turn 0 8\nturn 0\n", {9: "line 6: idle"}),
    (BASE + ADD + "turn 0 9\n", {9: "line 5: idle"}),
    (
        MANUAL + begin(0, '{"probe":{"node":"a"}}') + "turn 0 5\n",
        {5: ' {"exhausted":{"b":5,"c":1,"f":4,"family":4,"p":2,"r":3}}'},
    ),
    (
        MANUAL + begin(0, '{"probe":{"node":"a","pools4":["p"]}}') + "turn 0 5\n",
        {5: ' {"ready":[{"b":5,"c":1,"f":4,"family":4,"p":2,"r":3}]}'},
    ),
    (
        MANUAL + add_this("10.0.0.1", "n.c1", "a") + "turn 0 6\n",
        {6: ' {"addedThis":{"address":"10.0.0.1","b":3,"c":1,"p":2,"w":6}}'},
    ),
    (HELD + LATE + "turn 0\nfeed 0 159 []\n", {2: "line 7: too soon"}),
    (
        HELD + LATE + "turn 0\nfeed 0 160 []\nturn 0 5\n",
        {
            2: "0 fed 160 []",
            7: ' {"collected":{"b1":1,"b2":3,"items":[{"address":"10.0.0.0","freed":true,"handle":"n.c1","stamp":1}]}}',
        },
    ),
    (
        HELD + begin(0, '{"collect":{"live":[],"scope":{"network":"n","node":"a"}}}') + "turn 0\nfeed 0 []\nturn 0\n",
        {3: ' {"collected":{"b1":1,"b2":3,"items":[]}}'},
    ),
    (TWO_STRICT + ADD + "turn 0 5\n", {5: ' {"exhausted":{"b":5,"c":1,"f":4,"family":4,"p":2,"r":3}}'}),
    (TWO_LOOSE + ADD + "turn 0 8\n", {8: ' {"added":[{"address":"10.0.0.3","b":5,"c":1,"f":4,"p":2,"r":3,"w":8}]}'}),
    (TWO_STRICT + add_this("10.0.0.3", "n.c1", "a") + "turn 0 3\n", {3: ' {"notAffine":{"b":3,"cidr":"10.0.0.2/31"}}'}),
]

# What is written of these is the second allocator's alone. Each kind of request and of answer is there.
OTHERS = [
    BASE,
    BASE + "counter 7\n" + ADD + "turn 0 7\n",
    "stop 63\n",
    "restart\n",
    "feed 0 []\n",
    "row 1 config {}\nrow 1 config {}\n",
    "counter 1\ncounter 1\n",
    ADD + "row 1 config {}\n",
    ADD + "counter 1\n",
    BASE + ADD + "turn 0 7\nstop 0\n" + delete("n.c1") + "turn 0 2\nrestart\nturn 0\n",
    BASE + ADD + "turn 0 6\n" + begin(2, '{"probe":{"node":"b"}}') + "turn 2 2\nrestart\n" + ADD + "turn 0 8\n",
    BASE + ADD + "turn 0 3\nfail 0\n" + ADD + "turn 0 8\n",
    HELD + COLLECT + "turn 0 2\n",
    HELD + COLLECT + "turn 0\nfail 0\n",
    HELD + COLLECT + "turn 0\nfeed 0 []\nturn 0 2\n" + delete("n.c1", 1) + "turn 1 5\nturn 0\nturn 0\n",
    HELD + begin(0, CHECK.format('"10.0.0.0"')) + "turn 0 2\n",
    HELD + begin(0, CHECK.format('"10.0.0.0","10.0.0.1"')) + "turn 0 3\n",
    HELD + begin(0, CHECK.format('"10.0.0.0","10.9.0.1"')) + "turn 0 2\n",
    HELD + begin(0, CHECK.format('"2001:DB8::1"')) + "turn 0\n",
    HELD + begin(0, CHECK.format("")) + "turn 0\n",
    HELD + delete("n.c2") + "turn 0\n",
    HELD + delete("n.c1") + "turn 0 5\n" + ADD + "turn 0 8\n",
    HELD + add_this("10.0.0.0", "n.c2", "a") + "turn 0 3\n",
    HELD + add_this("10.9.0.1", "n.c2", "a") + "turn 0 2\n",
    HELD + add_this("10.0.0.6", "n.c2", "b") + "turn 0 13\n",
    HELD.replace('"10.0.0.0/30":1}', '"10.0.0.0/30":1,"10.0.0.4/30":4294967295}') + add_this("10.0.0.4", "n.c1", "b") + "turn 0 11\n",
    BASE + add("n.c1", "a", ',"pools4":["p","x"]') + "turn 0 5\n",
    BASE + add("n.c1", "a", ',"pools4":["10.0.0.0/29"],"secondary":{"network":"n","node":"a"}') + "turn 0 8\n"
    + begin(0, '{"collect":{"live":["n.c2"],"scope":{"node":"a","network":"n"}}}') + 'turn 0\nfeed 0 ["n.c3"]\nturn 0 5\n',
    BASE + begin(0, '{"release":{"cidr":"10.0.0.4/30","node":"a"}}') + "turn 0\n",
    BASE + RELEASE + "turn 1 6\n" + ADD + "turn 0 17\n",
    BASE + begin(0, '{"reserve":{"cidrs":["10.0.0.0/31"],"name":"r"}}') + "turn 0 2\n" + ADD + "turn 0 8\n"
    + add_this("10.0.0.1", "n.c2", "a") + "turn 0 6\n",
    BASE + begin(0, '{"reserve":{"cidrs":["10.0.0.0/30"],"name":"r"}}') + "turn 0 2\n" + ADD + "turn 0 17\n"
    + begin(0, '{"unreserve":{"name":"r"}}') + "turn 0 2\n" + begin(0, '{"unreserve":{"name":"r"}}') + "turn 0\n",
    begin(0, '{"pool":{"cidr":"2001:DB8::/64","name":"six","selector":"has( gpu )","size":122}}') + "turn 0 2\n"
    + add("n.c1", "a", ',"ipv4":false,"ipv6":true') + "turn 0 5\n"
    + add("n.c1", "a", ',"ipv4":false,"ipv6":true,"labels":{"gpu":"1"}') + "turn 0 17\n",
    BASE + begin(0, '{"pool":{"cidr":"10.0.0.0/28","name":"q","size":30}}') + "turn 0\n"
    + begin(0, '{"pool":{"cidr":"10.0.1.0/28","name":"p","size":30}}') + "turn 0\n"
    + begin(0, '{"pool":{"cidr":"10.0.1.0/28","name":"q","size":19}}') + "turn 0\n"
    + begin(0, '{"pool":{"cidr":"10.0.1.0/30","name":"q","size":29}}') + "turn 0\n"
    + begin(0, '{"pool":{"cidr":"10.0.0.0/29","disabled":true,"mode":"Manual","name":"p","size":30}}') + "turn 0 2\n",
    BASE + begin(0, '{"disable":{"disabled":true,"name":"p"}}') + "turn 0 2\n" + ADD + "turn 0 5\n"
    + begin(0, '{"disable":{"disabled":false,"name":"x"}}') + "turn 0\n",
    BASE + begin(0, '{"config":{"strictAffinity":true}}') + "turn 0 2\n" + begin(0, '{"config":{}}') + "turn 0 2\n",
    BASE + begin(0, '{"config":{"maxBlocksPerHost":1}}') + "turn 0\n" + begin(1, '{"config":{"autoAllocateBlocks":false}}') + "turn 1 2\nturn 0 3\n",
    # an empty block without a node is borrowed from where no block may be claimed, and stays so
    POOLS + LOOSE + NO_AUTO + ADD + "turn 0 8\n",
    POOLS + LOOSE + ONE_BLOCK + ADD + "turn 0 17\n",
    POOLS + LOOSE + NO_AUTO + add_this("10.0.0.2", "n.c1", "b") + "turn 0 13\n",
    BASE + STRICT + add("n.c1", "b") + "turn 0 17\n",
    BASE.replace('"confirmed"', '"pendingDeletion"') + ADD + "turn 0 17\n",
    BASE + ADD + "turn 0 5\n" + begin(1, '{"disable":{"disabled":true,"name":"p"}}') + "turn 1 2\nturn 0 3\n",
    # as many pools and reservations as there may be
    FULL_OF_POOLS + begin(0, '{"pool":{"cidr":"10.1.0.0/30","name":"q","size":30}}') + "turn 0\n",
    FULL_OF_RESERVATIONS + begin(0, '{"reserve":{"cidrs":[],"name":"q"}}') + "turn 0\n"
    + begin(0, '{"reserve":{"cidrs":["::/128"],"name":"r7"}}') + "turn 0 2\n",
    # where both families are asked for, the first address is given up when the second write fails
    BASE + add("n.c1", "a", ',"ipv6":true,"pools6":["y"]') + "turn 0 17\n",
]


def many_races():
    """A slot that loses its block 64 times to another, which takes and gives back one address."""
    text = BASE + ADD
    for number in range(1, 65):
        other = add_this("10.0.0.3", "n.x", "a", 1) + "turn 1 6\n" if number % 2 else delete("n.x", 1) + "turn 1 5\n"
        text += "turn 0 7\n" + other + "turn 0\n" + ("turn 0 2\n" if number < 64 else "")
    journal, status = play(text)
    lost = [line for line in journal.splitlines() if line.startswith("0 called update block") and " conflict " in line]
    assert status == 0 and len(lost) == 64 and lost[62].endswith(" - -")
    assert lost[63].endswith(' - {"again":{"claims":0,"lost":64}}') and journal.endswith(lost[63] + "\n")
    return text


def many_claims():
    """A slot that claims 64 blocks of one address, each of which another takes as soon as it is claimed."""
    text = 'row 1 pools {"pools":[{"blockSize":32,"cidr":"10.0.0.0/24","disabled":false,"name":"p"}]}\n' + ADD
    for number in range(64):
        text += "turn 0 9\n" + (add_this(f"10.0.0.{number}", "n.x", "a", 1) + "turn 1 6\n" if number < 63 else "")
    journal, status = play(text)
    confirmed = [line for line in journal.splitlines() if line.startswith("0 called update affinity/a/")]
    assert status == 0 and len(confirmed) == 64 and all(line.endswith('"confirmed"} -') for line in confirmed[:63])
    assert confirmed[63].endswith(' {"again":{"claims":64,"lost":0}}') and journal.endswith(confirmed[63] + "\n")
    return text


# ---- the most bytes of a script

LINE_BYTES, SCRIPT_BYTES = 2**20, 2**26


def padded(size):
    """A request that a line of so many bytes has, and its stop."""
    request = 'begin 0 {%s"del":{"handle":"n.c1"}}\n'
    return request % (" " * (size - len(request % "")))


def largest(more):
    """A script whose last line ends so many bytes behind the most, what is written of it, and the status."""
    stop, began = "stop 0\n", '0 began {"del":{"handle":"n.c1"}}\n0 stopped\n'
    count = SCRIPT_BYTES // LINE_BYTES
    pairs = (padded(LINE_BYTES - len(stop)) + stop) * (count - 1)
    # (the line feed behind the last byte is none of the line)
    text = pairs + padded(LINE_BYTES - len(stop) + 1 + more) + stop
    assert len(text) == SCRIPT_BYTES + 1 + more
    if more <= 0:
        return text, began * count, 0
    return text, began * (count - 1) + began.split("\n", 1)[0] + f"\nline {2 * count}: long\n", 8


# what is written of these is said beside them
REFUSED = [
    ("jump 0\n", "line 1: unreadable\n", 8),
    ("\n", "line 1: unreadable\n", 8),
    ("turn 64\n", "line 1: unreadable\n", 8),
    ("turn 0 0\n", "line 1: unreadable\n", 8),
    ("turn 0 100001\n", "line 1: unreadable\n", 8),
    ("turn 0 100000\n", "line 1: idle\n", 8),
    ("turn  0\n", "line 1: unreadable\n", 8),
    ("turn 00\n", "line 1: unreadable\n", 8),
    ("restart 0\n", "line 1: unreadable\n", 8),
    ("row 1 pools\n", "line 1: unreadable\n", 8),
    ("row 1 pools \n", "datastore OR1 pools\n", 7),
    ("row 1 pools \njump\n", "line 2: unreadable\n", 8),
    ("row 1 pools {}", "datastore OR1 pools\n", 7),
    ("row 18446744073709551616 config {}\n", "line 1: unreadable\n", 8),
    (BASE.replace('"blockSize"', '"assignmentMode":"Automatic","blockSize"', 1), "datastore OR1 pools\n", 7),
    (POOLS + POOLS, "line 2: base\n", 8),
    (OWN + "turn 0\n", "datastore OR4 affinity/a/10.0.0.0/30\n", 7),
    (POOLS + OWN.split("\n", 1)[1], "datastore OR7 block/10.0.0.0/30\n", 7),
    (POOLS + OWN.split("\n", 1)[0] + "\n", "datastore OR8 affinity/a/10.0.0.0/30\n", 7),
    (POOLS + "counter 4611686018427387905\n", "datastore OR10 counter\n", 7),
    ("row 0 pools " + POOLS.split(" ", 3)[3], "datastore OR10 pools\n", 7),
    (HELD.replace("row 4 handle/n.c1", "row 5 handle/n.c2").replace('"n.c1"}\n', '"n.c2"}\n'), "datastore OR6 handle/n.c1\n", 7),
    ('begin 0 {"add":{"handle":"n.c1"}}\n', "line 1: unreadable\n", 8),
    ('begin 0 {"add":{"handle":"n.c1","ipv4":false,"node":"a"}}\n', "line 1: unreadable\n", 8),
]


DELETION = delete("n.c1") + "turn 0\n"
DELETED = """\
0 began {"del":{"handle":"n.c1"}}
0 called get handle/n.c1 well missing - {"deleted":{"k":1}}
"""

# What is written of these is said beside them too. `×N` is a line of so many bytes that has no line feed; a read gives
# at most 4,096 bytes.
FAILING = [
    ("Where read 1 fails.", "script read 1", DELETION, "read fault\n", 3),
    ("Where read 2 fails.", "script read 2", DELETION + "×12000", DELETED + "read fault\n", 3),
    ("Where read 3 fails.", "script read 3", DELETION + "×12000", DELETED + "read fault\n", 3),
    ("Where write 1 fails.", "script write 1", DELETION, "", 4),
    ("A line of as many bytes as there may be.", "script", "restart\n×1048576", "line 2: unreadable\n", 8),
    ("A line of one more.", "script", "restart\n×1048577", "line 2: long\n", 8),
]


def worked(script, lines):
    """What is written of the script, which has these lines."""
    journal, status = play(script)
    written = journal.splitlines()
    for place, line in lines.items():
        found = written[place]
        assert found.endswith(line) if line.startswith((" ", '"')) else found == line, (script, place, found)
    return script, journal, status


def long_scripts():
    """Scripts with long journals."""
    return [many_races(), many_claims(), *(text_of(number) for number in range(RANDOM))]


def encoded(script):
    """The lines of a scenario that make the script: `∎` ends a line that has no line feed, and `¶` is an empty one."""
    assert "\n= " not in script, script
    lines = script.split("\n")
    last = lines.pop()
    return "".join(f"{line or '¶'}\n" for line in lines) + (last if last.startswith("×") else last and last + "∎")


def scenario(title, way, script, text, status):
    """The way in which the script is played, with a title, then the script, the status and what is written, which are wanted."""
    made = encoded(script)
    ended = made if made.endswith("\n") or not made else made + "\n"
    return f"{title}\n{way}\n{ended}= {status}\n" + "".join(f"= {line}\n" for line in text.splitlines())


def failing_scenarios():
    return [scenario(*one).rstrip("\n") for one in FAILING]
