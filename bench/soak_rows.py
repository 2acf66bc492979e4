"""The rows of a database file as a second reader has them: who owns what, and what is left over of counts."""

import json
import os
import shutil
import sqlite3
import sys
import tempfile
from pathlib import Path

TOOLS = Path(__file__).resolve().parents[1] / "tools"
sys.path += [str(TOOLS / "second"), str(TOOLS / "tables")]

from second_opening import first_fault  # noqa: E402
from second_records import Block, Cidr, address_text  # noqa: E402


def read(path):
    """The rows of a copy of the file and its log, by the bytes of their keys."""
    with tempfile.TemporaryDirectory() as folder:
        copy = os.path.join(folder, "copy.db")
        for end in ("", "-wal"):
            if os.path.exists(path + end):
                shutil.copyfile(path + end, copy + end)
        opened = sqlite3.connect(copy)
        rows = opened.execute("SELECT key, revision, body FROM rows").fetchall()
        opened.close()
    return sorted(rows, key=lambda row: row[0].encode())


class Rows:
    def __init__(self, rows):
        self.rows = rows
        self.fault = first_fault(rows)
        self.blocks = {key: Block(json.loads(body)) for key, _, body in rows if key.startswith("block/")}
        self.handles = {key: json.loads(body) for key, _, body in rows if key.startswith("handle/")}
        self.affinities = [json.loads(body) for key, _, body in rows if key.startswith("affinity/")]

    def size(self):
        """The bytes of all keys and bodies."""
        return sum(len(key.encode()) + len(body.encode()) for key, _, body in self.rows)

    def owners(self):
        """Address to handle."""
        return {
            address_text(block.cidr.family, block.cidr.base + ordinal): attributes["handle_id"]
            for block in self.blocks.values()
            for ordinal, (attributes, _) in block.held.items()
        }

    def owned(self):
        """How many addresses a handle has in a block, by both."""
        found = {}
        for block in self.blocks.values():
            for attributes, _ in block.held.values():
                pair = attributes["handle_id"], str(block.cidr)
                found[pair] = found.get(pair, 0) + 1
        return found

    def counted(self):
        """How many addresses a handle counts in a block, by both."""
        return {(body["handleID"], cidr): count for body in self.handles.values() for cidr, count in body["block"].items()}

    def excess(self):
        """The counts that are above what is owned: handle, block, count, owned."""
        owned = self.owned()
        counts = [(*pair, count, owned.get(pair, 0)) for pair, count in self.counted().items()]
        return sorted((one for one in counts if one[2] > one[3]), key=lambda one: (one[0].encode(), Cidr.read(one[1]).key()))

    def short(self):
        """The handles and blocks whose count is below what is owned."""
        counted = self.counted()
        return [pair for pair, owned in self.owned().items() if counted.get(pair, 0) < owned]

    def left_over(self, is_left_over):
        found = [(one["node"], one["cidr"]) for one in self.affinities if is_left_over(one)]
        return sorted(found, key=lambda one: (one[0].encode(), Cidr.read(one[1]).key()))

    def is_stray(self, affinity):
        block = self.blocks.get(f"block/{affinity['cidr']}")
        return affinity["state"] == "pending" and (block is None or block.node != affinity["node"])

    def report(self):
        """What an audit has to write."""
        lines = ["excess " + " ".join(str(part) for part in one) for one in self.excess()]
        lines += [f"stale {node} {cidr}" for node, cidr in self.left_over(lambda one: one["state"] == "pendingDeletion")]
        lines += [f"stray {node} {cidr}" for node, cidr in self.left_over(self.is_stray)]
        lines.append(f"blocks {len(self.blocks)} owners {len(self.owners())} handles {len(self.handles)}")
        return "".join(line + "\n" for line in lines)

    def listing(self):
        """What `get` has to write."""
        return "".join(f"{key} {revision} {body}\n" for key, revision, body in self.rows)
