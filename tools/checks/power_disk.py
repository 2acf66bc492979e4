"""The files of a folder as a disk may have them after a power failure, by a record of power_record.c.

A write that a sync covered is on the disk. One that none covered may be there or not, whole or by sectors of 512
bytes, and later ones may be there without it. The length of a file may be that after any write since its last sync.
A name that was made, moved or removed since the last sync of the folder may be as before or after it. What a sync
covered that failed may be on the disk or not for ever after, since the system takes it for written: it is sure only
where the same sector is written once more and synced.
"""

import collections
import struct

SECTOR = 512
HEAD = struct.Struct("=IIiiqq")
WAYS = ("none", "all", "writes", "sectors", "moments", "torn")

Event = collections.namedtuple("Event", "what process file result place data")


def read_record(path):
    """The events of a record, in their order."""
    with open(path, "rb") as file:
        text = memoryview(file.read())
    events, at = [], 0
    while at + HEAD.size <= len(text):
        what, process, file, result, place, length = HEAD.unpack_from(text, at)
        at += HEAD.size
        events.append(Event(chr(what), process, file, result, place, text[at:at + length]))
        at += length
    return events


def sectors_of(place, size):
    return range(place // SECTOR, (place + size - 1) // SECTOR + 1) if size else range(0)


def piece_of(sector, place, data):
    """Where the part of a write that lies in a sector begins, and its bytes."""
    first, last = max(place, sector * SECTOR), min(place + len(data), (sector + 1) * SECTOR)
    return first, data[first - place:last - place]


def put(content, place, data):
    if len(content) < place + len(data):
        content.extend(bytes(place + len(data) - len(content)))
    content[place:place + len(data)] = data


def resize(content, length):
    if length < len(content):
        del content[length:]
    else:
        content.extend(bytes(length - len(content)))


class Change:
    """A write, or a new length where `data` is None. `length` is that of the file after it."""

    def __init__(self, place, data, length):
        self.place, self.data, self.length = place, data, length


class File:
    """What the disk surely has, what the program reads, and the changes between the two, in their order."""

    def __init__(self):
        self.disk, self.cache, self.pending, self.gone = bytearray(), bytearray(), [], 0
        self.doomed, self.lengths = {}, []

    def write(self, place, data):
        put(self.cache, place, data)
        self.pending.append(Change(place, data, len(self.cache)))

    def cut(self, length):
        resize(self.cache, length)
        self.pending.append(Change(length, None, length))

    def revive(self, sector):
        """The sector is as the program reads it, also where a sync of it failed."""
        if sector in self.doomed:
            put(self.disk, sector * SECTOR, self.doomed.pop(sector))

    def settle(self, count, but=None):
        """A sync covered so many of the changes. `but` is one that the disk lost all the same."""
        for number, change in enumerate(self.pending[:count]):
            if change.data is None:
                resize(self.disk, change.length)
            elif number != but:
                for sector in sectors_of(change.place, len(change.data)):
                    self.revive(sector)
                put(self.disk, change.place, change.data)
        if count:
            # (the file's length is that of the last change, also where a sync failed before)
            self.lengths = []
            resize(self.disk, self.pending[count - 1].length)
        self.drop(count)

    def drop(self, count):
        del self.pending[:count]
        self.gone += count

    def doom(self, count):
        """A sync of so many changes failed: the system no longer writes them, and still reads them."""
        for change in self.pending[:count]:
            self.lengths.append(change.length)
            for sector in sectors_of(change.place, len(change.data or b"")):
                start = sector * SECTOR
                whole = bytearray(self.doomed.get(sector, self.disk[start:start + SECTOR]))
                first, piece = piece_of(sector, change.place, change.data)
                put(whole, first - start, piece)
                self.doomed[sector] = bytes(whole)
        self.drop(count)

    def is_sure(self):
        return not (self.pending or self.doomed)

    def image(self, way, draw):
        """The file as the disk may have it."""
        made = File()
        made.disk, made.doomed = bytearray(self.disk), dict(self.doomed)
        kept = chosen(self.pending, way, draw)
        for number, change in enumerate(self.pending):
            if change.data is None:
                continue
            for sector in sectors_of(change.place, len(change.data)):
                if kept(number, sector):
                    made.revive(sector)
                    put(made.disk, *piece_of(sector, change.place, change.data))
        share = {"none": 0, "all": 1}.get(way, draw.random())
        for sector in list(made.doomed):
            if draw.random() < share:
                made.revive(sector)
        lengths = [len(self.disk), *self.lengths, *(change.length for change in self.pending)]
        resize(made.disk, {"none": lengths[0], "all": lengths[-1]}.get(way, draw.choice(lengths)))
        return bytes(made.disk)


def chosen(changes, way, draw):
    """Says of each sector of each change, by numbers, whether it is on the disk."""
    count = len(changes)
    if way in ("none", "all"):
        return lambda number, sector: way == "all"
    if way == "writes":
        coins = [draw.random() < 0.5 for _ in changes]
        return lambda number, sector: coins[number]
    if way == "sectors":
        return lambda number, sector: draw.random() < 0.5
    if way == "torn":
        last, share = draw.randrange(count + 1), draw.random()
        return lambda number, sector: number < last or number == last and draw.random() < share
    moments = {}
    return lambda number, sector: number < moments.setdefault(sector, draw.randrange(count + 1))


class Disk:
    """The folder. `lies` says of what a sync covered that it is not on the disk: `syncs` all of it, `write` one
    change now and then, drawn by `draw`."""

    def __init__(self, lies=None, draw=None):
        self.names, self.sure, self.pending, self.gone = {}, {}, [], 0
        self.opened, self.syncs = {}, {}
        self.lies, self.draw = lies, draw

    def play(self, event):
        """What the event does to the folder."""
        step = {"O": self.open, "C": self.close, "W": self.write, "T": self.cut, "s": self.begin_sync,
                "S": self.end_sync, "R": self.move, "U": self.remove}.get(event.what)
        if step:
            step(event)

    def open(self, event):
        name = bytes(event.data).decode()
        if name and event.result:
            self.name(name, File())
        if name and event.place:
            self.names[name].cut(0)
        self.opened[event.process, event.file] = self.names[name] if name else self

    def name(self, name, file):
        """The name is that of this file from now on, or of none."""
        self.pending.append((name, file))
        self.names.pop(name, None)
        if file is not None:
            self.names[name] = file

    def close(self, event):
        self.opened.pop((event.process, event.file), None)

    def write(self, event):
        self.opened[event.process, event.file].write(event.place, event.data)

    def cut(self, event):
        self.opened[event.process, event.file].cut(event.place)

    def begin_sync(self, event):
        synced = self.opened[event.process, event.file]
        self.syncs[event.process, event.file] = (synced, synced.gone + len(synced.pending))

    def end_sync(self, event):
        synced, last = self.syncs.pop((event.process, event.file))
        # (another sync of the same file may have ended meanwhile)
        count = max(last - synced.gone, 0)
        if event.result:
            synced.doom(count)
        elif self.lies == "write" and count and synced is not self and self.draw.random() < 0.05:
            synced.settle(count, but=self.draw.randrange(count))
        elif self.lies != "syncs":
            synced.settle(count)

    def settle(self, count):
        for name, file in self.pending[:count]:
            self.sure.pop(name, None)
            if file is not None:
                self.sure[name] = file
        del self.pending[:count]
        self.gone += count

    def doom(self, _count):
        """A sync of the folder failed: its names stay unsure."""

    def move(self, event):
        old, new = bytes(event.data).decode().split("/")
        file = self.names.get(old, File())
        if old:
            self.name(old, None)
        if new:
            self.name(new, file)

    def remove(self, event):
        self.name(bytes(event.data).decode(), None)

    def image(self, draw):
        """The files by their names, as the disk may have them, and the way in which that was drawn."""
        way = draw.choice(WAYS)
        names = dict(self.sure)
        kept = chosen(self.pending, way, draw)
        for number, (name, file) in enumerate(self.pending):
            if kept(number, 0):
                names.pop(name, None)
                if file is not None:
                    names[name] = file
        return {name: file.image(way, draw) for name, file in names.items()}, way
