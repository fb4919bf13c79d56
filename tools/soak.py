#!/usr/bin/env python3
"""Runs random scripts of many lanes on random pools, and judges what is reported and written.

    tools/soak.py [--seconds N] [--seed N] [--program PATH] [--lanes N] [--plain]
                  [--keep-in FOLDER]
    tools/soak.py --selftest

The judge is a plain model, written for this purpose alone: it replays the calls of the report one
after another, and shares no code with the program. A difference ends the run with status 1, and
the case's files stand in a folder that is named. `--plain` takes only what a program of one lane
knows: begin, not nested, add, write, read, commit, set, publish and cancel on lane 0. `--selftest`
runs no program: it hands wrong reports and pools to the judge, which must refuse each.
tools/rehearsal.py tries the judge on many lanes of a stand-in.

What the judge does not know: which of the lanes that could hold a busy lock did, and whether the
survivors are those that the keep number chooses. One difference is no fault of the program: where
the undo record of an unanswered `add` is torn and has a true sum by chance (README.md, known
defects), its words come back.
"""
import argparse
import random
import re
import shutil
import struct
import subprocess
import sys
import tempfile
import time
from collections import Counter
from pathlib import Path

LAYOUT = "soak"
MAGIC = int.from_bytes(b"PMOBPOOL", "little")
TOP = 2 ** 64
LAST_GENERATION = 2 ** 62
ROOT_WORD = 512
PAGE, LINE, AREA, ZONE = 4096, 64, 8192, 266240
BLOCKS = {2: 31, 3: 21, 4: 15, 5: 12, 7: 9, 9: 7, 15: 4, 31: 2}
MOST_RECORDS, MOST_ENTRIES, MOST_PENDING, MOST_LOCKS, MOST_LEVELS = 64, 64, 63, 64, 64
MOST_CHANGES = 512
# The bytes of one line of a script.
MOST_BYTES = 4096
# A run that has not ended by then counts as a difference.
LONGEST_RUN = 120


class Difference(Exception):
    """What is wrong with a report or a pool."""


def must(holds, text):
    """Nothing, where it holds; else the difference that the text says."""
    if not holds:
        raise Difference(text)


# Pools


def sum64(words):
    """The sum of words by their halves."""
    low = high = 0
    for word in words:
        for half in (word & 0xFFFFFFFF, word >> 32):
            low = (low + half) % 2 ** 32
            high = (high + low) % 2 ** 32
    return high << 32 | low


def lane_at(lane):
    """The place of a lane's area."""
    return PAGE + AREA * lane


class Shape:
    """How many lanes and zones a pool has."""

    def __init__(self, lanes, zones):
        self.lanes, self.zones = lanes, zones
        self.bytes = PAGE + AREA * lanes + ZONE * zones

    def chunk_at(self, zone, chunk):
        """The place of a chunk."""
        return lane_at(self.lanes) + ZONE * zone + PAGE * (chunk + 1)

    def can_begin(self, off):
        """Whether a block of some class can begin one line before this offset."""
        place = off - LINE - lane_at(self.lanes)
        zone, place = divmod(place, ZONE)
        if not 0 <= zone < self.zones or place < PAGE or place % LINE:
            return False
        line = place % PAGE // LINE
        return line == 0 or any(
            (line - 1) % lines == 0 and (line - 1) // lines < count
            for lines, count in BLOCKS.items()
        )


def class_of(size):
    """The lines of a block for so many bytes, and its chunks: one of both is 0."""
    lines = 1 + -(-size // LINE)
    for known in BLOCKS:
        if lines <= known:
            return known, 0
    return 0, -(-lines // 64)


class Item:
    """An object: its type, its bytes and its four link words."""

    def __init__(self, kind, data, links=(0, 0, 0, 0)):
        self.kind, self.data, self.links = kind, data, links

    def __eq__(self, other):
        return (self.kind, self.data, self.links) == (other.kind, other.data, other.links)


class Image:
    """The bytes of a pool, read by words."""

    def __init__(self, data):
        self.data = bytearray(data)
        self.shape = Shape(self.word(24), self.word(32))
        must(len(data) == self.shape.bytes, "the pool's length is not that of its header")

    def word(self, place):
        return int.from_bytes(self.data[place:place + 8], "little")

    def set(self, place, value):
        must(place % 8 == 0 and place + 8 <= len(self.data), f"{place} is no word's place")
        self.data[place:place + 8] = value.to_bytes(8, "little")

    def words(self, place, count):
        return list(struct.unpack_from(f"<{count}Q", self.data, place))

    def seal(self, lane):
        """How many entries the lane's log has, 0 where it is not sealed."""
        return self.word(lane_at(lane) + 8)

    def entries(self, lane):
        """The entries of a sealed log: place, operation and value."""
        flat = self.words(lane_at(lane) + LINE, 2 * self.seal(lane))
        return [(at & ~7, at & 7, value) for at, value in zip(flat[::2], flat[1::2])]

    def generation(self, lane):
        """What a sealed lane's last entry sets, else the generation word."""
        return self.entries(lane)[-1][2] if self.seal(lane) else self.word(lane_at(lane))

    def slots(self, lane):
        """The words of each undo slot."""
        return [self.words(lane_at(lane) + LINE * (17 + slot), 8) for slot in range(64)]

    def records(self, lane):
        """The valid undo slots."""
        generation = self.generation(lane)
        return [s for s in self.slots(lane) if s[0] == generation and s[7] == sum64(s[:7])]

    def generation_opened(self, lane):
        """The generation with which a lane begins once the pool is opened."""
        generation = self.generation(lane)
        if self.seal(lane):
            return generation
        is_torn = any(s[7] != sum64(s[:7]) for s in self.slots(lane))
        return generation + bool(self.records(lane) or is_torn and generation < LAST_GENERATION)

    def recovered(self):
        """The image with each word outside of the lanes' areas as recovery leaves it."""
        after = Image(self.data)
        for lane in range(self.shape.lanes):
            must(self.seal(lane) <= MOST_ENTRIES, f"lane {lane} has a seal above 64")
            if self.seal(lane) == 0:
                for record in self.records(lane):
                    must(1 <= record[2] <= 4, f"lane {lane} has a record of no words")
                    for i in range(record[2]):
                        after.set(record[1] + 8 * i, record[3 + i])
        # A word with an entry has no valid record, or the pool has a fault.
        for lane in range(self.shape.lanes):
            for place, operation, value in self.entries(lane):
                must(operation < 3, f"lane {lane} has an entry of no operation")
                if operation == 1:
                    value |= after.word(place)
                elif operation == 2:
                    value &= after.word(place)
                after.set(place, value)
        return after

    def objects(self):
        """The object at each offset, of an image that was recovered."""
        found = {}
        for zone in range(self.shape.zones):
            for chunk in range(64):
                descriptor = self.word(self.shape.chunk_at(zone, 0) - PAGE + 8 * chunk)
                place = self.shape.chunk_at(zone, chunk)
                if descriptor & 255 == 1:
                    lines = descriptor >> 8
                    bits = self.word(place)
                    blocks = [place + LINE * (1 + lines * i) for i in range(64) if bits >> i & 1]
                else:
                    must(descriptor & 255 in (0, 2), f"chunk {zone} {chunk} has no descriptor")
                    blocks = [place] if descriptor & 255 == 2 else []
                for block in blocks:
                    kind, size, *links = self.words(block, 6)
                    data = bytes(self.data[block + LINE:block + LINE + size])
                    must(len(data) == size, f"the object at {block + LINE} passes the pool's end")
                    found[block + LINE] = Item(kind, data, tuple(links))
        return found


def dump_text(objects, root):
    """What `dump` prints of a pool without lists."""
    lines = [f"root {root or 'none'}"]
    for off in sorted(objects):
        item = objects[off]
        lines.append(f"object {off} type {item.kind} size {len(item.data)}")
        for at in range(0, len(item.data), 16):
            piece = item.data[at:at + 16]
            if any(piece):
                lines.append(f"data {at} {piece.hex()}")
    return "\n".join(lines) + "\n"


def header_page(shape, pool):
    """The first page of a pool with this id, without a root."""
    name = struct.unpack("<8Q", LAYOUT.encode().ljust(LINE, b"\0"))
    head = [MAGIC, 1, pool, shape.lanes, shape.zones, shape.bytes, sum64(name)]
    pair = struct.pack("<16Q", *head, sum64(head), *name)
    return (pair.ljust(2048, b"\0") + pair).ljust(PAGE, b"\0")


def make_pool(rng, lanes):
    """A pool of its own making: some objects of random bytes, one of them the root or none."""
    shape = Shape(lanes, rng.choice([1, 1, 1, 2]))
    image = Image(header_page(shape, rng.choice([1, 7, TOP - 1])).ljust(shape.bytes, b"\0"))
    for lane in range(lanes):
        near = [LAST_GENERATION - 2, LAST_GENERATION - 1, LAST_GENERATION]
        usual = [1, 1, rng.randrange(1, 999)]
        image.set(lane_at(lane), rng.choice(near if rng.random() < 0.03 else usual))
    chunk, offs = rng.randrange(8), []
    for _ in range(rng.choice([1, 1, 2, 3])):
        size = rng.choice([8, 64, 64, 100, 200, 900, 1920, 1921, 6000])
        lines, chunks = class_of(size)
        zone = rng.randrange(shape.zones)
        place = shape.chunk_at(zone, chunk)
        descriptor = 1 + 256 * lines if lines else 2 + 256 * chunks
        image.set(shape.chunk_at(zone, 0) - PAGE + 8 * chunk, descriptor)
        count = min(rng.choice([1, 1, 2, 4]), BLOCKS[lines]) if lines else 1
        for i in rng.sample(range(BLOCKS[lines]), count) if lines else [None]:
            block = place if i is None else place + LINE * (1 + lines * i)
            if i is not None:
                image.set(place, image.word(place) | 1 << i)
            less = rng.randrange(min(56, size)) if rng.random() < 0.3 else 0
            own = size - less if class_of(size - less) == (lines, chunks) else size
            image.set(block, rng.choice([0, 5, TOP - 1]))
            image.set(block + 8, own)
            image.data[block + LINE:block + LINE + own] = rng.randbytes(own)
            offs.append(block + LINE)
        chunk += max(1, chunks) + rng.randrange(3)
    if rng.random() < 0.8:
        image.set(ROOT_WORD, rng.choice(offs))
    return bytes(image.data)


# Scripts


class Line:
    """A script line: its number and its words."""

    def __init__(self, number, words):
        self.number, self.words = number, words


class Call:
    """The lines of one numbered call, a whole transaction or a line outside of one."""

    def __init__(self, lines):
        self.lines = lines
        self.first, self.last = lines[0].number, lines[-1].number
        self.is_transaction = lines[0].words[0] == "begin"
        named = {word.removeprefix("r:") for line in lines for word in line.words[1:]}
        self.names_root = "root" in named


def calls_of(script):
    """The calls of each lane of a script that has no bad line, and how many lanes are opened."""
    calls, open_lines, level = {}, {}, Counter()
    lane = opened = 0
    for number, text in enumerate(script.split("\n"), 1):
        words = text.split()
        if not words or words[0].startswith("#"):
            continue
        if words[0] == "lane":
            lane = int(words[1])
            opened = max(opened, lane + 1)
            continue
        open_lines.setdefault(lane, []).append(Line(number, words))
        level[lane] += {"begin": 1, "commit": -1, "abort": -1}.get(words[0], 0)
        if level[lane] == 0:
            calls.setdefault(lane, []).append(Call(open_lines.pop(lane)))
    return calls, max(1, opened)


class Writer:
    """Writes the lines of one lane, most of them such as are not refused."""

    def __init__(self, rng, objects, root, shape, plain):
        self.rng, self.objects, self.root, self.plain = rng, objects, root, plain
        self.offs = sorted(objects)
        self.shape = shape
        self.lines, self.pending = [], []

    def name(self, off):
        return "root" if off == self.root and self.rng.random() < 0.7 else str(off)

    def any_id(self):
        """The name of an object, and rarely of none."""
        rng = self.rng
        if rng.random() < 0.96:
            return self.name(rng.choice(self.offs))
        near = rng.choice(self.offs) + rng.choice([64, 128, 8, 4096])
        line = LINE * rng.randrange(self.shape.bytes // LINE)
        return rng.choice(["root", "0", str(near), str(line), str(TOP - 64)])

    def span(self, off):
        """A range of an object, rarely past its end."""
        rng, size = self.rng, len(self.objects[off].data)
        most = rng.choice([8, 8, 16, 64, 300, MOST_BYTES])
        if rng.random() < 0.03:
            return size - rng.randrange(min(size, 8)), rng.choice([9, 64])
        at = rng.choice([0, 8 * rng.randrange(1 + size // 8), rng.randrange(size)])
        return min(at, size), rng.randrange(1 + min(most, size - min(at, size)))

    def transaction(self):
        """The lines of a transaction: ranges are added before they are written, mostly."""
        rng, held, added = self.rng, {}, []
        levels = 1
        self.lines.append(self.begin(held))
        for _ in range(rng.choice([0, 1, 2, 3, 5, 8])):
            choice = rng.random()
            if choice < 0.06 and not self.plain:
                self.lines.append(self.begin(held) if rng.random() < 0.5 else "begin")
                levels += 1
            elif choice < 0.12 and levels > 1:
                self.lines.append(self.close())
                levels -= 1
            elif choice < 0.24 and not self.plain:
                # A lock that is held for reading is raised, half of the time.
                read = [off for off in held if not held[off]]
                off = rng.choice(read if read and rng.random() < 0.5 else self.offs)
                kind = "lock" if off in read else rng.choice(["lock", "lockr"])
                held[off] = kind == "lock" or held.get(off, False)
                name = self.name(off) if rng.random() < 0.95 else self.any_id()
                self.lines.append(f"{kind} {name}")
            elif choice < 0.36:
                self.lines.append(self.action(held))
            elif held or rng.random() < 0.05:
                self.access(held, added)
        self.lines += [self.close() for _ in range(levels)]

    def begin(self, held):
        rng, words = self.rng, ["begin"]
        if rng.random() < 0.01:
            # Blocks can begin at these 65 offsets.
            chunks = [self.shape.chunk_at(0, chunk) for chunk in (5, 6, 7)]
            offs = [chunk + 2 * LINE * i for chunk in chunks for i in range(1, 31)]
            return " ".join(["begin", *map(str, offs[:65])])
        for off in rng.sample(self.offs, min(len(self.offs), rng.choice([0, 1, 1, 1, 2, 3]))):
            for_write = rng.random() < 0.75
            held[off] = for_write or held.get(off, False)
            words.append(("" if for_write else "r:") + self.name(off))
        if rng.random() < 0.03:
            words.append(self.any_id())
        return " ".join(words)

    def close(self):
        if not self.plain and self.rng.random() < 0.15:
            return f"abort {self.rng.choice([0, 7, 2 ** 32 - 1])}"
        return "commit"

    def access(self, held, added):
        """A read, an add, or a write or increment of what was added."""
        rng = self.rng
        writable = [off for off in held if held[off]]
        choice = rng.random()
        offs = list(held) if choice < 0.3 or not writable else writable
        off = rng.choice(offs if offs and rng.random() < 0.98 else self.offs)
        at, length = self.span(off)
        if choice < 0.3 or not writable and rng.random() < 0.95:
            self.lines.append(f"read {self.name(off)} {at} {max(1, length)}")
            return
        if choice < 0.6 or not added or rng.random() < 0.03:
            if rng.random() < 0.02:
                at, length = 0, len(self.objects[off].data)
            self.lines.append(f"add {self.name(off)} {at} {length}")
            added.append((off, at, length))
            return
        off, at, length = rng.choice(added)
        if length >= 8 and not self.plain and rng.random() < 0.6:
            by = rng.choice([1, 5, TOP - 1, rng.randrange(TOP)])
            self.lines.append(f"inc {self.name(off)} {at + rng.randrange(length - 7)} {by}")
            return
        fore = rng.randrange(max(1, length))
        data = rng.randbytes(max(1, rng.randrange(min(length - fore, MOST_BYTES) + 1)))
        self.lines.append(f"write {self.name(off)} {at + fore} {data.hex()}")

    def action(self, held=None):
        """A set, a publish or a cancel; `held` are the locks where a transaction is open."""
        rng = self.rng
        writable = [off for off in held or [] if held[off]]
        is_refused = held is not None and not set(self.pending) <= set(writable)
        if rng.random() < 0.65:
            offs = writable if writable and rng.random() < 0.9 else self.offs
            off = rng.choice(offs)
            at = 8 * rng.randrange(max(1, len(self.objects[off].data) // 8))
            if rng.random() < 0.05:
                at += rng.choice([1, 4096])
            self.pending.append(off)
            name = self.name(off) if rng.random() < 0.98 else self.any_id()
            return f"set {name} {at} {rng.choice([0, 42, rng.randrange(TOP)])}"
        if is_refused and rng.random() < 0.9:
            return self.action(held) if rng.random() < 0.5 else self.close_actions("cancel")
        return self.close_actions(rng.choice(["publish", "publish", "publish", "cancel"]))

    def close_actions(self, word):
        """A publish or a cancel, after which nothing is pending, mostly."""
        self.pending = []
        return word

    def many_sets(self):
        """More sets than can be pending, or in a transaction that publishes too many."""
        off = self.rng.choice(self.offs)
        sets = [f"set {self.name(off)} 0 {value}" for value in range(self.rng.choice([40, 65]))]
        if self.rng.random() < 0.5:
            return [*sets, "publish"]
        return [f"begin {self.name(off)}", *sets, "publish", *sets, "publish", "commit"]

    def write(self):
        """The lines of one to seven calls."""
        for _ in range(self.rng.choice([1, 1, 2, 3, 4, 7])):
            if self.rng.random() < 0.7:
                self.transaction()
            elif self.rng.random() < 0.05:
                self.lines += self.many_sets()
            elif self.rng.random() < 0.02 and not self.plain:
                self.lines += ["begin"] * 66 + ["commit"] * 66
            else:
                self.lines.append(self.action())
        return self.lines


def make_script(rng, image, lanes, plain):
    """A script of these lanes: each lane's lines in order, in sections of any length."""
    opened = image.recovered()
    objects, root = opened.objects(), opened.word(ROOT_WORD)
    if rng.random() < 0.5:
        # Few objects, so that lanes meet.
        objects = {off: objects[off] for off in rng.sample(sorted(objects), min(2, len(objects)))}
    left = {k: Writer(rng, objects, root, image.shape, plain).write() for k in lanes}
    text, last = [], None
    while any(left.values()):
        lane = rng.choice([k for k in left if left[k]])
        if lane != last or rng.random() < 0.02:
            text.append(f"lane {lane}")
            last = lane
        for _ in range(rng.choice([1, 3, 9, 99])):
            if left[lane]:
                text.append(left[lane].pop(0))
        if rng.random() < 0.05:
            text.append(rng.choice(["", "# a comment", "   "]))
    return "\n".join(text) + rng.choice(["", "\n"])


# The model


class LaneMemory:
    """The changes of a lane that are not drained, and how many calls it made that count."""

    def __init__(self):
        self.changes, self.calls = [], 0

    def store(self, place):
        if len(self.changes) == MOST_CHANGES:
            self.persist()
        self.changes.append([place // LINE, False])
        self.calls += 1

    def flush(self, line):
        fresh = [change for change in self.changes if change == [line, False]]
        for change in fresh:
            change[1] = True
        self.calls += bool(fresh)

    def drain(self):
        self.calls += bool(self.changes)
        self.changes = [change for change in self.changes if not change[1]]

    def persist(self):
        """A flush of each line with a change that was not flushed, and a drain."""
        for line in sorted({line for line, flushed in self.changes if not flushed}):
            self.flush(line)
        self.drain()

    def store_and_persist(self, place):
        self.store(place)
        self.flush(place // LINE)
        self.drain()


class Run:
    """What the model makes of a call: its fate and values where it is answered, the writes by
    offset and bytes, and how many counted calls it has made where it takes its number, where it is
    decided, and at its end."""

    def __init__(self):
        self.memory = LaneMemory()
        self.fate, self.values, self.writes = "done", [], []
        self.needs_deciding, self.raises = False, False
        self.drawn = self.decided = 0

    @property
    def total(self):
        return self.memory.calls

    def say(self, line, value):
        self.values.append(f" {line.number}={value}")

    def commit(self, lane, entries, has_records):
        """The counted calls of a commit or publish with entries at these places."""
        memory, area = self.memory, lane_at(lane)
        memory.persist()
        count = len(entries) + 1
        if entries:
            for i in range(2 * count):
                memory.store(area + LINE + 8 * i)
            memory.persist()
        self.drawn = memory.calls
        if entries:
            memory.store_and_persist(area + 8)
        elif has_records:
            memory.store_and_persist(area)
        self.decided = memory.calls
        if entries:
            for place in [*entries, area]:
                memory.store(place)
            memory.persist()
            memory.store_and_persist(area + 8)
        self.needs_deciding = self.raises = bool(entries or has_records)


class Pool:
    """The plain pool: the bytes of each object, and the root."""

    def __init__(self, image):
        opened = image.recovered()
        self.shape = image.shape
        self.objects = opened.objects()
        self.root = opened.word(ROOT_WORD)
        self.bytes = {off: bytearray(item.data) for off, item in self.objects.items()}

    def offset(self, name):
        """The offset that an ID stands for, 0 for the null id."""
        return self.root if name == "root" else int(name)

    def apply(self, writes):
        for off, at, data in writes:
            self.bytes[off][at:at + len(data)] = data

    def has_room(self, off, at, length):
        return at + length <= len(self.bytes[off])


class Lane:
    """A lane between its calls."""

    def __init__(self, number, calls, generation):
        self.number, self.calls, self.generation = number, calls, generation
        self.next, self.counted, self.pending = 0, 0, []
        self.open = None

    def call(self):
        """The call that comes next, or none."""
        return self.calls[self.next] if self.next < len(self.calls) else None


def actions_refusal(pool, pending):
    """What refuses a publish whose locks are held: each check over all actions before the next."""
    if any(off not in pool.bytes for off, _, _ in pending):
        return "NoObject"
    if any(not pool.has_room(off, at, 8) for off, at, _ in pending):
        return "OutOfRange"
    return None


def writes_of(pending):
    return [(off, at, value.to_bytes(8, "little")) for off, at, value in pending]


def set_action(pool, pending, words):
    """A set: what refuses it, and what is pending after it."""
    off, at, value = pool.offset(words[1]), int(words[2]), int(words[3])
    if at % 8:
        return "Unaligned", pending
    if len(pending) == MOST_PENDING:
        return "ActionsFull", pending
    return None, [*pending, (off, at, value)]


def run_outside(pool, lane):
    """The run of a call that is one line, and what is pending after it."""
    run, line = Run(), lane.call().lines[0]
    pending, refusal = lane.pending, None
    word = line.words[0]
    if word == "set":
        refusal, pending = set_action(pool, pending, line.words)
    elif word == "cancel":
        pending = []
    else:
        refusal = actions_refusal(pool, pending)
        if refusal is None:
            if pending:
                run.commit(lane.number, [off + at for off, at, _ in pending], False)
            run.writes, pending = writes_of(pending), []
    if refusal:
        run.fate = f"refused {refusal}"
    return run, pending


class Transaction:
    """A transaction at work: its levels, locks, records and what it wrote."""

    def __init__(self, pool, lane, busy_at):
        self.pool, self.lane, self.busy_at = pool, lane, busy_at
        self.run = Run()
        self.level, self.held, self.recorded = 0, {}, []
        self.records, self.entries = 0, []
        self.pending = lane.pending
        self.bytes = {}

    def own(self, off):
        """The bytes of an object as this transaction sees them."""
        return self.bytes.setdefault(off, bytearray(self.pool.bytes[off]))

    def locks(self, line, wants):
        """What refuses the locks: of each offset, whether it is wanted for writing."""
        asked = {}
        for off, for_write in wants:
            asked[off] = asked.get(off, False) or for_write
        placed = {off for off in asked if self.pool.shape.can_begin(off)}
        if len(placed | set(self.held)) > MOST_LOCKS:
            return "LocksFull"
        if len(placed) < len(asked):
            return "NoObject"
        if self.busy_at == line.number:
            taken = [off for off in asked if self.held.get(off) is not True
                     and (asked[off] or off not in self.held)]
            must(taken, f"line {line.number} takes no lock that can be busy")
            self.busy_wants = {off: asked[off] for off in taken}
            return "Busy"
        if any(off not in self.pool.bytes for off in asked):
            return "NoObject"
        for off, for_write in asked.items():
            self.held[off] = self.held.get(off, False) or for_write
        return None

    def words_of(self, off, at, length):
        """The places of the words that a range covers."""
        return range((off + at) // 8 * 8, off + at + length, 8) if length else range(0)

    def begin(self, line):
        if self.level == MOST_LEVELS:
            return "Deep"
        refusal = self.locks(line, requests(self.pool, line))
        if refusal is None or self.level == 0:
            self.level += 1
        return refusal

    def lock(self, line):
        return self.locks(line, requests(self.pool, line))

    def looks(self, off, at, length, for_write):
        """What refuses an access to a range."""
        if off not in self.held or for_write and not self.held[off]:
            return "NotLocked"
        return None if self.pool.has_room(off, at, length) else "OutOfRange"

    def add(self, line):
        off, at, length = self.pool.offset(line.words[1]), *map(int, line.words[2:])
        refusal = self.looks(off, at, length, True)
        if refusal:
            return refusal
        records = []
        for place in self.words_of(off, at, length):
            if place in self.recorded_set:
                continue
            if records and len(records[-1]) < 4 and records[-1][-1] + 8 == place:
                records[-1].append(place)
            else:
                records.append([place])
        if self.records + len(records) > MOST_RECORDS:
            return "LogFull"
        for record in records:
            slot = lane_at(self.lane.number) + LINE * (17 + self.records)
            for i in range(8):
                self.run.memory.store(slot + 8 * i)
            self.run.memory.flush(slot // LINE)
            self.records += 1
            self.recorded += record
        if records:
            self.run.memory.drain()
        return None

    @property
    def recorded_set(self):
        return set(self.recorded)

    def put(self, off, at, data):
        """What refuses a write of these bytes, which it makes where nothing does."""
        refusal = self.looks(off, at, len(data), True)
        if refusal:
            return refusal
        places = self.words_of(off, at, len(data))
        if not self.recorded_set.issuperset(places):
            return "NotAdded"
        for place in places:
            self.run.memory.store(place)
        self.own(off)[at:at + len(data)] = data
        return None

    def write(self, line):
        _, name, at, data = line.words
        return self.put(self.pool.offset(name), int(at), bytes.fromhex(data))

    def read(self, line):
        off, at, length = self.pool.offset(line.words[1]), *map(int, line.words[2:])
        refusal = self.looks(off, at, length, False)
        if refusal is None:
            self.run.say(line, bytes(self.own(off)[at:at + length]).hex())
        return refusal

    def inc(self, line):
        off, at, by = self.pool.offset(line.words[1]), *map(int, line.words[2:])
        refusal = self.looks(off, at, 8, False)
        if refusal:
            return refusal
        value = (int.from_bytes(self.own(off)[at:at + 8], "little") + by) % TOP
        refusal = self.put(off, at, value.to_bytes(8, "little"))
        if refusal is None:
            self.run.say(line, value)
        return refusal

    def set(self, line):
        """A set: its refusal does not abort, so its line gives it as a value."""
        refusal, self.pending = set_action(self.pool, self.pending, line.words)
        if refusal:
            self.run.say(line, refusal)
        return None

    def cancel(self, _line):
        self.run.memory.persist()
        self.pending = []
        return None

    def publish(self, _line):
        if any(not self.held.get(off) for off, _, _ in self.pending):
            return "NotLocked"
        refusal = actions_refusal(self.pool, self.pending)
        if refusal:
            return refusal
        if len(self.entries) + len(self.pending) + 1 > MOST_ENTRIES and self.pending:
            return "ActionsFull"
        self.entries, self.pending = self.entries + self.pending, []
        return None

    def abort(self, line, error):
        """The roll-back, and the fate."""
        memory, area = self.run.memory, lane_at(self.lane.number)
        if self.records:
            for place in self.recorded:
                memory.store(place)
            memory.persist()
            memory.store_and_persist(area)
        else:
            memory.persist()
        self.run.raises = bool(self.records)
        self.run.drawn = self.run.decided = memory.calls
        self.run.fate = f"aborted {error} at {line.number}"

    def commit(self):
        """The outermost commit, and what it writes."""
        self.run.commit(self.lane.number, [off + at for off, at, _ in self.entries], self.records)
        writes = [(off, 0, bytes(data)) for off, data in self.bytes.items()]
        self.run.writes = writes + writes_of(self.entries)

    def whole(self):
        """Runs all lines of the lane's call."""
        call = self.lane.call()
        steps = {"begin": self.begin, "lock": self.lock, "lockr": self.lock, "add": self.add,
                 "write": self.write, "read": self.read, "inc": self.inc, "set": self.set,
                 "cancel": self.cancel, "publish": self.publish}
        for line in call.lines:
            word = line.words[0]
            if word == "abort":
                error = int(line.words[1]) or "ECANCELED"
            elif word == "commit":
                self.level -= 1
                error = None
            else:
                error = steps[word](line)
            if error:
                self.abort(line, error)
                return
        self.commit()


def run_call(pool, lane, busy_at=None):
    """The run of the lane's next call, what is pending after it, and the locks that were busy."""
    if not lane.call().is_transaction:
        return (*run_outside(pool, lane), {})
    transaction = Transaction(pool, lane, busy_at)
    transaction.busy_wants = {}
    transaction.whole()
    return transaction.run, transaction.pending, transaction.busy_wants


def requests(pool, line):
    """The locks that a line asks for: each offset, and whether for writing."""
    word, *names = line.words
    if word not in ("begin", "lock", "lockr"):
        return []
    return [(pool.offset(name.removeprefix("r:")), word != "lockr" and not name.startswith("r:"))
            for name in names]


def locks_asked(pool, call, pending):
    """The locks that a call may hold: for each offset, whether for writing."""
    asked = {}
    if not call.is_transaction:
        return {off: True for off, _, _ in pending} if call.lines[0].words[0] == "publish" else {}
    for line in call.lines:
        for off, for_write in requests(pool, line):
            asked[off] = asked.get(off, False) or for_write
    return asked


def collide(wants, others):
    return any(off in others and (wants[off] or others[off]) for off in wants)


# The judge


ENTRY = re.compile(r"(\d+) lane (\d+) lines (\d+)-(\d+) (.*)")
BUSY = re.compile(r"aborted Busy at (\d+)\b")
END = re.compile(r"lane (\d+) (?:(ended)|stopped after (\d+) calls|spent at line (\d+))")


class Case:
    """What a run is given."""

    def __init__(self, pool, script, stops, keep, layout=LAYOUT):
        self.pool, self.script = pool, script
        self.stops, self.keep, self.layout = stops, keep, layout

    def words(self):
        words = ["--layout", self.layout, "--keep", str(self.keep)]
        if self.stops:
            words += ["--stops", ",".join(f"{k}:{n}" for k, n in self.stops.items())]
        return words


class Answer:
    """What a run gave: its status, its report, the pool that it wrote, and what `check` and `dump`
    print of that pool; nothing of a part that is not judged."""

    def __init__(self, status, report, written, check=None, dump=None):
        self.status, self.report, self.written = status, report, written
        self.check, self.dump = check, dump


class Judge:
    """Replays the report of one case."""

    def __init__(self, case, answer):
        self.case, self.answer = case, answer
        self.image = Image(case.pool)
        self.pool = Pool(self.image)
        calls, self.opened = calls_of(case.script)
        self.lanes = [
            Lane(k, calls.get(k, []), self.image.generation_opened(k))
            for k in range(min(self.opened, self.image.shape.lanes))
        ]
        # Of each lane, the numbers and locks of its entries; and the entries that were busy.
        self.held = {k: [] for k in range(self.opened)}
        self.busy = []
        self.fates = Counter()

    def refusal(self):
        """What is printed where the pool can't be opened as asked, or nothing."""
        kept = self.image.shape.lanes
        if self.case.layout != LAYOUT:
            return f"refused Layout asked {self.case.layout} kept {LAYOUT}\n"
        return f"refused Lanes asked {self.opened} kept {kept}\n" if self.opened > kept else None

    def whole(self):
        """Judges all: ends with a Difference where one is found."""
        refusal = self.refusal()
        if refusal:
            must(self.answer.status == 1, f"status {self.answer.status} and not 1")
            must(self.answer.report == refusal, f"not printed: {refusal.strip()}")
            must(self.answer.written is None, "a pool was written")
            self.fates["refused open"] += 1
            return
        must(self.answer.status == 0, f"status {self.answer.status} and not 0")
        must(self.answer.report.endswith("\n"), "the report does not end with a line feed")
        lines = self.answer.report[:-1].split("\n")
        ends = lines[-self.opened:]
        for number, text in enumerate(lines[:-self.opened], 1):
            self.entry(number, text)
        must(len(ends) == self.opened, "a lane has no line of its end")
        self.judge_busy()
        stopped = [self.end(lane, text) for lane, text in zip(self.lanes, ends)]
        self.fates["stopped at a lock"] += stopped.count("waited")
        if any(stopped):
            must("counted" in stopped, "lanes stopped, and none at its stop number")
        self.judge_image()

    def entry(self, number, text):
        """Replays an entry, whose line must be what the model prints of it."""
        parts = ENTRY.fullmatch(text)
        must(parts and int(parts[1]) == number, f"no entry {number}: {text}")
        must(int(parts[2]) < self.opened, f"no such lane: {text}")
        lane, rest = self.lanes[int(parts[2])], parts[5]
        call = lane.call()
        must(call and lane.open is None, f"the lane has no further call: {text}")
        must(lane.generation < LAST_GENERATION, f"the lane is spent: {text}")
        busy = BUSY.match(rest)
        run, pending, wants = run_call(self.pool, lane, int(busy[1]) if busy else None)
        fate = rest.split(" ")[0]
        is_open = fate in ("kept", "lost")
        if is_open:
            must(run.fate == "done" and run.needs_deciding, f"it can't be {fate}: {text}")
        else:
            fate = run.fate
        root = f" root={self.pool.root}" if call.names_root and fate != "lost" else ""
        wanted = (f"{number} lane {lane.number} lines {call.first}-{call.last} {fate}{root}"
                  f"{''.join(run.values)}")
        must(text == wanted, f"printed: {text}\nthe model: {wanted}")
        if wants:
            self.busy.append((number, lane.number, wants, text))
        self.held[lane.number].append((number, locks_asked(self.pool, call, lane.pending)))
        if fate == "done" or fate == "kept":
            self.pool.apply(run.writes)
        lane.pending = pending
        if fate != "lost":
            lane.generation += run.raises
        if is_open:
            lane.open = (fate, run)
        else:
            lane.counted += run.total
        lane.next += 1
        self.fates[" ".join(fate.split(" ")[:2])] += 1

    def others(self, number):
        """Of each call of the other lanes, one that was not answered too, the numbers between
        which it may be at work, of which the last may be none, and its locks."""
        for k, entries in self.held.items():
            if k == number:
                continue
            lane = self.lanes[k]
            last = lane.call()
            ends = [*entries, (None, locks_asked(self.pool, last, lane.pending) if last else {})]
            earlier = 0
            for i, (own, locks) in enumerate(ends):
                later = ends[i + 1][0] if i + 1 < len(ends) else None
                yield earlier, later, locks
                earlier = own

    def judge_busy(self):
        """Each lock that was found busy is one that another lane's call could hold just then."""
        for number, k, wants, text in self.busy:
            before = max((n for n, _ in self.held[k] if n < number), default=0)
            must(any(collide(wants, locks) for earlier, later, locks in self.others(k)
                     if earlier < number and (later is None or later > before)),
                 f"no lane could hold the lock: {text}")

    def end(self, lane, text):
        """Judges how a lane ended; tells how it stopped, if it did."""
        parts = END.fullmatch(text)
        must(parts and int(parts[1]) == lane.number, f"no end of lane {lane.number}: {text}")
        stop = self.case.stops.get(lane.number)
        must(stop is None or lane.counted <= stop, f"{lane.counted} counted calls: {text}")
        call = lane.call()
        is_spent = call and not lane.open and lane.generation >= LAST_GENERATION
        self.fates[text.split(" ")[2]] += 1
        if parts[2]:
            must(call is None and lane.open is None, f"calls are left: {text}")
            return None
        if parts[4]:
            must(is_spent and int(parts[4]) == call.first, f"the lane is not spent so: {text}")
            return None
        must(not is_spent, f"the lane is spent: {text}")
        made = int(parts[3])
        must(stop is None or made <= stop, f"more than its stop number: {text}")
        if lane.open:
            must(made == stop, f"not at its stop number: {text}")
            self.stopped_open(lane, made - lane.counted, text)
            return "counted"
        must(call, f"no call is left: {text}")
        if made == stop and self.stops_unnumbered(lane, made - lane.counted):
            return "counted"
        must(made == lane.counted and self.can_wait(lane), f"it can't stop there: {text}")
        return "waited"

    def stopped_open(self, lane, made, text):
        """A kept or lost call stopped after its number, and a lost one before it was decided."""
        fate, run = lane.open
        must(run.drawn <= made < run.total, f"not in the numbered part of its last call: {text}")
        must(fate == "kept" or made < run.decided, f"its last call is decided: {text}")

    def stops_unnumbered(self, lane, made):
        """Whether the lane's next call can make so many counted calls, and a further one, before
        its number."""
        call = lane.call()
        lines = [None] + [x.number for x in call.lines if x.words[0] in ("begin", "lock", "lockr")]
        for busy_at in lines:
            try:
                run, _, wants = run_call(self.pool, lane, busy_at)
            except Difference:
                continue
            least = run.drawn if run.fate == "done" and run.needs_deciding else run.total
            if 0 <= made < least and (busy_at is None or wants):
                return True
        return False

    def can_wait(self, lane):
        """Whether the next call waits for a lock that some other lane may hold."""
        call = lane.call()
        first = Call(call.lines[:1])
        wants = locks_asked(self.pool, first, lane.pending)
        return any(collide(wants, locks) for _, _, locks in self.others(lane.number))

    def judge_image(self):
        """The pool written is what the model has."""
        written = Image(self.answer.written)
        must(written.data[:PAGE] == self.image.data[:PAGE], "the header page has changed")
        opened, wanted = written.recovered(), self.image.recovered()
        for off, data in self.pool.bytes.items():
            wanted.data[off:off + len(data)] = data
        zones = lane_at(self.image.shape.lanes)
        for place in range(zones, self.image.shape.bytes, 8):
            if opened.data[place:place + 8] != wanted.data[place:place + 8]:
                found = f"{opened.word(place)} and not {wanted.word(place)}"
                raise Difference(f"the word at {place} is {found}")
        objects = opened.objects()
        must(objects == wanted.objects(), "the objects are others")
        must(opened.word(ROOT_WORD) == self.pool.root, "the root is another")
        for lane in self.lanes:
            most = lane.generation + bool(lane.call() and not lane.open)
            found = written.generation(lane.number)
            must(lane.generation <= found <= most,
                 f"lane {lane.number} has the generation {found}")
        for k in range(self.opened, self.image.shape.lanes):
            must(written.generation(k) == self.image.generation_opened(k),
                 f"lane {k} was not opened, and changed")
        if self.answer.check is not None:
            must(self.answer.check == "consistent\n", f"check: {self.answer.check}")
        if self.answer.dump is not None:
            must(self.answer.dump == dump_text(objects, self.pool.root),
                 "dump prints another text")


# Runs


class Program:
    """The program, run in a folder of its own."""

    def __init__(self, path, folder):
        self.path, self.folder = path, Path(folder)

    def call(self, *words):
        """The status and what is printed."""
        try:
            ran = subprocess.run([self.path, *words], cwd=self.folder, capture_output=True,
                                 timeout=LONGEST_RUN, stdin=subprocess.DEVNULL)
        except subprocess.TimeoutExpired:
            raise Difference(f"{words[0]} has not ended after {LONGEST_RUN} seconds") from None
        return ran.returncode, ran.stdout.decode("ascii", "replace")

    def exec(self, case, asks=True):
        """Runs a case; what the program says of the pool written is asked too, or not."""
        for name in ("pool", "script", "written"):
            (self.folder / name).unlink(missing_ok=True)
        (self.folder / "pool").write_bytes(case.pool)
        (self.folder / "script").write_text(case.script)
        names = ["pool", "--script", "script", "--out", "written"]
        status, report = self.call("exec", *names, *case.words())
        (self.folder / "report").write_text(report)
        if status or not asks:
            return Answer(status, report, self.written())
        return Answer(status, report, self.written(), self.call("check", "written")[1],
                      self.call("dump", "written")[1])

    def written(self):
        path = self.folder / "written"
        return path.read_bytes() if path.exists() else None

    def create(self, rng, lanes):
        """A pool made by the program."""
        (self.folder / "pool").unlink(missing_ok=True)
        size = rng.choice([0, 8, 64, 64, 512, 4032, 9000])
        words = f"--lanes {lanes} --zones 1 --id 7 --layout {LAYOUT} --root {size}"
        status, text = self.call("create", "pool", *words.split())
        must(status == 0, f"create: {status} {text}")
        return (self.folder / "pool").read_bytes()


def stop_of(rng, image, script, number):
    """A stop number of a lane: any, or one at which a call has its number and is not answered, if
    no lock is busy."""
    lane = Lane(number, calls_of(script)[0].get(number, []), 1)
    pool, open_at = Pool(image), []
    while lane.call():
        run, lane.pending, _ = run_call(pool, lane)
        open_at += range(lane.counted + run.drawn, lane.counted + run.total)
        lane.counted += run.total
        lane.next += 1
    if open_at and rng.random() < 0.5:
        return rng.choice(open_at)
    return rng.randrange(rng.choice([20, 60, 2 + lane.counted]))


def make_stops(rng, image, script, lanes):
    """Stop numbers of some lanes, none in a third of the cases."""
    if rng.random() < 0.3:
        return {}
    stops = {k: stop_of(rng, image, script, k) for k in lanes if rng.random() < 0.5}
    if rng.random() < 0.05:
        # No script opens this lane.
        stops[31] = 0
    return stops


def make_case(rng, program, most_lanes, plain, earlier):
    """A random case: its pool is new, or the last one that was written."""
    single = plain or most_lanes == 1
    count = 1 if single else rng.randrange(2, most_lanes + 1)
    if earlier is not None and rng.random() < 0.5:
        pool = earlier
        count = 1 if single else min(count, Image(pool).shape.lanes)
    else:
        lanes = max(1, min(32, count + rng.choice([0, 0, 1, 3])))
        made = program and rng.random() < 0.3
        pool = program.create(rng, lanes) if made else make_pool(rng, lanes)
    image = Image(pool)
    lanes = range(count + (not single and rng.random() < 0.01))
    layout = "other" if rng.random() < 0.005 else LAYOUT
    keep = rng.choice([0, 1, rng.randrange(TOP), rng.randrange(TOP)])
    if not image.recovered().objects():
        lines = "begin\ncommit\nset root 0 1\npublish\nbegin root\ncommit\n"
        script = "".join(f"lane {k}\n{lines}" for k in lanes)
    else:
        script = make_script(rng, image, lanes, plain)
    return Case(pool, script, make_stops(rng, image, script, lanes), keep, layout)


def keep_case(folder, case, text, number):
    """Writes what is wrong beside the files of the case; gives the folder."""
    to = Path(tempfile.mkdtemp(prefix=f"case-{number}-", dir=folder))
    (to / "pool").write_bytes(case.pool)
    (to / "script").write_text(case.script)
    (to / "words").write_text(" ".join(case.words()) + "\n")
    (to / "difference").write_text(text + "\n")
    return to


def soak(words):
    """Runs cases for the time that is asked for."""
    counts, number, earlier = Counter(), 0, None
    ends = time.monotonic() + words.seconds
    room = Path(tempfile.mkdtemp(prefix="soak-"))
    program = Program(str(Path(words.program).resolve()), room)
    while time.monotonic() < ends:
        rng = random.Random(f"{words.seed}/{number}")
        case = make_case(rng, program, words.lanes, words.plain, earlier)
        try:
            answer = program.exec(case)
            judge = Judge(case, answer)
            judge.whole()
        except Difference as difference:
            Path(words.keep_in).mkdir(parents=True, exist_ok=True)
            to = keep_case(words.keep_in, case, str(difference), number)
            for name in ("written", "report"):
                if (room / name).exists():
                    shutil.copy(room / name, to / name)
            print(f"seed {words.seed} case {number}: {difference}\nits files: {to}")
            shutil.rmtree(room)
            return 1
        counts += judge.fates
        earlier = answer.written or earlier
        number += 1
    shutil.rmtree(room)
    told = ", ".join(f"{name} {count}" for name, count in sorted(counts.items()))
    print(f"seed {words.seed}: {number} cases without a difference; {told}")
    return 0


# The judge on trial


def trial_case():
    """Two lanes that add to one number, the second of which stops at its deciding store."""
    shape = Shape(2, 1)
    image = Image(header_page(shape, 7).ljust(shape.bytes, b"\0"))
    for lane in range(2):
        image.set(lane_at(lane), 1)
    off = shape.chunk_at(0, 0) + 2 * LINE
    image.set(shape.chunk_at(0, 0) - PAGE, 1 + 256 * 2)
    image.set(shape.chunk_at(0, 0), 1)
    image.set(off - LINE + 8, 64)
    image.set(ROOT_WORD, off)
    script = ("lane 0\nbegin root\nadd root 0 8\ninc root 0 5\ncommit\n"
              "begin r:root\nread root 0 2\ncommit\n"
              "lane 1\nbegin root\nadd root 0 8\ninc root 0 7\ncommit\n"
              "lane 0\nbegin root\nlock root\nadd root 8 8\ncommit\n")
    case = Case(bytes(image.data), script, {1: 14}, 0)
    report = (f"1 lane 0 lines 2-5 done root={off} 4=5\n"
              f"2 lane 0 lines 6-8 done root={off} 7=0500\n"
              "3 lane 1 lines 10-13 lost 12=12\n"
              f"4 lane 0 lines 15-18 done root={off}\n"
              "lane 0 ended\nlane 1 stopped after 14 calls\n")
    image.set(off, 5)
    image.set(lane_at(0), 3)
    return case, report, image, off


def selftest():
    """Each wrong report, pool and status must be refused, and the right one not."""
    case, report, image, off = trial_case()
    dump = dump_text(image.objects(), off)

    def verdict(text=report, words=(), status=0, stops=None, check="consistent\n", shown=dump):
        written = Image(image.data)
        for place, value in words:
            written.set(place, value)
        tried = Case(case.pool, case.script, case.stops if stops is None else stops, case.keep)
        try:
            Judge(tried, Answer(status, text, bytes(written.data), check, shown)).whole()
        except Difference as difference:
            return str(difference)
        return None

    def changed(old, new):
        must(old in report, f"the report has no {old}")
        return verdict(report.replace(old, new))

    def swapped(one, other):
        return verdict(report.replace(one, "?").replace(other, one).replace("?", other))

    first, second, *rest = report.splitlines(True)
    wrong = {
        "a lost call printed done": changed("lost", f"done root={off}"),
        "a lost call printed kept": changed("lost", f"kept root={off}"),
        "a done call printed lost": changed(f"2-5 done root={off}", "2-5 lost"),
        "swapped numbers": swapped("1 lane 0", "2 lane 0"),
        "swapped entries": verdict("".join([second, first, *rest])),
        "the numbers of two lanes swapped": swapped("2 lane 0 lines 6-8", "3 lane 1 lines 10-13"),
        "a wrong read value": changed("7=0500", "7=0c00"),
        "a wrong new number": changed("4=5", "4=6"),
        "a value left out": changed(" 4=5", ""),
        "a root left out": changed(f"8 done root={off}", "8 done"),
        "a number left out": changed("4 lane 0", "5 lane 0"),
        "wrong lines": changed("6-8", "6-7"),
        "an entry left out": verdict("".join([first, second, rest[0], *rest[2:]])),
        "a lane that ended printed stopped": changed("0 ended", "0 stopped after 32 calls"),
        "a lane that stopped printed ended": changed("stopped after 14 calls", "ended"),
        "a lane's end left out": changed("lane 0 ended\n", ""),
        "a stop at another call": changed("after 14", "after 13"),
        "a stop number that is passed": verdict(stops={0: 20, 1: 14}),
        "a lane that stopped without a stop number": verdict(stops={}),
        "an early stop number": verdict(report.replace("after 14", "after 12"), stops={1: 12}),
        "a late stop number": verdict(report.replace("after 14", "after 16"), stops={1: 16}),
        "a busy lock that nobody can hold": changed("15-18 done", "15-18 aborted Busy at 16"),
        "a refusal that does not come": changed("15-18 done", "15-18 aborted NotAdded at 17"),
        "a wrong word of an object": verdict(words=[(off, 12)]),
        "a word that nobody wrote": verdict(words=[(off + 8, 1)]),
        "a wrong word of no object": verdict(words=[(off + 4096, 1)]),
        "a wrong size": verdict(words=[(off - LINE + 8, 63)]),
        "another root": verdict(words=[(ROOT_WORD, 0)]),
        "a changed header": verdict(words=[(2048, 0)]),
        "a wrong generation": verdict(words=[(lane_at(0), 2)]),
        "the lost call's generation": verdict(words=[(lane_at(1), 2)]),
        "another status": verdict(status=4),
        "a pool that check refuses": verdict(check="fault Shape\n"),
        "a dump of another pool": verdict(shown=dump.replace("05", "06")),
    }
    right = verdict()
    missed = [name for name, difference in wrong.items() if difference is None]
    for name in missed:
        print(f"not refused: {name}")
    if right:
        print(f"refused, and right: {right}")
    print(f"selftest: {len(wrong) - len(missed)} of {len(wrong)} wrong answers refused")
    return 1 if missed or right else 0


def main():
    form = argparse.RawDescriptionHelpFormatter
    parser = argparse.ArgumentParser(description=__doc__, formatter_class=form)
    parser.add_argument("--seconds", type=float, default=60)
    parser.add_argument("--seed", type=int, default=int(time.time()))
    parser.add_argument("--program", default="build/pmempool")
    parser.add_argument("--lanes", type=int, default=8, choices=range(2, 32), metavar="N")
    parser.add_argument("--plain", action="store_true")
    parser.add_argument("--keep-in", default="build/soak", metavar="FOLDER")
    parser.add_argument("--selftest", action="store_true")
    words = parser.parse_args()
    sys.exit(selftest() if words.selftest else soak(words))


if __name__ == "__main__":
    main()
