#!/usr/bin/env python3
"""A rehearsal of tools/soak.py: its judge judges a small stand-in of the program, of many lanes.

    tools/rehearsal.py [--cases N] [--seed N] [--lanes N]
    tools/rehearsal.py --faults [--cases N] [--seed N] [--lanes N]
    tools/rehearsal.py --program PATH [--cases N] [--seed N]

The stand-in makes each memory call of its lanes on plain bytes, in a random order of the lanes,
and takes away what a power failure may take. The judge must accept each of its answers, and refuse
each in which one number of the report or one word of the pool was changed. Counts of both are
printed.

With `--faults` the stand-in is wrong in one way after another, as locks that are given back before
the commit; some case must show each to the judge.

With a program, scripts of one lane run on both, half of them in the words that lanes run: what the
program prints and writes must be what the stand-in does, word for word, so each memory call up to
the stop, and what survives it.
"""
import argparse
import random
import re
import sys
import tempfile
import time
from collections import Counter
from pathlib import Path

# No compiled files are left beside the tools.
sys.dont_write_bytecode = True
import soak
from soak import LINE, TOP, Answer, Case, Difference, Image, Judge, lane_at, sum64


class Stopped(Exception):
    """The lane stops here."""


class World:
    """What the lanes share: the words, the locks, the last number, the stop word, the history."""

    def __init__(self, case):
        given = Image(case.pool)
        self.image = given.recovered()
        for lane in range(given.shape.lanes):
            self.image.set(lane_at(lane), given.generation_opened(lane))
            self.image.set(lane_at(lane) + 8, 0)
        self.sizes = {off: len(item.data) for off, item in self.image.objects().items()}
        self.root = self.image.word(soak.ROOT_WORD)
        self.locks, self.number, self.has_stopped, self.history = {}, 0, False, []

    def take(self, lane, off, for_write):
        """Takes or raises a lock where it is free."""
        held = self.locks.setdefault(off, {})
        others = [mode for k, mode in held.items() if k != lane]
        if any(others) or for_write and others:
            return False
        held[lane] = for_write or held.get(lane, False)
        return True


class Worker:
    """A lane that runs its calls, step by step."""

    def __init__(self, world, number, calls, stop):
        self.world, self.image, self.number = world, world.image, number
        self.calls, self.stop, self.made, self.changes = calls, stop, 0, []
        self.pending, self.area, self.end = [], lane_at(number), None

    def count(self):
        if self.made == self.stop:
            self.world.has_stopped = True
            raise Stopped
        self.made += 1

    def store(self, place, value):
        if len(self.changes) == 512:
            yield from self.persist()
        yield
        self.count()
        self.changes.append([place, self.image.word(place), False])
        self.image.set(place, value)

    def flush(self, line):
        yield
        self.count()
        for change in self.changes:
            change[2] |= change[0] // LINE == line

    def drain(self):
        if self.changes:
            yield
            self.count()
            self.changes = [change for change in self.changes if not change[2]]

    def persist(self):
        for line in sorted({place // LINE for place, _, flushed in self.changes if not flushed}):
            yield from self.flush(line)
        yield from self.drain()

    def run(self):
        for call in self.calls:
            if self.image.word(self.area) >= 2 ** 62:
                self.end = f"lane {self.number} spent at line {call.first}"
                return
            self.held, self.values, self.recorded, self.slots, self.entries = {}, [], {}, 0, []
            entry = {"lane": self.number, "call": call, "values": self.values, "fate": None,
                     "generation": self.image.word(self.area)}
            try:
                steps = self.transaction if call.is_transaction else self.outside
                yield from steps(call, entry)
            except Stopped:
                self.end = f"lane {self.number} stopped after {self.made} calls"
                return
            yield
            self.let_go()
        self.end = f"lane {self.number} ended"

    def let_go(self):
        """Gives the locks back."""
        for off in self.held:
            del self.world.locks[off][self.number]
        self.held = {}

    def draw(self, entry):
        yield
        self.world.number += 1
        self.world.history.append(entry)

    def number_of(self, name):
        return self.world.root if name == "root" else int(name)

    def wait(self, wants):
        for off in sorted(wants):
            yield
            while not self.world.take(self.number, off, wants[off]):
                if self.world.has_stopped:
                    raise Stopped
                yield
            self.held[off] = wants[off]

    def request(self, line):
        """A begin or a lock; what refuses it."""
        word, *names = line.words
        wants = {}
        for name in names:
            off = self.number_of(name.removeprefix("r:"))
            is_read = word == "lockr" or name.startswith("r:")
            wants[off] = wants.get(off, False) or not is_read
        placed = [off for off in wants if self.image.shape.can_begin(off)]
        if len({*placed, *self.held}) > 64:
            return "LocksFull"
        if len(placed) < len(wants):
            return "NoObject"
        if self.level == 0:
            yield from self.wait(wants)
        for off in wants:
            yield
            if self.held.get(off) is None or wants[off] and not self.held[off]:
                if not self.world.take(self.number, off, wants[off]):
                    return "Busy"
                self.held[off] = wants[off]
        return None if all(off in self.world.sizes for off in wants) else "NoObject"

    def transaction(self, call, entry):
        self.level, error = 0, None
        for line in call.lines:
            word, *rest = line.words
            if word == "begin":
                error = "Deep" if self.level == 64 else (yield from self.request(line))
                self.level += 1
            elif word == "commit":
                self.level -= 1
            elif word == "abort":
                error = "ECANCELED" if rest[0] == "0" else rest[0]
            elif word in ("lock", "lockr"):
                error = yield from self.request(line)
            else:
                error = yield from self.access(line, word, rest)
            if error:
                yield from self.roll_back()
                yield from self.draw(entry)
                entry["fate"] = f"aborted {error} at {line.number}"
                return
        yield from self.commit(entry)

    def access(self, line, word, rest):
        """A line that needs locks, or an action; what refuses it."""
        if word == "set":
            refusal = self.set(rest)
            if refusal:
                self.values.append(f" {line.number}={refusal}")
            return None
        if word == "cancel":
            yield from self.persist()
            self.pending = []
            return None
        if word == "publish":
            if not all(self.held.get(off) for off, _, _ in self.pending):
                return "NotLocked"
            if any(at + 8 > self.world.sizes[off] for off, at, _ in self.pending):
                return "OutOfRange"
            if self.pending and len(self.entries) + len(self.pending) > 63:
                return "ActionsFull"
            self.entries, self.pending = self.entries + self.pending, []
            return None
        off, at = self.number_of(rest[0]), int(rest[1])
        length = {"write": len(rest[-1]) // 2, "inc": 8}.get(word) or int(rest[2])
        if off not in self.held or word in ("add", "write") and not self.held[off]:
            return "NotLocked"
        if at + length > self.world.sizes[off]:
            return "OutOfRange"
        yield
        data = bytes(self.image.data[off + at:off + at + length])
        if word == "read":
            self.values.append(f" {line.number}={data.hex()}")
            return None
        if word == "add":
            return (yield from self.add(off + at, length))
        if word == "write":
            return (yield from self.write(off + at, bytes.fromhex(rest[2])))
        if not self.held[off]:
            return "NotLocked"
        value = (int.from_bytes(data, "little") + int(rest[2])) % TOP
        error = yield from self.write(off + at, value.to_bytes(8, "little"))
        if not error:
            self.values.append(f" {line.number}={value}")
        return error

    def places(self, place, length):
        return list(range(place // 8 * 8, place + length, 8)) if length else []

    def add(self, place, length):
        new, records = [p for p in self.places(place, length) if p not in self.recorded], []
        for p in new:
            if not records or len(records[-1]) == 4 or records[-1][-1] != p - 8:
                records.append([])
            records[-1].append(p)
        if self.slots + len(records) > 64:
            return "LogFull"
        for record in records:
            slot = self.area + LINE * (17 + self.slots)
            old = [self.image.word(p) for p in record]
            words = [self.image.word(self.area), record[0], len(record), *(old + [0] * 4)[:4]]
            for i, value in enumerate([*words, sum64(words)]):
                yield from self.store(slot + 8 * i, value)
            yield from self.flush(slot // LINE)
            self.slots += 1
            self.recorded.update(zip(record, old))
        if records:
            yield from self.drain()
        return None

    def write(self, place, data):
        if any(p not in self.recorded for p in self.places(place, len(data))):
            return "NotAdded"
        for p in self.places(place, len(data)):
            word = bytearray(self.image.data[p:p + 8])
            for i in range(8):
                if place <= p + i < place + len(data):
                    word[i] = data[p + i - place]
            yield from self.store(p, int.from_bytes(word, "little"))
        return None

    def roll_back(self):
        for place, old in self.recorded.items():
            yield from self.store(place, old)
        yield from self.persist()
        if self.recorded:
            yield from self.raise_generation()

    def raise_generation(self):
        yield from self.store(self.area, self.image.word(self.area) + 1)
        yield from self.persist()

    def commit(self, entry):
        yield from self.persist()
        if not self.entries:
            yield from self.draw(entry)
            if self.recorded:
                yield from self.raise_generation()
            entry["fate"] = "done"
            return
        log = [(off + at, value) for off, at, value in self.entries]
        log.append((self.area, self.image.word(self.area) + 1))
        for i, (place, value) in enumerate(log):
            yield from self.store(self.area + LINE + 16 * i, place)
            yield from self.store(self.area + LINE + 16 * i + 8, value)
        yield from self.persist()
        yield from self.draw(entry)
        yield from self.store(self.area + 8, len(log))
        yield from self.persist()
        for place, value in log:
            yield from self.store(place, value)
        yield from self.persist()
        yield from self.store(self.area + 8, 0)
        yield from self.persist()
        entry["fate"] = "done"

    def set(self, rest):
        """Makes a set pending; what refuses it."""
        if int(rest[1]) % 8:
            return "Unaligned"
        if len(self.pending) == 63:
            return "ActionsFull"
        self.pending.append((self.number_of(rest[0]), int(rest[1]), int(rest[2])))
        return None

    def outside(self, call, entry):
        word, *rest = call.lines[0].words
        refusal = None
        if word == "set":
            refusal = self.set(rest)
        elif word == "cancel":
            self.pending = []
        else:
            wants = {off: True for off, _, _ in self.pending}
            if not all(map(self.image.shape.can_begin, wants)):
                refusal = "NoObject"
            else:
                yield from self.wait(wants)
                if not all(off in self.world.sizes for off in wants):
                    refusal = "NoObject"
                elif any(at + 8 > self.world.sizes[off] for off, at, _ in self.pending):
                    refusal = "OutOfRange"
            if not refusal:
                self.entries, self.pending = self.pending, []
                yield from self.commit(entry)
                return
        yield from self.draw(entry)
        entry["fate"] = f"refused {refusal}" if refusal else "done"


def lose(world, workers, keep):
    """The image after a power failure: of each word the first of its undrained changes."""
    x = keep
    for worker in workers:
        for place in sorted({change[0] for change in worker.changes}):
            mine = [change for change in worker.changes if change[0] == place]
            kept = 0 if keep == 0 else len(mine)
            if keep > 1:
                x = (x * 6364136223846793005 + 1442695040888963407) % TOP
                kept = (x >> 33) % (len(mine) + 1)
            if kept < len(mine):
                world.image.set(place, mine[kept][1])


class SharedRaise(World):
    """Raises a lock that other lanes hold for reading."""

    def take(self, lane, off, for_write):
        held = self.locks.setdefault(off, {})
        if any(mode for k, mode in held.items() if k != lane):
            return False
        held[lane] = for_write or held.get(lane, False)
        return True


class NoLocks(World):
    """Gives each lock to whoever asks."""

    def take(self, lane, off, for_write):
        self.locks.setdefault(off, {})[lane] = for_write
        return True


class LooseCommit(Worker):
    """Gives its locks back before it commits."""

    def commit(self, entry):
        self.let_go()
        yield from super().commit(entry)


class LooseAbort(Worker):
    """Gives its locks back before it rolls back."""

    def roll_back(self):
        self.let_go()
        yield from super().roll_back()


class KeepsAborted(Worker):
    """Rolls nothing back."""

    def roll_back(self):
        self.recorded = {place: self.image.word(place) for place in self.recorded}
        yield from super().roll_back()


class SkipsFlush(Worker):
    """Drains where the first line was not flushed."""

    def persist(self):
        lines = sorted({place // LINE for place, _, flushed in self.changes if not flushed})
        for line in lines[len(lines) > 1:]:
            yield from self.flush(line)
        yield from self.drain()


FAULTS = [(SharedRaise, Worker), (NoLocks, Worker), (World, LooseCommit), (World, LooseAbort),
          (World, KeepsAborted), (World, SkipsFlush)]


def play(case, rng, kinds=(World, Worker)):
    """The answer to a case by a stand-in of these kinds."""
    world, lane = kinds[0](case), kinds[1]
    calls, opened = soak.calls_of(case.script)
    workers = [lane(world, k, calls.get(k, []), case.stops.get(k)) for k in range(opened)]
    live = [worker.run() for worker in workers]
    # Some lanes are faster than others.
    pace = [rng.choice([1, 1, 3, 10]) for _ in live]
    ready = list(range(opened))
    while ready:
        k = rng.choice(ready)
        for _ in range(rng.randrange(1, 2 + pace[k])):
            if next(live[k], "over") == "over":
                ready.remove(k)
                break
    lose(world, workers, case.keep)
    lines = []
    for number, entry in enumerate(world.history, 1):
        fate, call = entry["fate"], entry["call"]
        if fate is None:
            is_kept = world.image.generation(entry["lane"]) > entry["generation"]
            fate = "kept" if is_kept else "lost"
        root = f" root={world.root}" if call.names_root and fate != "lost" else ""
        values = "".join(entry["values"])
        head = f"{number} lane {entry['lane']} lines {call.first}-{call.last}"
        lines.append(f"{head} {fate}{root}{values}")
    lines += [worker.end for worker in workers]
    return Answer(0, "\n".join(lines) + "\n", bytes(world.image.data))


def judged(case, answer):
    """The judge's difference, or nothing, and the fates of the report."""
    judge = Judge(case, answer)
    try:
        judge.whole()
    except Difference as difference:
        return str(difference), judge.fates
    return None, judge.fates


def spoilt(case, answer, rng):
    """A wrong answer made of a right one: a number of its report is another, or a word that
    recovery leaves as it is; what was changed."""
    if rng.random() < 0.5:
        found = rng.choice(list(re.finditer(r"\d+", answer.report)))
        other = str(int(found[0]) + 1)
        text = answer.report[:found.start()] + other + answer.report[found.end():]
        return Answer(0, text, answer.written), f"{found[0]} became {other} at {found.start()}"
    written = Image(answer.written)
    zones = lane_at(written.shape.lanes)
    opened = written.recovered()
    sizes = {off: len(item.data) for off, item in opened.objects().items()}
    places = [zones + 8 * rng.randrange((written.shape.bytes - zones) // 8)]
    places += [off + 8 * rng.randrange(-(-size // 8)) for off, size in sizes.items()]
    place = rng.choice(places)
    if opened.word(place) != written.word(place):
        return None, None
    written.set(place, written.word(place) ^ 1 << rng.randrange(64))
    if written.recovered().word(place) == opened.word(place):
        return None, None
    return Answer(0, answer.report, bytes(written.data)), f"the word at {place}"


def stop(text, case, answer):
    """Ends with what is wrong, and the case."""
    sys.exit(f"{text}\n{case.script}\n{' '.join(case.words())}\n{answer.report}")


def rehearse(words):
    """The judge on trial."""
    fates, wrong, earlier = Counter(), 0, None
    for number in range(words.cases):
        rng = random.Random(f"{words.seed}/{number}")
        case = soak.make_case(rng, None, words.lanes, False, earlier)
        if Judge(case, None).refusal():
            continue
        answer = play(case, rng)
        difference, told = judged(case, answer)
        if difference:
            stop(f"case {number} is refused: {difference}", case, answer)
        fates += told
        earlier = answer.written
        for _ in range(3):
            other, change = spoilt(case, answer, rng)
            if other is None:
                continue
            difference, _ = judged(case, other)
            if difference is None:
                stop(f"case {number} is not refused: {change}", case, other)
            wrong += 1
    told = ", ".join(f"{name} {count}" for name, count in sorted(fates.items()))
    print(f"seed {words.seed}: {words.cases} cases accepted, {wrong} wrong answers refused; "
          f"{told}")


def find_faults(words):
    """Stand-ins that are wrong: the judge must find each by some case."""
    missed = 0
    for kinds in FAULTS:
        name = next(kind for kind in kinds if kind not in (World, Worker)).__name__
        for number in range(20 * words.cases):
            rng = random.Random(f"{words.seed}/{number}")
            case = soak.make_case(rng, None, words.lanes, False, None)
            if not Judge(case, None).refusal() and judged(case, play(case, rng, kinds))[0]:
                print(f"{name}: found by case {number}")
                break
        else:
            print(f"{name}: NOT FOUND")
            missed += 1
    sys.exit(missed > 0)


def compare(words):
    """The program beside the stand-in, on scripts of one lane."""
    earlier = None
    with tempfile.TemporaryDirectory(prefix="rehearsal-") as room:
        program = soak.Program(str(Path(words.program).resolve()), room)
        for number in range(words.cases):
            rng = random.Random(f"{words.seed}/{number}")
            # Half of them have the words that a single lane does not run, levels among them.
            case = soak.make_case(rng, program, 1, rng.random() < 0.5, earlier)
            if Judge(case, None).refusal():
                continue
            answer, other = program.exec(case, False), play(case, rng)
            if answer.report != other.report:
                stop(f"case {number}: the stand-in prints\n{other.report}", case, answer)
            found, wanted = Image(answer.written), Image(other.written)
            for place in range(0, found.shape.bytes, 8):
                if found.word(place) != wanted.word(place):
                    values = f"{found.word(place)}, of the stand-in {wanted.word(place)}"
                    stop(f"case {number}: the word at {place} is {values}", case, answer)
            earlier = answer.written
    print(f"seed {words.seed}: {words.cases} cases of one lane, word for word as the stand-in")


def main():
    form = argparse.RawDescriptionHelpFormatter
    parser = argparse.ArgumentParser(description=__doc__, formatter_class=form)
    parser.add_argument("--cases", type=int, default=300)
    parser.add_argument("--seed", type=int, default=int(time.time()))
    parser.add_argument("--lanes", type=int, default=8)
    parser.add_argument("--program")
    parser.add_argument("--faults", action="store_true")
    words = parser.parse_args()
    if words.program:
        compare(words)
    elif words.faults:
        find_faults(words)
    else:
        rehearse(words)


if __name__ == "__main__":
    main()
