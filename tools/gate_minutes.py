#!/usr/bin/env python3
"""Runs `rt ci` and adds its minutes to bench/gate.csv: a row for each crate, and one for all.

    tools/gate_minutes.py FOLDER [--anew]   runs `rt ci` in FOLDER, a clean clone
    tools/gate_minutes.py --log LOG         adds the rows of such a run's log, build/gate.log

Columns: the date, the machine's processors, the commit, the crate (`all` for the whole run), what
came of it, the wall minutes from the start to that, and the processor minutes of its proofs, tests
and edits together. Processor times are looked at each second, so a command that ends sooner is
counted in the whole run alone.
"""
import csv
import datetime
import os
import re
import subprocess
import sys
import threading
import time

HERE = os.path.dirname(os.path.dirname(os.path.abspath(__file__)))
HEAD = ["date", "processors", "commit", "crate", "what", "wall_minutes", "processor_minutes"]
TICK = os.sysconf("SC_CLK_TCK")

LINE = re.compile(r"^(\d+\.\d) (.*)$")
OUTCOMES = [
    (re.compile(r"^rt: (\w+) is kept: "), "kept"),
    (re.compile(r"^rt: (\w+) proved$"), "proved"),
    (re.compile(r"^rt: (\w+): its tests are proved$"), "tests proved"),
    (re.compile(r"^rt: (\w+) NOT PROVED"), "not proved"),
]
VERDICT = re.compile(r"^(\d+ passed, \d+ failed)")
PROCESSOR = re.compile(r"^processor (\w+) (\d+\.\d)$")


class Processors:
    """The processor seconds of a group of processes, as a whole and by crates."""

    def __init__(self, group):
        self.group = group
        self.of_process = {}
        self.whole = 0.0

    def look(self):
        """Looks at all processes of the group that run."""
        whole = 0
        for pid in filter(str.isdigit, os.listdir("/proc")):
            try:
                with open(f"/proc/{pid}/stat", errors="replace") as file:
                    fields = file.read().rsplit(")", 1)[1].split()
                if int(fields[2]) != self.group:
                    continue
                with open(f"/proc/{pid}/cmdline", errors="replace") as file:
                    words = file.read().split("\0")
            except (OSError, IndexError):
                continue
            # user and system time of its own, then of its children that have ended
            whole += sum(map(int, fields[11:15]))
            if "--crate-name" in words[:-1]:
                crate = words[words.index("--crate-name") + 1]
                own = sum(map(int, fields[11:13])) / TICK
                self.of_process[pid, fields[19]] = (crate, own)
        self.whole = max(self.whole, whole / TICK)

    def of_crates(self):
        """The seconds of each crate."""
        crates = {}
        for crate, seconds in self.of_process.values():
            crates[crate] = crates.get(crate, 0) + seconds
        return crates


def run(folder, flags, log):
    """Runs `rt ci` in the folder. Each of its lines goes to the log, with the seconds since the
    start before it, and then the processor seconds of the crates and of the whole run."""
    start = time.time()
    gate = subprocess.Popen(
        ["rt", "ci", *flags],
        cwd=folder,
        stdout=subprocess.PIPE,
        stderr=subprocess.STDOUT,
        text=True,
        errors="replace",
        start_new_session=True,
    )
    processors = Processors(gate.pid)
    ended = threading.Event()

    def look():
        while not ended.wait(1):
            processors.look()

    looking = threading.Thread(target=look)
    looking.start()
    with open(log, "w", encoding="utf-8") as out:
        for line in gate.stdout:
            print(line, end="", flush=True)
            out.write(f"{time.time() - start:.1f} {line}")
            out.flush()
        status = gate.wait()
        ended.set()
        looking.join()
        seconds = {**processors.of_crates(), "all": max(processors.whole, sum(os.times()[2:4]))}
        for crate, spent in sorted(seconds.items()):
            out.write(f"{time.time() - start:.1f} processor {crate} {spent:.1f}\n")
    return status


def rows_of(log):
    """The rows of a log: crate, what came of it, wall minutes and processor minutes."""
    outcomes, processor, wall, verdict = {}, {}, 0.0, "no verdict"
    with open(log, encoding="utf-8", errors="replace") as file:
        for line in file:
            timed = LINE.match(line.rstrip("\n"))
            if timed is None:
                continue
            seconds, text = float(timed[1]), timed[2]
            spent = PROCESSOR.match(text)
            if spent is not None:
                processor[spent[1]] = float(spent[2])
                continue
            wall = seconds
            if VERDICT.match(text):
                verdict = VERDICT.match(text)[1]
            for form, what in OUTCOMES:
                found = form.match(text)
                if found is not None:
                    outcomes[found[1]] = (what, seconds)
    outcomes["all"] = (verdict, wall)

    def minutes(seconds):
        return "" if seconds is None else f"{seconds / 60:.1f}"

    return [
        [it, what, minutes(at), minutes(processor.get(it))]
        for it, (what, at) in outcomes.items()
    ]


def add(rows, folder):
    """Adds the rows to the table, with the date, the processors and the commit before each."""
    commit = subprocess.run(
        ["git", "rev-parse", "--short", "HEAD"],
        cwd=folder,
        capture_output=True,
        text=True,
        check=False,
    ).stdout.strip()
    date = datetime.datetime.now(datetime.timezone.utc).strftime("%Y-%m-%dT%H:%MZ")
    path = os.path.join(HERE, "bench", "gate.csv")
    is_new = not os.path.exists(path)
    with open(path, "a", encoding="utf-8", newline="") as file:
        table = csv.writer(file, lineterminator="\n")
        if is_new:
            table.writerow(HEAD)
        table.writerows([date, os.cpu_count(), commit, *row] for row in rows)


def main(words):
    if len(words) == 2 and words[0] == "--log":
        add(rows_of(words[1]), HERE)
        return 0
    if not words or words[0].startswith("-"):
        print(__doc__, file=sys.stderr)
        return 2
    log = os.path.join(HERE, "build", "gate.log")
    os.makedirs(os.path.dirname(log), exist_ok=True)
    status = run(words[0], words[1:], log)
    add(rows_of(log), words[0])
    return status


sys.exit(main(sys.argv[1:]))
