#!/usr/bin/env python3
"""Counts the definitions that a clause closes over, and their lines.

    tools/closure.py [CRATE.FILE.NAME ..] [--crates] [--names]

A definition of a crate's specs/ closes over each definition that its text names, and so on. Lines
are counted without comments and blank ones. Types that are declared in Rattle code are followed by
name alone, and not counted. Without a name it counts the clause of a run of lanes,
pm_commands.Executed.IsRunOfLanes. `--crates` adds a line for each crate, `--names` one for each
definition.
"""
import argparse
import re
import sys
from collections import Counter
from pathlib import Path

ROOT = Path(__file__).resolve().parent.parent
START = re.compile(
    r"^(?:abbrev |unfoldable )?(?:pub )?(?:record |data |postulate )?([^\s(){}:;,.]+) (?:[({].*|:.*)$")
HEAD = re.compile(r"^(abbrev|unfoldable|pub|record|data|postulate)\b")
USE = re.compile(r"^use Rattle\.([\w.\-]+?)(?:\.\{(.*)\}| as (\w+))\s*$")
WORD = re.compile(r"[^\s(){};,]+")


class Module:
    """The definitions of a file of specs/, and what its imports name."""

    def __init__(self, path):
        self.definitions, self.names, self.aliases = {}, {}, {}
        text, name, rest = [], None, ""
        for line in path.read_text().split("\n"):
            bare = line.split("--")[0].rstrip() if line.lstrip().startswith("--") else line.rstrip()
            if not bare:
                continue
            if bare.startswith("use "):
                self.add_use(bare)
                continue
            if not bare[0].isspace():
                begun = START.match(bare) if HEAD.match(bare) or ":" in bare else None
                if begun and (HEAD.match(bare) or begun[1] not in self.definitions):
                    name = begun[1]
                    self.definitions.setdefault(name, [])
            if name:
                self.definitions[name].append(bare)

    def add_use(self, line):
        found = USE.match(line)
        if not found:
            return
        module, names, alias = found.groups()
        if alias:
            self.aliases[alias] = module
            return
        for part in names.split(","):
            part = part.strip()
            if part:
                one, _, other = part.partition(" as ")
                self.names[other or one] = (module, one)


def modules():
    """All files of specs/, by crate and name."""
    found = {}
    for path in sorted(ROOT.glob("crates/*/specs/**/*.antt")):
        crate = path.relative_to(ROOT / "crates").parts[0]
        inside = path.relative_to(ROOT / "crates" / crate / "specs").with_suffix("")
        found[f"{crate}.specs.{'.'.join(inside.parts)}"] = Module(path)
    return found


def closure(all_modules, first):
    """The definitions that these close over, themselves among them."""
    seen, left = {}, list(first)
    while left:
        module, name = left.pop()
        if (module, name) in seen:
            continue
        at = all_modules.get(module)
        if at is None or name not in at.definitions:
            continue
        lines = at.definitions[name]
        seen[module, name] = len(lines)
        for word in WORD.findall(" ".join(lines)):
            for part in {word, *word.split(".")}:
                if part in at.definitions:
                    left.append((module, part))
                elif part in at.names:
                    left.append(at.names[part])
    return seen


def main():
    parser = argparse.ArgumentParser(description=__doc__.split("\n")[0])
    parser.add_argument("names", nargs="*", default=["pm_commands.Executed.IsRunOfLanes"])
    parser.add_argument("--crates", action="store_true")
    parser.add_argument("--names", dest="each", action="store_true")
    words = parser.parse_args()
    all_modules = modules()
    first = []
    for said in words.names:
        crate, _, rest = said.partition(".")
        file, _, name = rest.rpartition(".")
        module = f"{crate}.specs.{file}"
        if module not in all_modules or name not in all_modules[module].definitions:
            sys.exit(f"no definition {said}: CRATE.FILE.NAME, as pm_exec.Runs.RanOnLanes")
        first.append((module, name))
    seen = closure(all_modules, first)
    print(f"{len(seen)} definitions, {sum(seen.values())} lines")
    counts, lines = Counter(), Counter()
    for (module, _), count in seen.items():
        counts[module.split(".")[0]] += 1
        lines[module.split(".")[0]] += count
    if words.crates:
        for crate in sorted(counts):
            print(f"{crate:16} {counts[crate]:5} {lines[crate]:6}")
    if words.each:
        for (module, name), count in sorted(seen.items()):
            print(f"{count:4} {module.replace('.specs.', '.')}.{name}")


if __name__ == "__main__":
    main()
