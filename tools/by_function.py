#!/usr/bin/env python3
"""What each public function of the transactions costs, beside its counterpart for a single lane.

    tools/by_function.py           prints the calls of pm_tx and pm_action, and their counterparts
    tools/by_function.py --laws    prints the other public functions of pm_tx and pm_action, and
                                   those of pm_call, most of them laws

Columns: the characters of the function's contract, without line breaks; its clauses; the lines of
its answers and invariants; the lines of those of the functions that it calls, directly or not, in
the crates of its side; the lines of the files of lemmas that serve this call alone, and of those
that serve other calls of the table too, and how many such files there are. A side is pm_tx,
pm_action and pm_call; or solo_tx, solo_transaction and solo_action. A file serves a function where
its answers, or those of a function that it calls, import it, directly or through such a file, in
the crates of the side. Blank lines don't count. A file is counted whole, whichever of its lemmas
are used. The rows of several calls count each function and each file once. Below the table stand
the files that serve several of them, by how many, each with its lines.
"""
import re
import sys
import textwrap
from pathlib import Path

CRATES = Path(__file__).resolve().parent.parent / "crates"
LANES = ["pm_tx", "pm_action", "pm_call"]
SOLO = ["solo_tx", "solo_transaction", "solo_action"]
# A call, the functions of many lanes and those of a single lane. In solo_transaction a call serves
# objects that are new in the transaction too.
CALLS = [
    ("begin", ["pm_tx::begin"], ["solo_tx::begin", "solo_transaction::begin"]),
    ("lock", ["pm_tx::lock"], []),
    ("add_range", ["pm_tx::add_range"], ["solo_tx::add_range", "solo_transaction::add_range"]),
    ("write", ["pm_tx::write"], ["solo_tx::write", "solo_transaction::write"]),
    ("read", ["pm_tx::read"], ["solo_tx::read", "solo_transaction::read"]),
    ("increment", ["pm_tx::increment"], []),
    ("publish inside", ["pm_tx::publish"], ["solo_transaction::publish"]),
    ("publish outside", ["pm_action::publish"], ["solo_action::publish"]),
    ("commit", ["pm_tx::commit"], ["solo_tx::commit", "solo_transaction::commit"]),
    ("process", ["pm_tx::process"], []),
    ("abort", ["pm_tx::abort"], ["solo_tx::abort"]),
    ("end", ["pm_tx::end"], ["solo_tx::end", "solo_transaction::end"]),
    ("set_value", ["pm_action::set_value"],
     ["solo_transaction::set_value", "solo_action::set_value"]),
    ("cancel", ["pm_action::cancel"], ["solo_transaction::cancel", "solo_action::cancel"]),
    ("finish", ["pm_action::finish"], ["solo_action::finish"]),
]

FN = re.compile(r"^( *)(pub(?:\([^)]*\))? )?(?:const )?(?:unsafe )?fn (\w+)")
CLAUSE = re.compile(r"^\s+(?:requires|ensures)\b")
CALLED = re.compile(r"(?<![.\w:])((?:\w+::)*)([a-z_]\w*)(?:::<[^()]*?>)?\(")
USE = re.compile(r"^(pub )?use ([^;]+);", re.M)
IMPORT = re.compile(r"^use Rattle\.(\w+)\.proofs\.([\w.]+?)(?:\.\{| as |\s*$)", re.M)
USING = re.compile(r"\b(\w+)::proofs::(\w+)::\w+")


class Function:
    """A function of a source file: its contract, its body, and the lemma files that a tactic in an
    attribute of it names."""

    def __init__(self, crate, module, name, is_public):
        self.crate, self.module, self.name, self.is_public = crate, module, name, is_public
        self.contract, self.body, self.named = [], [], []

    def title(self):
        return f"{self.crate}::{self.name}"

    def clauses(self):
        return sum(1 for line in self.contract if CLAUSE.match(line))

    def characters(self):
        return len(" ".join(" ".join(self.contract).split()))

    def answers(self):
        """The files of its answers and invariants."""
        folder = CRATES / self.crate / "proofs" / self.module / self.name
        return sorted(folder.glob("*.antt")) if folder.is_dir() else []


def functions_of(crate, module, text):
    """The functions of a file, without those of types and traits."""
    found, attributes, lines, i = [], [], text.split("\n"), 0
    while i < len(lines):
        line, i = lines[i], i + 1
        if line.startswith("#["):
            attributes.append(line)
        at = FN.match(line)
        if not at or at[1]:
            if line and not line.startswith(("#[", "//")):
                attributes = []
            continue
        one = Function(crate, module, at[3], (at[2] or "").strip() == "pub")
        one.named = [
            (crate if where == "crate" else where, file)
            for where, file in USING.findall(" ".join(attributes))
        ]
        attributes = []
        while not (line.startswith(("{", "}")) or line.endswith("{")):
            line, i = lines[i], i + 1
            if one.contract or CLAUSE.match(line):
                one.contract.append(line)
        if one.contract:
            one.contract.pop()
        while line not in ("}", "{}"):
            line, i = lines[i], i + 1
            one.body.append(line.partition("//")[0])
        found.append(one)
    return found


def names_used(text):
    """What the `use` lines of a file bring in: a name, and the path where it stands."""
    for is_public, path in USE.findall(text):
        path = " ".join(path.split())
        head, _, inner = path.partition("{")
        if inner:
            for name in inner.rstrip("} ").split(","):
                if name.strip():
                    yield name.strip(), head.rstrip(":"), bool(is_public)
        elif "::" in path:
            head, _, name = path.rpartition("::")
            yield name, head, bool(is_public)


class Side:
    """The functions of some crates, what each calls, and the files of lemmas that serve it."""

    def __init__(self, crates):
        self.crates, self.functions, self.exported, self.used = crates, {}, {}, {}
        self.imported = {}
        for crate in crates:
            for path in sorted((CRATES / crate / "src").glob("*.rt")):
                if path.stem == "tests":
                    continue
                text = path.read_text(encoding="utf-8")
                self.used[crate, path.stem] = dict(
                    (name, where) for name, where, _ in names_used(text)
                )
                for one in functions_of(crate, path.stem, text):
                    self.functions[crate, path.stem, one.name] = one
                if path.stem == "lib":
                    for name, where, is_public in names_used(text):
                        if is_public:
                            self.exported[crate, name] = where

    def public(self, crate, name):
        return self.functions[crate, self.exported[crate, name], name]

    def all_public(self, crates):
        keys = [(crate, at, name) for (crate, name), at in self.exported.items() if crate in crates]
        return [self.functions[key] for key in sorted(keys) if key in self.functions]

    def meant(self, one, path, name):
        """The function that a call in the body of another means, if it is one of this side."""
        where = path.rstrip(":") or self.used[one.crate, one.module].get(name, "")
        if not where:
            return self.functions.get((one.crate, one.module, name))
        first, _, rest = where.partition("::")
        if first in ("crate", "self", "super"):
            return self.functions.get((one.crate, rest.split("::")[-1], name))
        return self.functions.get((first, self.exported.get((first, name), ""), name))

    def called(self, one):
        """The function and those that it calls, directly or not."""
        reached, left = [], [one]
        while left:
            now = left.pop()
            if now in reached:
                continue
            reached.append(now)
            calls = CALLED.findall("\n".join(now.body))
            left += filter(None, (self.meant(now, path, name) for path, name in calls))
        return reached

    def imports(self, path):
        """The files of lemmas of this side that a file imports."""
        if path not in self.imported:
            found = set()
            for crate, name in IMPORT.findall(path.read_text(encoding="utf-8")):
                file = CRATES / crate / "proofs" / f"{name.replace('.', '/')}.antt"
                if crate in self.crates and file.is_file():
                    found.add(file)
            self.imported[path] = found
        return self.imported[path]

    def lemmas(self, functions):
        """The files of lemmas that serve these functions."""
        left = [file for one in functions for it in one.answers() for file in self.imports(it)]
        for one in functions:
            for crate, name in one.named:
                file = CRATES / crate / "proofs" / f"{name}.antt"
                if crate in self.crates and file.is_file():
                    left.append(file)
        reached = set()
        while left:
            file = left.pop()
            if file not in reached:
                reached.add(file)
                left += self.imports(file)
        return reached


def lines_of(files):
    """The lines of some files that are not blank."""
    return sum(
        sum(1 for line in file.read_text(encoding="utf-8").split("\n") if line.strip())
        for file in files
    )


class Row:
    """What one function has, and what the functions that it calls have."""

    def __init__(self, side, one):
        self.one = one
        self.functions = side.called(one)
        self.files = side.lemmas(self.functions)

    def answers(self):
        return lines_of(self.one.answers())

    def answers_below(self):
        below = [it for one in self.functions if one is not self.one for it in one.answers()]
        return lines_of(below)


def served(calls):
    """How many of the calls, each the rows of its functions, each file of lemmas serves."""
    count = {}
    for rows in calls:
        for file in set().union(*(row.files for row in rows)):
            count[file] = count.get(file, 0) + 1
    return count


HEAD = "contract clauses answers  below  alone  shared files"


def cells_of_files(files, count):
    """The columns of some files of lemmas."""
    alone = lines_of(file for file in files if count[file] == 1)
    shared = [file for file in files if count[file] > 1]
    return f"{alone:6} {lines_of(shared):7} {len(shared):5}"


def cells(row, count):
    """The columns of a function."""
    return (
        f"{row.one.characters():8} {row.one.clauses():7} {row.answers():7} "
        f"{row.answers_below():6} {cells_of_files(row.files, count)}"
    )


def cells_of_all(calls):
    """The columns of all the functions together, each function and each file once."""
    rows, count = [row for some in calls for row in some], served(calls)
    ones = {row.one for row in rows}
    below = {one for row in rows for one in row.functions} - ones
    return (
        f"{sum(one.characters() for one in ones):8} {sum(one.clauses() for one in ones):7} "
        f"{lines_of(it for one in ones for it in one.answers()):7} "
        f"{lines_of(it for one in below for it in one.answers()):6} {cells_of_files(count, count)}"
    )


def definitions(side):
    """The lines of the definitions in the crates of a side."""
    folders = [CRATES / crate / "specs" for crate in side.crates]
    return lines_of(file for folder in folders for file in folder.rglob("*.antt"))


def print_files(title, count):
    """The files of lemmas that serve several calls, by how many calls."""
    print(f"\n{title}")
    for most in sorted({n for n in count.values() if n > 1}, reverse=True):
        files = sorted(file for file, n in count.items() if n == most)
        # no line break between a file and its lines
        each = [f"{file.parts[-3]}/{file.stem}\xa0{lines_of([file])}" for file in files]
        text = f"{most} of them, {lines_of(files)} lines: {', '.join(each)}"
        print(textwrap.fill(text, 100, subsequent_indent="    ").replace("\xa0", " "))


def print_calls():
    """The calls, and their counterparts."""
    sides = Side(LANES), Side(SOLO)
    calls = [
        [
            [Row(side, side.public(*title.split("::"))) for title in titles[at]]
            for _, *titles in CALLS
        ]
        for at, side in enumerate(sides)
    ]
    counts = [served(of_side) for of_side in calls]
    width = max(len(title) for _, *titles in CALLS for some in titles for title in some)
    print(f"{'call':15} {'function':{width}} {HEAD}")
    for number, (call, *_) in enumerate(CALLS):
        for at in range(2):
            for row in calls[at][number]:
                print(f"{call:15} {row.one.title():{width}} {cells(row, counts[at])}")
    both = [number for number, rows in enumerate(calls[1]) if rows]
    for at, name in enumerate(["many lanes", "a single lane"]):
        some = [calls[at][number] for number in both]
        print(f"{'those with both':15} {name:{width}} {cells_of_all(some)}")
    print(f"{'all':15} {'many lanes':{width}} {cells_of_all(calls[0])}")
    lines = [definitions(side) for side in sides]
    print(f"lines of definitions: many lanes {lines[0]}, a single lane {lines[1]}")
    print_files("Files of lemmas of many lanes that serve several calls", counts[0])
    print_files("Files of lemmas of a single lane that serve several calls", counts[1])


def print_laws():
    """The other public functions of many lanes."""
    side = Side(LANES)
    shown = {title for _, titles, _ in CALLS for title in titles}
    rows = [Row(side, one) for one in side.all_public(LANES) if one.title() not in shown]
    count = served([row] for row in rows)
    width = max(len(row.one.title()) for row in rows)
    print(f"{'function':{width}} {HEAD}")
    for row in rows:
        print(f"{row.one.title():{width}} {cells(row, count)}")
    print(f"{'all':{width}} {cells_of_all([[row] for row in rows])}")
    print_files("Files of lemmas that serve several of these functions", count)


def main(words):
    if set(words) - {"--laws"}:
        sys.exit(__doc__)
    if words:
        print_laws()
    else:
        print_calls()


if __name__ == "__main__":
    main(sys.argv[1:])
