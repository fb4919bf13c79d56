#!/usr/bin/env python3
"""The claims in the pages, made and checked from the sources.

    tools/pages.py            writes the table of claims into docs/VERIFICATION.md, and then checks
    tools/pages.py --check    changes nothing; fails where the table is not that of the sources, a page
                              links to a file or a heading that is not there, cites a function, a
                              clause or a definition that its file does not have, quotes what its
                              source does not say, or is too long

A page cites a clause as [`FUNCTION`](FILE.rt): `CLAUSE`, `CLAUSE`, and a definition as
[`NAME`](FILE.antt), with the fields of a record after a colon in the same way. A method is cited
as `TYPE::METHOD`; a type or a constant of a file, a crate or a path may be linked as well. A fenced
block whose first line names a file after its language quotes that file: a line `..` stands for what
is left out, and line breaks may differ.
"""
import re
import sys
from pathlib import Path

TOP = Path(__file__).resolve().parent.parent
PAGE = TOP / "docs" / "VERIFICATION.md"
BEGIN = "<!-- claims: made by tools/pages.py from the sources -->"
END = "<!-- end of the claims -->"
# Crates with this prefix are to go, and have no rows in the table.
TO_GO = "solo_"
MOST_WORDS = {"README.md": 1500}

FN = re.compile(r"^(\s*)(pub(?:\([^)]*\))? )?(?:const )?(?:unsafe )?fn (\w+)")
ENSURES = re.compile(r"^\s+ensures\*?(?: (\w+))? \{")
OWNER = re.compile(r"^(?:pub(?:\([^)]*\))? )?(?:unsafe )?(impl|trait)\b(.*)$")
CITED = re.compile(r"\[`([^`\]]+)`\]\(([^)\s]+)\)(?::\s+((?:`[^`]+`(?:,\s+|))+))?")
LINK = re.compile(r"\]\(([^)\s]+)\)")
SPAN = re.compile(r"(?<!`)``(?!`).+?(?<!`)``(?!`)", re.S)
QUOTED = re.compile(r"^```\w+ (\S+)\n(.*?)^```$", re.S | re.M)
ITEM = "(?:struct|enum|trait|type|const|static)"
UNNAMED = "its one clause"


class Function:
    """A function of a source file: its type or trait, if it is a method, what its comment says
    first, and its clauses."""

    def __init__(self, owner, trait, name, is_public, comment):
        self.owner, self.trait, self.name, self.is_public = owner, trait, name, is_public
        self.says = sentence(comment)
        self.clauses = []

    def title(self):
        return f"{self.owner}::{self.name}" if self.owner else self.name


def sentence(lines):
    """The first sentence of a comment, as a cell of a table has it."""
    text = " ".join(line.strip() for line in lines)
    text = re.sub(r"^A law: ", "", text)
    text = re.split(r"(?<=\.)\s", text)[0]
    return (text[:1].upper() + text[1:]).replace("|", "\\|")


def owner_of(line):
    """The type and the trait of an `impl` or a `trait` line at the left edge."""
    kind, rest = OWNER.match(line).groups()
    if kind == "trait":
        return re.match(r"\s*(\w+)", rest).group(1), None
    depth, cut = 0, 0
    if rest.startswith("<"):
        for cut, char in enumerate(rest):
            depth += {"<": 1, ">": -1}.get(char, 0)
            if depth == 0:
                break
        rest = rest[cut + 1:]
    head = re.split(r"\{|\bwhere\b", rest)[0].strip()
    if " for " in head:
        trait, owner = head.split(" for ", 1)
    else:
        trait, owner = None, head
    plain = lambda text: re.sub(r"<.*", "", text).split("::")[-1].strip()
    return plain(owner), plain(trait) if trait else None


def functions_of(path):
    """The functions of a file, each with the names of its `ensures` clauses, and the ghost members
    by which an `impl` says a text or a conversion."""
    found, owner, trait, kind = [], None, None, None
    current, indent, comment = None, "", []
    for line in path.read_text().splitlines():
        if line.lstrip().startswith("///"):
            comment.append(line.strip()[3:])
            continue
        if not line.strip().startswith("#["):
            said, comment = comment, []
        at_edge = line[:1] not in ("", " ", "}")
        if at_edge and OWNER.match(line):
            kind = OWNER.match(line).group(1)
            owner, trait = owner_of(line)
            current = None
            continue
        if line.startswith("}"):
            owner = trait = kind = current = None
            continue
        ghost = re.match(r"^    ghost (output|from_gives) = ", line)
        if ghost and owner:
            made = Function(owner, trait, trait, True, [])
            made.clauses.append(ghost.group(1))
            found.append(made)
            continue
        begins = FN.match(line)
        if begins:
            indent, public, name = begins.groups()
            is_public = (public or "").strip() == "pub" or kind == "trait" or trait is not None
            current = Function(owner, trait, name, is_public, said)
            found.append(current)
            if line.rstrip().endswith(("{", "{}", ";")):
                current = None
            continue
        if current is None:
            continue
        clause = ENSURES.match(line)
        if clause:
            current.clauses.append(clause.group(1) or UNNAMED)
            continue
        own = line[: len(line) - len(line.lstrip())] == indent
        if own and re.search(r"(^\s*\{\}?$)|\{$|;$", line.rstrip()):
            current = None
    return found


def crates():
    """The crates that stay, lowest first."""
    deps = {}
    for line in (TOP / "crates.txt").read_text().splitlines():
        line = line.split("#")[0].strip()
        if line:
            name, rest = line.split(":", 1)
            deps[name.split()[0]] = rest.split()
    order, left = [], [name for name in deps if not name.startswith(TO_GO)]
    done = set()
    while left:
        ready = [n for n in left if not any(d in left for d in deps[n])]
        if not ready:
            sys.exit("crates.txt has a cycle")
        order += ready
        left = [n for n in left if n not in ready]
    return order


def exported(root):
    """The names that a crate's root file gives to others: those of `pub use` in a library."""
    text = root.read_text()
    names = set()
    for group in re.findall(r"pub use ([^;]+);", text):
        inner = re.search(r"\{(.*)\}", group, re.S)
        for part in (inner.group(1) if inner else group.split("::")[-1]).split(","):
            words = part.split()
            if words:
                names.add(words[0].split("::")[-1])
    return names


def subject(root):
    """The first sentence of what the root file says of its crate."""
    lines = []
    for line in root.read_text().splitlines():
        if not line.startswith("//!"):
            break
        lines.append(line[3:].strip())
    text = " ".join(lines)
    return re.split(r"(?<=[.;])\s", text)[0].rstrip(";.") + "."


def rows_of(crate):
    """A row for each public function of the crate that has clauses."""
    folder = TOP / "crates" / crate / "src"
    root = folder / "lib.rt"
    if not root.exists():
        return folder / "main.rt", []
    names = exported(root)
    rows = []
    for path in sorted(folder.glob("*.rt")):
        if path.name == "tests.rt" or path.name.endswith("_tests.rt"):
            continue
        link = f"../{path.relative_to(TOP)}"
        for f in functions_of(path):
            if f.is_public and not f.clauses and f.trait in names:
                f.clauses.append(f"those of {f.trait}::{f.name}")
            if not f.is_public or not f.clauses:
                continue
            if (f.owner or f.name) not in names and path != root:
                continue
            clauses = ", ".join(c if " " in c else f"`{c}`" for c in f.clauses)
            row = f"| [`{f.title()}`]({link}) | {f.says} | {clauses} |"
            if all(row != other for other, _ in rows):
                rows.append((row, sum(not c.startswith("those of") for c in f.clauses)))
    return root, rows


def table():
    out, functions, clauses = [], 0, 0
    for crate in crates():
        root, rows = rows_of(crate)
        out.append(f"### {crate}\n\n{subject(root)}\n")
        if rows:
            out += ["| Function | What it does, or says as a law | Clauses |", "|---|---|---|"]
            out += [row for row, _ in rows] + [""]
            functions += len(rows)
            clauses += sum(count for _, count in rows)
        else:
            out.append("A program: no function of its own is public.\n")
    head = f"{functions} public functions with {clauses} clauses, lowest crate first.\n"
    return "\n".join([head, *out]).rstrip() + "\n"


def parts(text):
    if text.count(BEGIN) != 1 or text.count(END) != 1:
        sys.exit(f"{PAGE.name} has not the two lines between which the table stands")
    before, rest = text.split(BEGIN)
    middle, after = rest.split(END)
    return before, middle, after


def headings(path):
    """The anchors of a page's headings, as GitHub makes them."""
    anchors = set()
    for line in path.read_text().splitlines():
        if re.match(r"^#+ ", line):
            title = re.sub(r"^#+ ", "", line).strip().lower()
            title = re.sub(r"[^\w\- ]", "", title)
            anchors.add(title.replace(" ", "-"))
    return anchors


def definition(path, name):
    """The lines of a definition in a file of definitions, or none."""
    begins = re.compile(rf"^(?:\w+ )*pub (?:\w+ )*{re.escape(name)}(?= |$|:)")
    lines = path.read_text().splitlines()
    for i, line in enumerate(lines):
        if begins.match(line):
            body = [line]
            for later in lines[i + 1:]:
                if later and not later.startswith((" ", "--")):
                    break
                body.append(later)
            return body
    return None


def cited_wrong(page, name, target, members):
    """What is wrong with a citation, or nothing."""
    path = (page.parent / target).resolve()
    if not path.exists():
        return None
    if "/" in name or "." in name or name == path.parent.parent.name:
        return None
    members = re.findall(r"`([^`]+)`", members or "")
    if path.suffix == ".rt" and re.search(rf"\b{ITEM} {re.escape(name)}\b", path.read_text()):
        return None
    if path.suffix == ".rt":
        fs = [f for f in functions_of(path) if name in (f.title(), f.name)]
        if not fs:
            return f"{target} has no function {name}"
        clauses = {c for f in fs for c in f.clauses}
        return next((f"{name} has no clause {m}" for m in members if m not in clauses), None)
    if path.suffix == ".antt":
        body = definition(path, name)
        if body is None:
            return f"{target} has no definition {name}"
        fields = {m.group(1) for m in (re.match(r"\s+(?:pub )?(\w+) :", line) for line in body) if m}
        return next((f"{name} has no field {m}" for m in members if m not in fields), None)
    return None


def quoted_wrong(target, quote):
    """The first part of a quotation that its file does not have, or nothing."""
    path = TOP / target
    if not path.exists():
        return f"no file {target}"
    squeezed = re.sub(r"\s", "", path.read_text())
    for part in re.split(r"^\.\.$", quote, flags=re.M):
        if re.sub(r"\s", "", part) not in squeezed:
            return f"{target} does not say: {part.strip().splitlines()[0].strip()}"
    return None


def wrong():
    """All that is wrong in the pages."""
    pages = [TOP / "README.md", TOP / "CONTRIBUTING.md", *sorted((TOP / "docs").glob("*.md"))]
    for page in pages:
        if not page.exists():
            continue
        name = page.relative_to(TOP)
        text = SPAN.sub("", page.read_text())
        for target in LINK.findall(text):
            if re.match(r"^[a-z]+:", target):
                continue
            file, _, anchor = target.partition("#")
            path = (page.parent / file).resolve() if file else page
            if not path.exists():
                yield f"{name}: no file {target}"
            elif anchor and path.suffix == ".md" and anchor not in headings(path):
                yield f"{name}: no heading {target}"
        for title, target, members in CITED.findall(text):
            fault = cited_wrong(page, title, target, members)
            if fault:
                yield f"{name}: {fault}"
        for target, quote in QUOTED.findall(page.read_text()):
            fault = quoted_wrong(target, quote)
            if fault:
                yield f"{name}: {fault}"
        most = MOST_WORDS.get(str(name))
        words = len(page.read_text().split())
        if most and words > most:
            yield f"{name}: {words} words, more than {most}"
    if parts(PAGE.read_text())[1].strip() != table().strip():
        yield f"{PAGE.relative_to(TOP)}: the table is not that of the sources; `make pages` writes it"


def main():
    if sys.argv[1:] not in ([], ["--check"]):
        sys.exit(__doc__)
    if not sys.argv[1:]:
        before, _, after = parts(PAGE.read_text())
        PAGE.write_text(f"{before}{BEGIN}\n\n{table()}\n{END}{after}")
    faults = list(wrong())
    for fault in faults:
        print(fault)
    sys.exit(1 if faults else 0)


main()
