"""Spells the repository's own definitions and lemmas in snake case, where they were spelled with hyphens.

Usage: python3 tools/port/respell.py [--dry] [TREE]: run once at the top of a tree on which port.py has run.

It renames what specs/ and proofs/ define (definitions, lemmas, fields, constructors, local names), everywhere in .antt and
.rt files, in must-fail edits, stored edits, and in backquotes in docs/ and README. It leaves the names that the check makes
(goals, invariants, measures, steps behind `c.` and `l.`), names of the library, code and strings. It prints the names that
fall together with another name.
"""

import re
import sys
from pathlib import Path

IDENT = r"[A-Za-z0-9_'\-α-ωΑ-Ω]+"
TOKEN = re.compile(r"(?<![A-Za-z0-9_'\-])([A-Za-z][A-Za-z0-9_'\-]*)")
DEFINED = re.compile(r"^\s*(?:(?:abbrev|unfoldable|pub|record|data|let|\|)\s+)*(" + IDENT + r"(?:\s+" + IDENT + r")*)\s*:\s")
DOTTED = re.compile(r"^\s*(?:pub\s+)?(" + IDENT + r")\s*:\s")
LET = re.compile(r"\blet\s+(" + IDENT + r")\s*[:=]")
MADE = re.compile(r"\b(?:goal|need)\.(" + IDENT + r")")


def snake(name):
    return name.replace("-", "_")


def antt_files(tree):
    return sorted(tree.glob("crates/*/specs/**/*.antt")) + sorted(tree.glob("crates/*/proofs/**/*.antt"))


def own_names(tree):
    """The hyphened names that the repository defines, and those of the library that it imports."""
    own, made, library = set(), set(), set()
    for path in antt_files(tree):
        for line in path.read_text().splitlines():
            made.update(MADE.findall(line))
            imported = re.match(r"\s*(?:ghost )?use Rattle\.std\b.*?\{(.*)\}", line)
            if imported:
                library.update(part.strip().split(" as ")[0] for part in imported.group(1).split(","))
            match = DEFINED.match(line)
            if match and not MADE.search(line):
                own.update(match.group(1).split())
            own.update(LET.findall(line))
    for path in antt_files(tree) + sorted(tree.glob("crates/*/src/**/*.rt")):
        own.update(re.findall(r"\bas ([A-Za-z][A-Za-z0-9_'\-]*)(?=[,}])", path.read_text()))
    hyphened = {name for name in own if "-" in name.strip("-") and not name.startswith("-")}
    return hyphened - made - library, library, own


def renamed(text, names):
    """The text with each of these names in snake case, but for steps and goals that the check makes."""

    def spell(match):
        name = match.group(1)
        before = text[max(0, match.start() - 5) : match.start()]
        if name not in names or re.search(r"(?<![A-Za-z0-9_'\-])(?:c|l|goal)\.$", before):
            return name
        return snake(name)

    return TOKEN.sub(spell, text)


def in_backquotes(text, names):
    return re.sub(r"`[^`\n]*`", lambda match: renamed(match.group(0), names), text)


def outside_strings(text, names):
    parts = re.split(r'("(?:[^"\\]|\\.)*"|//[^\n]*)', text)
    return "".join(part if index % 2 else renamed(part, names) for index, part in enumerate(parts))


def main():
    arguments = [argument for argument in sys.argv[1:] if argument != "--dry"]
    tree = Path(arguments[0]) if arguments else Path(".")
    names, library, own = own_names(tree)
    code = set()
    for path in tree.glob("crates/*/src/**/*.rt"):
        code.update(re.findall(r"\b(?:let|let mut|const|fn|struct|enum|ghost)\s+([A-Za-z_0-9]+)|\b([a-z_0-9]+)\s*:", path.read_text()))
    code = {name for pair in code for name in pair if name}
    for name in sorted(names):
        new = snake(name)
        if new in own or new in library:
            print(f"falls together: {name} with {new}")
        if new in code:
            print(f"a name of the code, too: {name} with {new}")
    print(f"{len(names)} names")
    if "--dry" in sys.argv:
        return
    changed = 0
    edits = list(tree.glob("crates/*/must-fail/*.edit")) + list(tree.glob("tools/plant/stored/*/*.edit"))
    pages = list(tree.glob("docs/*.md")) + list(tree.glob("README.md"))
    for path in antt_files(tree) + sorted(tree.glob("crates/*/src/**/*.rt")) + edits + pages:
        text = path.read_text()
        if path.suffix == ".rt":
            new = outside_strings(text, names)
        elif path.suffix == ".md":
            new = in_backquotes(text, names)
        else:
            new = renamed(text, names)
        if new != text:
            path.write_text(new)
            changed += 1
    print(f"{changed} files")


main()
