"""Counts in the sources of a commit the places of each older form, and lists them.

Usage: python3 tools/forms/count.py [COMMIT] [POINT..]

COMMIT is HEAD if left out; '.' counts the files as they lie in the tree. With points named, their places are listed.
A place is a line that a pattern below finds in crates/*/src. What a pattern cannot see is listed in docs/DESIGN-PASS.md.
"""

import collections
import itertools
import re
import subprocess
import sys
from pathlib import Path

TREE = Path(__file__).resolve().parents[2]

# A point, what is counted, and the pattern that a line has to show.
PATTERNS = [
    ("1", "refusals that are numbers or bools", r"-> Result<.*, (u8|u32|u64|usize|bool)>|^\) -> Result<.*, usize>"),
    ("1", "a bool or a byte that says which", r"-> Result<bool|^\s+(pub )?end: u8,"),
    ("1", "comments by which 0 means none", r"^\s*//.*(\b0 if (there is none|no line is)|or 0 for|zeros while|0 without|; 0 before)"),
    ("3", "loops that count", r"\bfor \w+ in [^{]*\.\.|\bwhile (?!let)|\bloop \{"),
    ("4", "blank values written out", r"^(pub )?const NO\w*:|\[(Amounts|Record|Line) \{|= Record \{|^    amounts: Amounts \{"),
    ("4", "order or letters by casts", r"as u8 <= |letter as u32|fault\.layer\(\) as u8"),
    ("6", "fixed arrays with a count beside", r"^\s+(pub )?count: usize,$"),
    ("7", "closures and dyn values taken", r"\bdyn\b|impl Fn|: Fn\w*\("),
]


def sources(commit):
    """The text of each source file of the commit."""
    if commit == ".":
        files = [p for p in sorted(TREE.glob("crates/*/src/**/*.rt"))]
        return {str(p.relative_to(TREE)): p.read_text() for p in files}
    run = ["git", "-C", str(TREE), "ls-tree", "-r", "--name-only", commit, "crates"]
    names = subprocess.run(run, capture_output=True, text=True, check=True).stdout.split()
    names = [n for n in names if re.match(r"crates/\w+/src/.*\.rt$", n)]
    show = lambda n: subprocess.run(["git", "-C", str(TREE), "show", f"{commit}:{n}"], capture_output=True, text=True, check=True).stdout
    return {n: show(n) for n in names}


def is_place(pattern, line):
    """Whether a line shows a pattern; a comment does only where the pattern asks for one."""
    return bool(re.search(pattern, line)) and ("//" in pattern or not line.lstrip().startswith("//"))


def functions(text):
    """The name, the parameters, the clauses and the body of each function with a body."""
    for m in re.finditer(r"\bfn (\w+)(?:<[^(]*>)?\(([^)]*)\)([^{;]*?(?:\n\s+(?:requires|ensures)[^\n]*)*)\s*\{\n(.*?)\n( *)\}\n", text, re.S):
        yield m.group(1), " ".join(m.group(2).split()), m.group(3), m.group(4)


def shape(body):
    """The body with numbers and names of constants blotted out."""
    body = re.sub(r"//[^\n]*", "", body)
    body = re.sub(r"b?'[^']*'|b?\"[^\"]*\"|\b[0-9][0-9_]*\b|\b[A-Z][A-Z_]+\b", "#", body)
    return " ".join(body.split())


def twins(files):
    """Groups of functions of two lines and more with one body but for numbers and constants."""
    groups = collections.defaultdict(list)
    for name, text in files.items():
        for function, _, _, body in functions(text):
            if body.count("\n") >= 1:
                groups[shape(body)].append(f"{name}: {function}")
    return [g for g in groups.values() if len(g) > 1]


def clauses(files):
    """What is required in three contracts or more."""
    found = collections.defaultdict(list)
    for name, text in files.items():
        for m in re.finditer(r"requires(?: \w+)? (\{.*\})", text):
            found[m.group(1)].append(f"{name}: {m.group(1)}")
    return [g for g in found.values() if len(g) > 2]


def travellers(files):
    """Pairs of parameters that three functions or more with a requires have."""
    found = collections.defaultdict(list)
    for name, text in files.items():
        for function, parameters, clause, _ in functions(text):
            if "requires" in clause:
                parts = sorted({p.strip() for p in re.split(r",\s*(?![^<\[(]*[>\])])", parameters) if ":" in p})
                for pair in itertools.combinations(parts, 2):
                    found[pair].append(f"{name}: {function} {pair[0]}, {pair[1]}")
    return [g for g in found.values() if len(g) > 2]


def main():
    words = sys.argv[1:]
    commit = words.pop(0) if words and not words[0].isdigit() else "HEAD"
    files = sources(commit)
    rows = []
    for point, what, pattern in PATTERNS:
        hits = [f"{n}:{k}: {line.strip()}" for n, t in files.items() for k, line in enumerate(t.splitlines(), 1) if is_place(pattern, line)]
        rows.append((point, what, hits))
    rows.append(("2", "functions with one body but for numbers", [p for g in twins(files) for p in g]))
    rows.append(("5", "requires that stand three times and more", [p for g in clauses(files) for p in g]))
    rows.append(("5", "pairs of parameters that travel together", [p for g in travellers(files) for p in g]))
    for point, what, hits in sorted(rows):
        print(f"{point}  {len(hits):4}  {what}")
        if point in words:
            print("".join(f"        {hit}\n" for hit in hits), end="")


if __name__ == "__main__":
    main()
