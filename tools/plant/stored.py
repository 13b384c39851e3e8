"""Tries the stored edits of a crate by its quick check, and tells which of them the prover refuses.

Usage: python3 tools/plant/stored.py FOLDER CRATE...

The edits stand in tools/plant/stored/CRATE and in crates/CRATE/must-fail, in the form of must-fail edits. FOLDER is a copy
of the repository outside the tree, with what its checks have kept in out/, in which each edit is made and taken back.
The exit status is 1 if an edit was not refused.
"""

import subprocess
import sys
from pathlib import Path

TREE = Path(__file__).resolve().parents[2]


def read_edit(path):
    """The file of an edit and its pairs of an old and a new text."""
    lines = [line.split(": ", 1) for line in path.read_text().splitlines() if ": " in line]
    (name,) = [text for key, text in lines if key == "file"]
    return name, list(zip((text for key, text in lines if key == "old"), (text for key, text in lines if key == "new")))


def try_edit(folder, crate, path):
    """Makes an edit, checks the crate and takes the edit back; gives the verdict and the first message."""
    name, pairs = read_edit(path)
    source = folder / "crates" / crate / name
    before = after = source.read_text()
    for old, new in pairs:
        if after.count(old) != 1:
            return "BAD EDIT", f"an old text stands {after.count(old)} times in {name}"
        after = after.replace(old, new)
    source.write_text(after)
    try:
        run = subprocess.run(["rt", "check"], cwd=folder / "crates" / crate, capture_output=True, text=True)
    finally:
        source.write_text(before)
    said = run.stdout + run.stderr
    messages = [line for line in said.splitlines() if ": error" in line or line.startswith("note: /")]
    first = messages[0][:200] if messages else ""
    if "logic=not-proved" in said:
        return "refused", first
    return ("NOT REFUSED" if run.returncode == 0 else "BAD EDIT"), first


def main():
    folder, crates = Path(sys.argv[1]), sys.argv[2:]
    failed = 0
    for crate in crates:
        stored = (TREE / "tools/plant/stored" / crate).glob("*.edit")
        gate = (TREE / "crates" / crate / "must-fail").glob("*.edit")
        for path in sorted([*stored, *gate], key=lambda edit: edit.stem):
            verdict, first = try_edit(folder, crate, path)
            failed += verdict != "refused"
            print(f"{crate}/{path.stem}: {verdict} | {first}", flush=True)
    print(f"{failed} not refused")
    return 1 if failed else 0


sys.exit(main())
