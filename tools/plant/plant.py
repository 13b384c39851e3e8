"""Plants small edits in the code of a crate, one at a time, and tells which of them the prover refuses.

Usage: python3 tools/plant/plant.py CRATE COUNT SEED [--results FILE] [--work FOLDER] [--alone] [--list]

The edits are chosen by the seed, in turn over all functions of the crate. Each is made in a copy of the repository
outside the tree, with what the crates' checks have kept in out/, so that a check does only what the edit changes. An edit that does not
reach the prover is not counted. One that the crate's own check lets pass is also tried on the crates above it, unless
--alone is given. COUNT edits are judged in all: results are appended to FILE, and a later call with the same file goes
on where it stopped. At the end every edit is printed that was not refused, or was refused first at a name that a proof
file cites and that is gone. --list prints the edits and judges none.
"""

import argparse
import json
import os
import random
import re
import shutil
import subprocess
import sys
import tempfile
import time
from pathlib import Path

sys.dont_write_bytecode = True
from edits import edits_of  # noqa: E402

TREE = Path(__file__).resolve().parents[2]
LONGEST_CHECK = 1200
NOT_TRIED_ABOVE = "not tried above"


def is_test(path):
    return path.name == "tests.rt" or "tests" in path.parts


def all_edits(crate):
    """Each function of the crate with its edits: a list of (file, edit) for each (file, function)."""
    functions = {}
    folder = TREE / "crates" / crate / "src"
    for path in sorted(folder.rglob("*.rt")):
        if not is_test(path.relative_to(folder)):
            for edit in edits_of(path.read_text()):
                functions.setdefault((path, edit.function), []).append((path, edit))
    return functions


def in_turn(functions, seed):
    """One edit of each function after another, functions and edits in an order that the seed gives."""
    dice = random.Random(seed)
    queues = [list(edits) for _, edits in sorted(functions.items(), key=lambda entry: str(entry[0]))]
    for queue in queues:
        dice.shuffle(queue)
    dice.shuffle(queues)
    while queues:
        for queue in queues:
            yield queue.pop()
        queues = [queue for queue in queues if queue]


def crates_above(crate):
    """The crates that stand on this one, lower ones first."""
    stands_on, above = {}, []
    for line in (TREE / "crates.txt").read_text().splitlines():
        name, _, below = line.partition(":")
        if name.strip() and not name.startswith("#"):
            stands_on[name.split()[0]] = below.split()
    changed = True
    while changed:
        changed = False
        for name, below in stands_on.items():
            if name not in above and any(one == crate or one in above for one in below):
                above.append(name)
                changed = True
    return above


def make_copy(work):
    """The repository's crates in the folder, with what their checks have kept."""
    work.mkdir(parents=True, exist_ok=True)
    shutil.rmtree(work / "crates", ignore_errors=True)
    shutil.copytree(TREE / "crates", work / "crates", symlinks=True)
    shutil.copy2(TREE / "crates.txt", work / "crates.txt")


def check(work, crate):
    """The verdict of `rt check`: proved, refused or unfit, and the first line that says why."""
    run = subprocess.run(["rt", "check"], cwd=work / "crates" / crate, stdout=subprocess.PIPE, stderr=subprocess.STDOUT,
                         text=True, errors="replace", timeout=LONGEST_CHECK)
    if run.returncode == 0:
        return "proved", ""
    says = [line for line in run.stdout.splitlines() if re.search(r"error|no proof|NOT PROVED", line)]
    why = says[0] if says else (run.stdout.splitlines() or ["nothing was said"])[-1]
    reached = "logic=not-proved" in run.stdout
    return "refused" if reached else "unfit", why.replace(str(work) + "/", "")[:300]


def judge(work, crate, alone):
    """Tries the crate and, if it is still proved, the crates above it."""
    verdict, why = check(work, crate)
    if verdict != "proved":
        return verdict, why
    for above in [] if alone else crates_above(crate):
        verdict, why = check(work, above)
        if verdict != "proved":
            return "refused above", f"{above}: {why}"
    return "survived", NOT_TRIED_ABOVE if alone else ""


def described(crate, path, edit, text):
    line = text.count("\n", 0, edit.start) + 1
    short = lambda part: " ".join(part.split())
    return {
        "crate": crate, "place": f"{path.relative_to(TREE)}:{line}", "function": edit.function, "what": edit.what,
        "offset": edit.start, "old": short(text[edit.start:edit.end]), "new": short(edit.new),
    }


def told(one):
    return (f"{one['place']} {one['function']}: {one['what']}: `{one['old']}` -> `{one['new']}`: "
            f"{one['verdict'].upper()} {one['why']}")


def at_a_name(one):
    """Whether a refusal shows first that a proof file cites a step that is gone, and not that a fact fails."""
    return one["verdict"].startswith("refused") and re.search(r"`goal\.[^`]*`: module", one["why"]) is not None


def plant(arguments):
    """Judges edits until there are enough of them, and returns all that are judged."""
    known, judged = {}, []
    key = lambda one: tuple(one[part] for part in ("crate", "place", "offset", "old", "new"))
    if arguments.results.exists():
        for line in arguments.results.read_text().splitlines():
            known[key(json.loads(line))] = json.loads(line)
    make_copy(arguments.work)
    for path, edit in in_turn(all_edits(arguments.crate), arguments.seed):
        if len(judged) >= arguments.count:
            break
        text = path.read_text()
        one = described(arguments.crate, path, edit, text)
        before = known.get(key(one))
        if before is None or before["why"] == NOT_TRIED_ABOVE and not arguments.alone:
            copy = arguments.work / path.relative_to(TREE)
            copy.write_text(text[:edit.start] + edit.new + text[edit.end:])
            began = time.monotonic()
            try:
                one["verdict"], one["why"] = judge(arguments.work, arguments.crate, arguments.alone)
            except subprocess.TimeoutExpired:
                one["verdict"], one["why"] = "undecided", f"no verdict after {LONGEST_CHECK} s"
            copy.write_text(text)
            one["seconds"] = round(time.monotonic() - began)
            with arguments.results.open("a") as results:
                results.write(json.dumps(one, ensure_ascii=False) + "\n")
            known[key(one)] = one
            print(told(one), f"({one['seconds']} s)", flush=True)
        if known[key(one)]["verdict"] != "unfit":
            judged.append(known[key(one)])
    return judged


def main():
    parser = argparse.ArgumentParser(description=__doc__, formatter_class=argparse.RawDescriptionHelpFormatter)
    parser.add_argument("crate")
    parser.add_argument("count", type=int)
    parser.add_argument("seed", type=int)
    outside = Path(tempfile.gettempdir()) / f"plant-{os.getuid()}"
    parser.add_argument("--results", type=Path, default=outside / "results.jsonl")
    parser.add_argument("--work", type=Path, default=outside / "copy")
    parser.add_argument("--alone", action="store_true", help="do not try the crates above")
    parser.add_argument("--list", action="store_true", help="print the edits in their order and judge none")
    arguments = parser.parse_args()
    if arguments.list:
        for path, edit in in_turn(all_edits(arguments.crate), arguments.seed):
            one = described(arguments.crate, path, edit, path.read_text())
            print(f"{one['place']} {one['function']}: {one['what']}: `{one['old']}` -> `{one['new']}`")
        return
    arguments.results.parent.mkdir(parents=True, exist_ok=True)
    judged = plant(arguments)
    print(f"\n{arguments.crate}, seed {arguments.seed}: {len(judged)} edits judged")
    for verdict in ("refused", "refused above", "survived", "undecided"):
        print(f"  {verdict}: {sum(one['verdict'] == verdict for one in judged)}")
    print(f"  refused first at a name: {sum(at_a_name(one) for one in judged)}")
    for one in judged:
        if one["verdict"] in ("survived", "undecided") or at_a_name(one):
            print(told(one))


if __name__ == "__main__":
    sys.exit(main())
