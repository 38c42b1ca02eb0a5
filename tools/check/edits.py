"""Tries the wrong bodies that stand outside the gate: the edits crates/NAME/must-fail-by-hand/*.edit, which the proofs have to refuse as those of
must-fail/. It runs `rt must-fail` in a copy of the repository, in which they stand in must-fail/, and begins with what a check on this
machine kept. It prints a line for each edit, and last how many were refused by a goal, how many only by a limit of the prover and how many only
because a proof names what the edit took away. These two say little of the contract, as BAD edits say nothing. It ends with 1 where one
wasn't refused, wasn't tried or is BAD.

python3 tools/check/edits.py graph_cycles
python3 tools/check/edits.py

The first tries the edits of the crates that are named, the second those of all, which takes hours.
"""

import os
import re
import shutil
import subprocess
import sys
import tempfile

TOP = os.path.dirname(os.path.dirname(os.path.dirname(os.path.abspath(__file__))))
# what `rt must-fail` says of an edit begins or goes on so
KINDS = {
    "refused by a goal": r"refused, as it must be(?! \(only)",
    "only by a limit": r"refused, as it must be \(only by a limit",
    "only by a name that a proof cites": r"refused, as it must be \(only because a proof",
    "NOT REFUSED": r"NOT REFUSED",
    "BAD": r"BAD EDIT",
    "not tried": r"",
}
REFUSED = list(KINDS)[:3]


def edits_of(crate):
    """The names of the edits in a crate's must-fail-by-hand/, which it may lack."""
    folder = f"{TOP}/crates/{crate}/must-fail-by-hand"
    return sorted(os.listdir(folder)) if os.path.isdir(folder) else []


def copy_to(folder):
    """Copies what checks read to the folder, but no edit of the gate and nothing that checks kept."""
    shutil.copytree(f"{TOP}/crates", f"{folder}/crates", ignore=shutil.ignore_patterns("out", "must-fail"))
    for name in ("crates.txt", "HANDLES"):
        shutil.copy(f"{TOP}/{name}", folder)


def told_of(crate, folder):
    """What is told of each edit in a crate's must-fail-by-hand/, by its name, after a try in the copy."""
    os.rename(f"{folder}/crates/{crate}/must-fail-by-hand", f"{folder}/crates/{crate}/must-fail")
    run = subprocess.run(["rt", "must-fail", crate], cwd=folder, stdout=subprocess.PIPE, text=True, check=False)
    told = {}
    for line in run.stdout.splitlines():
        found = re.match(r"rt: must-fail [^/]+/(\S+): (.*)", line)
        if found:
            told[found[1]] = found[2]
        else:
            print(line, file=sys.stderr)
    return told


def main():
    crates = list(dict.fromkeys(sys.argv[1:])) or sorted(filter(edits_of, os.listdir(f"{TOP}/crates")))
    for crate in crates:
        if not edits_of(crate):
            sys.exit(f"crates/{crate}/must-fail-by-hand has no edit")
    found = {kind: [] for kind in KINDS}
    with tempfile.TemporaryDirectory(prefix="edits-") as folder:
        copy_to(folder)
        for crate in crates:
            told = told_of(crate, folder)
            for edit in edits_of(crate):
                text = told.get(edit, "NOT TRIED")
                found[next(kind for kind, form in KINDS.items() if re.match(form, text))].append(f"{crate}/{edit}")
                print(f"{crate}/{edit}: {text}", flush=True)
    for kind in list(KINDS)[1:]:
        print(*(f"{kind}: {edit}" for edit in found[kind]), sep="\n", end="\n" * bool(found[kind]))
    print(", ".join(f"{len(edits)} {kind}" for kind, edits in found.items() if edits or kind in REFUSED))
    sys.exit(any(edits for kind, edits in found.items() if kind not in REFUSED))


if __name__ == "__main__":
    main()
