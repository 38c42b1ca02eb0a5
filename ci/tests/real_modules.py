#!/usr/bin/env python3
"""How much of real source is read through stand-ins: copies each interface and each structured type of Android's sources with what it imports, and
checks the copy. Prints how many are read as they lie, through stand-ins, or are refused, by which rule; exit 1 where fewer than the least are."""

from __future__ import annotations

import collections
import os
import re
import shutil
import subprocess
import sys
import tempfile
from concurrent.futures import ThreadPoolExecutor
from typing import Iterator

sys.dont_write_bytecode = True
sys.path.insert(0, os.path.join(os.path.dirname(os.path.realpath(__file__)), ".."))
from aidl_ci.dump import sources  # noqa: E402
from aidl_ci.guard import Fault, arguments, run  # noqa: E402
from aidl_ci.program import Program  # noqa: E402
from aidl_ci.standins import stage_trees  # noqa: E402
from aidl_ci.standins.lexer import Text  # noqa: E402
from aidl_ci.standins.parser import parse  # noqa: E402
from aidl_ci.standins.tree import Tree  # noqa: E402

PACKAGE = re.compile(r"^\s*package\s+([\w.]+)\s*;", re.M)
FROZEN = re.compile(r"(^|/)aidl_api/[^/]+/[^/]+/")


def roots_of(folder: str) -> dict[str, str]:
    """The path of each source to the root that its package gives it."""
    found = {}
    for path in sources(folder):
        with open(os.path.join(folder, path), encoding="latin-1") as file:
            package = PACKAGE.search(re.sub(r"//[^\n]*|/\*.*?\*/", "", file.read(), flags=re.S))
        below = os.path.join(*package[1].split("."), os.path.basename(path)) if package else os.path.basename(path)
        if path.endswith(below):
            found[path] = path[: -len(below)].rstrip("/")
    return found


def wanted(folder: str, path: str) -> bool:
    """Whether a file has an interface or a type with a body."""
    with open(os.path.join(folder, path), "rb") as file:
        return any(one.structured for one in parse(Text(path, path, file.read())).declarations)


class Alone(Tree):
    """One file of a root as a tree, with what it imports."""

    def __init__(self, root: str, path: str, imports: list[str]):
        self.folder, self.imports = root, imports
        self.sources, self.imported, self.declared, self.surroundings = {}, {}, {}, {}
        self.add(os.path.join(root, path), path)
        self.bring()


def came_to(program: Program, folder: str, root: str, path: str, roots: list[str]) -> str:
    """What comes of a file: `as it lies`, `through stand-ins`, or why not."""
    room = tempfile.mkdtemp()
    try:
        tree = Alone(os.path.join(folder, root), path, roots)
        replaced = stage_trees([tree], [os.path.join(room, "copy")])
        checked = program.verdict("check", os.path.join(room, "copy"))
        if checked.status:
            return "refused by check: " + checked.lines[0].rpartition(": ")[2]
        return "through stand-ins" if replaced else "as it lies"
    except Fault as why:
        return "refused: " + re.sub(r"\b\w+(\.\w+)+", "NAME", str(why).partition(": ")[2])
    finally:
        shutil.rmtree(room)


def questions(folder: str) -> Iterator[tuple[str, str]]:
    for path, root in roots_of(folder).items():
        if not FROZEN.search(path) and wanted(folder, path):
            yield root, path[len(root) :].lstrip("/")


def main(words: list[str]) -> int:
    reader = arguments("real_modules.py", __doc__ or "")
    reader.add_argument("--least", type=int, default=960, help="how many have to be read through stand-ins or refused by a rule that is told")
    reader.add_argument("--show", action="store_true", help="what comes of each file that isn't read")
    reader.add_argument("sources", metavar="SOURCES", help="the folder of Android's sources")
    options = reader.parse_args(words)
    program = Program()
    asked = list(questions(options.sources))
    roots = sorted({os.path.join(options.sources, root) for root in roots_of(options.sources).values() if "aidl_api" not in root})
    with ThreadPoolExecutor(2) as workers:
        answers = list(workers.map(lambda one: came_to(program, options.sources, *one, roots), asked))
    for what, count in collections.Counter(answers).most_common():
        print(f"{count:5} {what}")
    for (root, path), answer in zip(asked, answers):
        if options.show and answer.startswith("refused"):
            print(f"{root}/{path}: {answer}")
    read = sum(one in ("as it lies", "through stand-ins") for one in answers)
    told = sum(not answer.startswith("refused by check: syntax") for answer in answers)
    print(f"{len(asked)} interfaces and types with a body, {read} read, {told} read or refused by a rule")
    return 0 if told >= options.least else 1


if __name__ == "__main__":
    run(main)
