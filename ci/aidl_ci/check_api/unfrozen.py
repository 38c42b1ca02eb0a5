"""What isn't frozen: a tree beside its latest version, for a release branch, and the tree of another revision beside it, for a note."""

from __future__ import annotations

import difflib
import os
import tempfile
from typing import Iterator

from ..dump import sources
from ..guard import Fault, Stop
from ..lines import with_phrase
from ..verdicts import rule_line
from .judging import Judge
from .log import Finder
from .repository import Repository, text

FILES = ("100644", "100755")
SHOWN = 200  # lines of a difference


def dumped(judge: Judge, tree: str, room: str) -> dict[str, list[str]]:
    """The lines of each file of a tree's dump."""
    judge.program.done("dump", tree, room)
    found = {}
    for path in sources(room):
        with open(os.path.join(room, path), encoding="utf-8") as file:
            found[path] = file.read().splitlines()
    return found


def differences(old: dict[str, list[str]], new: dict[str, list[str]], names: tuple[str, str]) -> Iterator[str]:
    """What is different, as `diff -u` prints it."""
    for path in sorted({*old, *new}):
        before, after = (f"{name}/{path}" if path in side else "/dev/null" for name, side in zip(names, (old, new)))
        yield from difflib.unified_diff(old.get(path, []), new.get(path, []), before, after, lineterm="", n=1)


def want_frozen(judge: Judge, tree: str, latest: str, api: str) -> None:
    """Ends the job where a tree isn't what the latest version has, and shows what isn't frozen."""
    judge.log.show(f"compare the dumps of {latest} and {tree}")
    with tempfile.TemporaryDirectory() as room:
        old, new = (dumped(judge, folder, os.path.join(room, name)) for folder, name in ((latest, "old"), (tree, "new")))
    lines = list(differences(old, new, (latest, tree)))
    for line in lines[:SHOWN]:
        judge.log.show(line)
    if lines[SHOWN:]:
        judge.log.show(f"and {len(lines) - SHOWN} lines more")
    if lines:
        raise Stop(1, f"{tree} isn't what {latest} has: freeze it first: {judge.command('freeze', tree, api)}")
    judge.log.show(f"{tree} is what {latest} has, type by type")


def take(repository: Repository, commit: str, inside: bytes, room: str) -> int:
    """Writes the sources that a commit has below a path from the top; how many there are."""
    start = inside + b"/" if inside else b""
    found = [entry for entry in repository.entries(commit) if entry.path.startswith(start) and entry.path.endswith(b".aidl") and entry.mode in FILES]
    if any({b"..", b".", b""} & set(entry.path.split(b"/")) for entry in found):
        raise Fault("the revision has a path that leads out of its folder")
    for entry, data in zip(found, repository.contents(found)):
        path = os.path.join(os.fsencode(room), entry.path[len(start) :])
        os.makedirs(os.path.dirname(path), exist_ok=True)
        with open(path, "wb") as file:
            file.write(data)
    return len(found)


def against(judge: Judge, tree: str, revision: str) -> None:
    """Judges the tree of a revision against the tree, and prints that as a note: whoever builds from the revision may be broken, and nothing frozen is."""
    here = Repository(".")
    commit = here.wanted(revision)
    inside = here.inside(tree)
    judge.log.show(f"note: aidl judge {revision}:{text(inside)} {tree}")
    with tempfile.TemporaryDirectory() as room:
        if take(here, commit, inside, room) == 0:
            judge.log.show(f"note: {revision} has no sources there")
            return
        ran = judge.program.run("judge", room, tree)
    finder = Finder(tree)
    for line in ran.lines:
        rule = rule_line(line)
        said = with_phrase(line, rule.code) if rule else line.replace(room, f"{revision}:{text(inside)}")
        judge.log.show(f"note: {said}")
        if rule:
            judge.log.annotate(f"{revision}, which isn't frozen: {said}", "notice", finder.find(rule.place) if judge.log.github else None)
    ends = {0: "nothing that isn't frozen breaks it", 1: f"that is no verdict: {revision} isn't frozen"}
    judge.log.show(f"note: {ends.get(ran.status) or ran.ended().replace(room, revision)}")
