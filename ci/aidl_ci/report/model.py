"""All that a report says, in every form: the versions, what each step broke and added, and the verdict."""

from __future__ import annotations

import os
import re
from dataclasses import dataclass, field
from typing import Iterator, Optional, Sequence

from ..dump import Declaration, Member
from ..guard import Fault
from .additions import Added, Warned, added, warned
from .breaks import Cause, causes
from .made import Ends
from .trees import Room, Tree

VERIFIED = re.compile(r"(\d+) (?:[0-9a-f]{40} ok|missing [0-9a-f]{40}|kept (?:-|(?:[0-9a-f]{2})+) [0-9a-f]{40})")


@dataclass
class Step:
    """From one version to the next."""

    old: Tree
    new: Tree
    causes: list[Cause]
    added: list[Added]
    warned: list[Warned]

    def lines(self) -> int:
        return sum(len(cause.lines) for cause in self.causes)


@dataclass
class Report:
    """All that is said. `kept` are the lines of `verify`, `notes` what is said in front."""

    title: str
    trees: list[Tree]
    kept: list[str]
    steps: list[Step]
    notes: Sequence[str] = ()
    faulty: list[Tree] = field(default_factory=list)

    @property
    def torn(self) -> list[str]:
        return [line for line in self.kept if not line.endswith(" ok")]

    @property
    def causes(self) -> list[Cause]:
        return [cause for step in self.steps for cause in step.causes]

    @property
    def good(self) -> bool:
        return not (self.faulty or self.torn or self.causes)

    @property
    def status(self) -> int:
        """The exit: 0 where nothing breaks and all is whole, else 1."""
        return 0 if self.good else 1

    def verdict(self) -> str:
        """The verdict in a few words."""
        if self.faulty:
            return f"{counted(sum(len(tree.faults) for tree in self.faulty), 'fault')}, so nothing was judged"
        parts = [f"{counted(len(self.causes), 'breaking change')} ({counted(sum(step.lines() for step in self.steps), 'line')} of the judge)"] if self.causes else []
        parts += [f"{counted(len(self.torn), 'frozen version')} not intact"] if self.torn else []
        return "; ".join(parts) or "compatible, both ways"

    def since(self) -> Iterator[tuple[Declaration, Tree, list[tuple[Member, Tree]]]]:
        """Of each declaration of the last tree, and of each of its members, the first tree from which on it is there."""
        for name, one in self.trees[-1].declarations.items():
            yield one, self.first(name, None), [(member, self.first(name, member.name)) for member in one.members.values()]

    def first(self, name: str, member: Optional[str]) -> Tree:
        """The tree since which all later ones have a declaration, or its member."""
        found = self.trees[-1]
        for tree in reversed(self.trees):
            one = tree.declarations.get(name)
            if one is None or (member is not None and member not in one.members):
                break
            found = tree
        return found


def counted(number: int, word: str) -> str:
    return f"{number} {word}{'' if number == 1 else 's'}"


def of_pair(room: Room, old: str, new: str, titles: tuple[str, str] = ("", ""), notes: Sequence[str] = ()) -> Report:
    """The report from one tree to another."""
    trees = [Tree(room, folder, title or folder) for folder, title in zip((old, new), titles)]
    return of_trees(room, f"{trees[0].title} to {trees[1].title}", trees, [], notes)


def of_api(room: Room, api: str, tree: Optional[str], notes: Sequence[str] = ()) -> Report:
    """The report of all frozen versions, and of a tree that follows them."""
    kept = room.program.verdict("verify", api).lines
    if not kept:
        raise Fault(f"{api} has no frozen version")
    if not all(VERIFIED.fullmatch(line) for line in kept):
        raise Fault(f"verify {api}: {kept[0]}")
    numbers = [line.split(" ")[0] for line in kept]
    if numbers != [str(number + 1) for number in range(len(numbers))]:
        raise Fault(f"verify {api} lists other versions than 1 to {len(numbers)}")
    trees = [Tree(room, os.path.join(api, number), f"version {number}") for number in numbers]
    trees += [Tree(room, tree, tree)] if tree is not None else []
    return of_trees(room, os.path.basename(os.path.normpath(api)), trees, kept, notes)


def of_trees(room: Room, title: str, trees: list[Tree], kept: list[str], notes: Sequence[str]) -> Report:
    faulty = [tree for tree in trees if tree.faults]
    if faulty:
        return Report(title, trees, kept, [], notes, faulty)
    pairs = list(zip(trees, trees[1:]))
    steps = []
    for number, (old, new) in enumerate(pairs, 1):
        room.progress.say(f"{old.title} to {new.title}, {number} of {len(pairs)}")
        ends = Ends(room, old, new)
        found = causes(ends)
        broken = {place for cause in found for line in cause.lines for place in (line.rule.place, line.rule.place.rpartition(".")[0])}
        steps.append(Step(old, new, found, added(ends, broken), warned(ends)))
    return Report(title, trees, kept, steps, notes)
