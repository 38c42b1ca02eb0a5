"""Copies of trees with stand-ins, and what `check` and `judge` say of them, in the paths and lines of the originals."""

from __future__ import annotations

import os
from typing import Optional, Sequence

from .. import verdicts
from ..guard import Fault, Stop
from ..lines import shown, with_phrase
from ..program import Program, Ran
from ..standins import Replaced, stage_trees
from ..standins.java import warned
from ..standins.tree import Tree
from .judging import ADVICE
from .log import Finder, Log


class Copies:
    """The copies of some trees, which follow one another. Each tree is called by the path of its original."""

    def __init__(self, program: Program, log: Log, trees: Sequence[Tree], room: str):
        self.program, self.log, self.trees = program, log, list(trees)
        self.folders = [os.path.join(room, str(number)) for number in range(len(trees))]
        self.replaced = stage_trees(self.trees, self.folders)

    def original(self, number: int, path: str) -> str:
        """The path of a copied file's original; that of a stand-in stays."""
        inside = os.path.relpath(path, self.folders[number])
        source = self.trees[number].sources.get(inside)
        return source.text.shown if source else inside

    def run(self, command: str, *numbers: int) -> Ran:
        """Runs a command over copies, and shows it with the paths of the originals."""
        self.log.command([command, *(self.trees[number].folder for number in numbers)])
        return self.program.verdict(command, *(self.folders[number] for number in numbers))

    def check(self, number: int) -> None:
        """Ends the job where a copy isn't a checked tree."""
        ran = self.run("check", number)
        if ran.status == 0 and verdicts.count_of_types(ran.lines):
            self.log.show(ran.lines[0])
            return
        for fault in verdicts.faults(ran.lines):
            said = with_phrase(fault.what, fault.code)
            place = shown(fault)
            path = self.original(number, fault.path)
            self.log.show(f"{path}:{place.line if place else 0}: {said}")
            self.log.annotate(f"{path}:{place.line if place else 0}: {said}")
        raise Stop(1, f"{self.trees[number].folder} isn't read; docs/CHECKS.md of this script's repository says what each line means")

    def stand_ins(self, *numbers: int) -> list[Replaced]:
        """What was replaced in these trees."""
        found = [Replaced(one.what, one.standin, tuple(one.counts[number] for number in numbers)) for one in self.replaced]
        return [one for one in found if one.count]

    def judge(self, old: int, new: int) -> None:
        """Ends the job where a tree may not follow another. What was replaced in them stands in front."""
        for one in self.stand_ins(old, new):
            self.log.show(one.line())
        self.log.warn(warned(self.trees[old].declared, self.trees[new].declared))
        ran = self.run("judge", old, new)
        if ran.status == 0 and ran.lines != ["yes"]:
            raise Fault(f"aidl judge ended with exit 0, and printed no yes: {ran.lines[:1]}")
        if ran.status == 0:
            self.log.show("yes")
            return
        finder = Finder(self.folders[new], self.folders[old])
        for rule in verdicts.broken_rules(ran.lines):
            at = self.at(finder, rule.place, (new, old))
            said = with_phrase(rule.line(), rule.code)
            self.log.show(f"{said}{f', at {at}' if at else ''}")
            self.log.annotate(f"{said}{f', at {at}' if at else ''}")
        raise Stop(1, f"{self.trees[new].folder} may not follow {self.trees[old].folder}; {ADVICE}")

    def at(self, finder: Finder, place: str, numbers: tuple[int, int]) -> Optional[str]:
        """Where what a rule names stands, in the new tree or else in the old one."""
        found = finder.find(place)
        for number in numbers if found else ():
            inside = os.path.relpath(found.path, self.folders[number])
            if inside in self.trees[number].sources:
                return f"{self.trees[number].sources[inside].text.shown}:{found.line}"
        return None
