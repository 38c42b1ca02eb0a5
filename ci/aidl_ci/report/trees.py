"""A tree as the report sees it: its title, and its declarations with their places in the sources, or its faults."""

from __future__ import annotations

import os
import tempfile
from typing import Optional

from .. import dump, lines, verdicts
from ..dump import Declaration, Member
from ..guard import Fault
from ..places import Places
from ..program import Program
from .progress import Progress


class Room:
    """A folder for the files that the program is given, and the program."""

    def __init__(self, program: Program, folder: str, name: str = "report"):
        self.program, self.folder, self.count = program, folder, 0
        self.progress = Progress(name)

    def empty(self) -> str:
        """A new empty folder."""
        return tempfile.mkdtemp(dir=self.folder)

    def file(self, text: str) -> str:
        """A new file that holds this text."""
        self.count += 1
        path = os.path.join(self.folder, f"file.{self.count}")
        with open(path, "w", encoding="utf-8", newline="\n") as file:
            file.write(text)
        return path


class Tree:
    """One version. `faults` are those that `check` prints; of a tree that has some nothing else is known."""

    def __init__(self, room: Room, folder: str, title: str):
        self.folder, self.title = folder, title
        room.progress.say(f"reading {title}")
        checked = room.program.verdict("check", folder)
        self.faults = verdicts.faults(checked.lines) if checked.status else []
        self.declarations: dict[str, Declaration] = {}
        self.reaching: dict[frozenset[str], set[str]] = {}
        self.held: dict[str, list[str]] = {}
        if self.faults:
            return
        if verdicts.count_of_types(checked.lines) == 0:
            raise Fault(f"{folder} has no types; is that its path?")
        self.declarations = dump.of_tree(room.program, folder, room.empty())
        self.places = Places(folder)

    def holders(self) -> dict[str, list[str]]:
        """By each type that a field has the declarations that have such fields."""
        if not self.held:
            for one in self.declarations.values():
                for each in one.of_kind("field"):
                    if each.type:
                        self.held.setdefault(each.type.base, []).append(one.name)
        return self.held

    def member(self, place: str) -> Optional[Member]:
        """The member at a place `n.member`, if the tree has it."""
        above, _, name = place.rpartition(".")
        return self.declarations[above].members.get(name) if above in self.declarations else None

    def kind(self, name: str) -> str:
        """The kind of a declaration, or the empty text."""
        return self.declarations[name].kind if name in self.declarations else ""

    def with_code(self, interface: str, code: int) -> Optional[Member]:
        """The method that a transaction code reaches."""
        one = self.declarations.get(interface)
        methods = one.of_kind("method") if one and one.kind == "interface" else []
        return next((method for method in methods if method.id + 1 == code), None)

    def located(self) -> list[tuple[verdicts.FaultLine, Optional[lines.Shown]]]:
        """The faults, each with its line and column where its file can be read."""
        return [(one, lines.shown(one)) for one in self.faults]
