"""The commands of `aidl` that the job runs, and what ends it."""

from __future__ import annotations

import os
from typing import Optional

from .. import verdicts
from ..guard import Fault, Stop
from ..program import Program, Ran
from .log import Finder, Log, quoted

ADVICE = "docs/EVOLUTION.md of this script's repository says what to do instead"


def ended(ran: Ran) -> Stop:
    """The end of the job by the exit of a command, of one that was killed by 128 and the signal as a shell has it."""
    status = ran.status if ran.status >= 0 else 128 - ran.status
    return Stop(status, ran.ended())


def why_empty(tree: str) -> str:
    """What is at the path of a tree without types."""
    if not os.path.isdir(tree):
        return "it is no folder" if os.path.lexists(tree) else "there is no such folder"
    for above, folders, files in os.walk(tree):
        if any(os.path.islink(os.path.join(above, name)) for name in [*folders, *files]):
            return "what is in it are links, which aidl leaves out: make copies of what they lead to"
    return "no file below it that ends in .aidl declares a type"


class Judge:
    """Asks the program, and prints each command before its lines."""

    def __init__(self, program: Program, log: Log):
        self.program, self.log = program, log

    def command(self, *words: str) -> str:
        """A command that somebody may type in the folder in which the job runs."""
        near = os.path.relpath(self.program.path)
        program = os.fspath(self.program.path) if near.startswith("../") else near if "/" in near else f"./{near}"
        return " ".join(map(quoted, [program, *words]))

    def run(self, *words: str, annotated: bool = True, finder: Optional[Finder] = None) -> Ran:
        self.log.command(words)
        ran = self.program.run(*words)
        self.log.result(ran, annotated, finder)
        return ran

    def want(self, *words: str) -> Ran:
        """Runs a command, and ends the job where its exit isn't 0."""
        ran = self.run(*words)
        if ran.status != 0:
            raise ended(ran)
        return ran

    def check(self, tree: str) -> None:
        """Checks a tree, and refuses one without types."""
        if verdicts.count_of_types(self.want("check", tree).lines) == 0:
            raise Stop(1, f"{tree} has no types; is that its path? {why_empty(tree)}")

    def verify(self, api: str) -> int:
        """The number of frozen versions, which are all as they were frozen."""
        lines = self.want("verify", api).lines
        for number, line in enumerate(lines, 1):
            words = line.split(" ")
            if len(words) != 3 or words[0] != str(number) or words[2] != "ok":
                raise Fault(f"aidl verify printed no line of version {number}: {line}")
        return len(lines)

    def judge(self, old: str, new: str) -> bool:
        """Whether a tree may follow another. Where it may not, calls that go wrong are shown."""
        ran = self.run("judge", old, new, finder=Finder(new, old))
        if ran.status == 0 and ran.lines == ["yes"]:
            return True
        if ran.status == 0:
            raise Fault(f"aidl judge ended with exit 0, and printed no yes: {ran.lines[:1]}")
        if ran.status != 1:
            raise ended(ran)
        verdicts.broken_rules(ran.lines)
        self.run("witness", old, new, annotated=False)
        return False
