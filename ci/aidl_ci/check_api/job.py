"""`check-api`: says whether TREE may follow the frozen versions below API, for a job that runs at each change; and with BASE, a git revision, whether the
change leaves the versions as they are there. It prints each command before what comes of it, and ends with the exit of the first that doesn't end with 0;
with 1 where a tree has no types, which `aidl` accepts, since it reads a folder that isn't there as an empty one; with 2 where it can't do its work."""

from __future__ import annotations

import argparse
from typing import Optional

from ..guard import Fault, Stop, arguments
from ..printing import use_utf8
from ..program import Program
from ..standins.java import declared, warned
from . import aosp, beside, keeping, unfrozen
from .judging import ADVICE, Judge
from .log import Log

DESCRIPTION = "Says whether TREE may follow the frozen versions below API, and with BASE whether these are as that git revision has them."


def options_of(words: list[str]) -> argparse.Namespace:
    reader = arguments("check-api", DESCRIPTION)
    reader.usage = "check-api [--frozen] [--against REV] [--report DIR] TREE API [BASE]"
    reader.epilog = "AIDL names the program, if it isn't beside this script. docs/CI.md says more. For a module of Android's build: check-api --aosp --help."
    reader.add_argument("tree", metavar="TREE", help="the folder of the sources")
    reader.add_argument("api", metavar="API", help="the folder of the frozen versions, API/1 and so on")
    reader.add_argument("base", metavar="BASE", nargs="?", help="the git revision whose frozen versions have to be as they were")
    reader.add_argument("--frozen", action="store_true", help="refuse a tree that isn't what the latest version has: for a release branch")
    reader.add_argument("--against", metavar="REV", help="judge the tree of this git revision against TREE too; that is a note, and no verdict")
    reader.add_argument("--report", metavar="DIR", help="write the report of the last two trees that are judged into this folder")
    return reader.parse_intermixed_args(words)


class Job:
    """One run of the job."""

    def __init__(self, options: argparse.Namespace, log: Log):
        self.tree, self.api, self.base, self.options, self.log = options.tree, options.api, options.base, options, log
        self.judge = Judge(Program(), log)

    def run(self) -> None:
        self.judge.check(self.tree)
        if self.options.against is not None:
            unfrozen.against(self.judge, self.tree, self.options.against)
        freeze = self.judge.command("freeze", self.tree, self.api)
        kept = keeping.compare(self.log, self.api, self.base, freeze) if self.base is not None else None
        latest = self.judge.verify(self.api)
        if latest == 0:
            self.before_the_first_freeze(kept)
            return
        self.follow(latest)
        if self.options.frozen:
            unfrozen.want_frozen(self.judge, self.tree, self.version(latest), self.api)

    def before_the_first_freeze(self, kept: Optional[int]) -> None:
        if kept != 0:
            raise Stop(1, f"{self.api} has no frozen version; before the first freeze the job needs BASE and a folder {self.api}")
        if self.options.frozen:
            raise Stop(1, f"{self.api} has no frozen version, so nothing of {self.tree} is frozen")
        self.log.show(f"{self.api} has no frozen version, and had none in {self.base}: {self.tree} follows nothing yet")

    def version(self, number: int) -> str:
        return f"{self.api}/{number}"

    def follow(self, latest: int) -> None:
        """Each version follows the one before it, and the tree follows the latest."""
        self.judge.check(self.version(1))
        for number in range(1, latest):
            self.judge.check(self.version(number + 1))
            self.want_yes(self.version(number), self.version(number + 1))
        self.want_yes(self.version(latest), self.tree)

    def want_yes(self, old: str, new: str) -> None:
        """Ends the job where a tree may not follow another. The report is of the two trees that it ends with."""
        yes = self.judge.judge(old, new)
        self.log.warn(warned(declared(old), declared(new)))
        if self.options.report is not None and (not yes or new == self.tree):
            beside.leave(self.judge, self.options.report, old, new, not yes)
        if not yes:
            raise Stop(1, f"aidl judge {old} {new} ended with exit 1; {ADVICE}")


def main(words: list[str]) -> int:
    if "--aosp" in words:
        return aosp.main(words)
    options = options_of(words)
    use_utf8()
    log = Log()
    try:
        if options.base == "" or options.against == "":
            raise Fault(f"{'BASE' if options.base == '' else 'REV'} is empty: the revision to compare with has to be named")
        Job(options, log).run()
    except (Stop, Fault, OSError) as why:
        log.annotate(f"check-api: {why}")
        raise
    return 0
