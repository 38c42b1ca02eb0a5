"""Whether the frozen versions are as a git revision has them: what is printed of the comparison, and the commands that put a version back."""

from __future__ import annotations

import os
from typing import Iterator

from ..guard import Fault, Stop
from .frozen import Compared, Comparison
from .log import Log, quoted
from .repository import Repository, text

SHORT = 12  # digits of a commit that are shown
MAGIC = set("*?[\\:")  # what means something in a path that git is given


def is_plain(path: str) -> bool:
    """Neither this path nor a folder above it, as it is written, is a link, so git and `aidl` speak of the same files."""
    parts = path.split("/")
    return not any(os.path.islink("/".join(parts[:count]) or "/") for count in range(1, len(parts) + 1))


def counted(number: int, noun: str) -> str:
    return f"{number} {noun}{'' if number == 1 else 's'}"


class Keeping:
    """The frozen versions of an API beside those of BASE."""

    def __init__(self, log: Log, api: str, base: str, freeze: str):
        self.log, self.api, self.base, self.freeze = log, api, base, freeze
        self.log.show(f"compare {api} with {base}")
        if not is_plain(api):
            raise Fault(f"{api} is or goes through a link: name the folder itself")
        self.here = Repository(".")
        self.commit = self.here.wanted(base)
        self.want_folder()
        self.repository = Repository(api)
        if self.repository.top != self.here.top:
            raise Fault(f"{api} is of another repository, {text(self.repository.top)}: run the job in that one")
        self.inside = self.repository.inside(api)

    def want_folder(self) -> None:
        """Ends the job where the API isn't there, and says which ones BASE has."""
        if not os.path.isdir(self.api):
            apis = sorted({os.path.dirname(os.path.dirname(path)) for path in Comparison.hashes(self.here.entries(self.commit))})
            shown = ", ".join(self.shown(self.here, path) for path in apis)
            raise Stop(1, f"there is no folder {self.api}" + (f"; {self.base} has frozen versions below {shown}" if apis else ""))

    @staticmethod
    def shown(repository: Repository, path: bytes) -> str:
        """A path from the top, as it is written in the folder in which the job runs."""
        return os.path.relpath(os.fsdecode(os.path.join(repository.top, path)))

    def path(self, path: bytes) -> str:
        return self.shown(self.repository, path)

    def compared(self) -> int:
        """Compares, prints what came of it, and ends the job where something isn't as it was; the number of files."""
        if self.commit == self.repository.commit("HEAD"):
            self.log.note(f"{self.base} is HEAD itself: only what isn't committed is compared")
        comparison = Comparison(self.repository, self.inside, self.commit)
        for path in self.repository.ignored(self.inside):
            if comparison.version_of(path):
                self.log.note(f"{self.path(path)} is hidden by an ignore file: it is judged here, and no clone will have it")
        came = comparison.made()
        self.show(came)
        if came.changes or came.left_out:
            if came.changes:
                self.put_back(came)
            raise Stop(1, f"a frozen version of {self.base} was changed, added to or deleted: put it back as it was, and freeze a new version")
        if came.gone:
            apis = sorted({os.path.dirname(os.path.dirname(path)) for path in came.gone})
            raise Stop(1, f"frozen versions that {self.base} has below {', '.join(map(self.path, apis))} are gone: their folder keeps its name")
        deeper = [path for path in comparison.hashes(comparison.entries) if path.startswith(self.inside + b"/" if self.inside else b"")]
        if not came.files and deeper:
            raise Stop(1, f"{self.api} has no frozen version, and {self.base} has some deeper below it, as {self.path(deeper[0])}; is that its path?")
        files, versions = counted(came.files, "file"), counted(len(came.versions), "frozen version")
        self.log.show(f"{files} of {versions}, all as they are in {came.commit[:SHORT]}")
        return came.files

    def show(self, came: Compared) -> None:
        """A line for each file that isn't as it was."""
        for change in came.changes:
            self.log.say(f"{change.letter}\t{self.path(change.path)}{' (only line ends)' if change.line_ends else ''}")
        for path in came.left_out:
            self.log.say(f"D\t{self.path(path)} (left out by a sparse checkout)")
        for path in came.gone:
            self.log.say(f"D\t{self.path(path)}")

    def put_back(self, came: Compared) -> None:
        """The commands that put the versions back, and freeze what the tree has more as a new one."""
        self.log.show(f"These commands put them back as they are in {self.base}, and freeze what the tree has more as a new version:")
        for line in self.commands(came):
            self.log.show(f"    {line}")

    def commands(self, came: Compared) -> Iterator[str]:
        start = len(self.inside) + 1 if self.inside else 0
        names = sorted({change.path[start:].split(b"/")[0] for change in came.changes}, key=lambda name: (len(name), name))
        folders = [self.path(os.path.join(self.inside, name)) for name in names]
        for_git = " ".join(quoted(f":(literal){path}" if MAGIC & set(path) else path) for path in folders)
        if any(change.letter != "D" for change in came.changes):
            yield f"git rm -r -f -q --ignore-unmatch -- {for_git}; rm -rf -- {' '.join(map(quoted, folders))}"
        yield f"git checkout {quoted(self.base)} -- {for_git}"
        yield self.freeze


def compare(log: Log, api: str, base: str, freeze: str) -> int:
    """Ends the job where a frozen version isn't as BASE has it; else how many files are. `freeze` is the command that freezes a new version."""
    return Keeping(log, api, base, freeze).compared()
