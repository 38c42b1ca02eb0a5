"""The frozen versions of a git revision beside the files of the working tree: what was changed, added, deleted or made something else, byte by byte."""

from __future__ import annotations

import functools
import os
import re
import stat
from dataclasses import dataclass
from typing import Callable, Optional

from ..guard import Fault
from .repository import Entry, Repository

RUNNABLE, LINK, SUBMODULE = "100755", "120000", "160000"
HASH = re.compile(rb"(?:.*/)?[1-9][0-9]*/\.hash", re.S)
VERSION = re.compile(rb"([0-9][^/]*)/.*", re.S)


@dataclass(frozen=True)
class Change:
    """A file that isn't as the revision has it: `A` added, `D` deleted, `M` other bytes or rights, `T` something else, as git prints it; its path from
    the top; and whether its line ends alone are different."""

    letter: str
    path: bytes
    line_ends: bool = False


@dataclass(frozen=True)
class Compared:
    """What came of a comparison with a commit: how many files it has below the API, of which versions; each change of them; the files of the API that a
    sparse checkout leaves out; and the `.hash` files of other versions in the repository that aren't there any more."""

    commit: str
    files: int
    versions: list[bytes]
    changes: list[Change]
    left_out: list[bytes]
    gone: list[bytes]

    def is_same(self) -> bool:
        return not (self.changes or self.left_out or self.gone)


class WorkingTree:
    """The files below the top of a repository. None is looked at through a link."""

    def __init__(self, top: bytes):
        self.top = top
        self.is_folder = functools.lru_cache(maxsize=None)(self._is_folder)

    def full(self, path: bytes) -> bytes:
        return os.path.join(self.top, path) if path else self.top

    def _is_folder(self, path: bytes) -> bool:
        """Whether a folder is there, and neither it nor a folder above it is a link."""
        return not path or (self.is_folder(os.path.dirname(path)) and self.is_of(stat.S_ISDIR, path))

    def is_of(self, kind: Callable[[int], bool], path: bytes) -> bool:
        found = self.found(path)
        return found is not None and kind(found.st_mode)

    def is_file(self, path: bytes) -> bool:
        return self.is_of(stat.S_ISREG, path)

    def found(self, path: bytes) -> Optional[os.stat_result]:
        """What a path leads to, if it leads to anything and no folder above it is a link."""
        try:
            return os.lstat(self.full(path)) if self.is_folder(os.path.dirname(path)) else None
        except FileNotFoundError:
            return None

    def change_of(self, entry: Entry, data: bytes, rights: bool) -> Optional[Change]:
        """How a file isn't as it was, if it isn't."""
        found = self.found(entry.path)
        if found is None:
            return Change("T" if os.path.lexists(self.full(entry.path)) else "D", entry.path)
        if not (stat.S_ISLNK if entry.mode == LINK else stat.S_ISREG)(found.st_mode):
            return Change("T", entry.path)
        if entry.mode == LINK:
            return None if os.readlink(self.full(entry.path)) == data else Change("M", entry.path)
        with open(self.full(entry.path), "rb") as file:
            now = file.read()
        if now != data:
            return Change("M", entry.path, now.replace(b"\r\n", b"\n") == data.replace(b"\r\n", b"\n"))
        other = rights and bool(found.st_mode & stat.S_IXUSR) != (entry.mode == RUNNABLE)
        return Change("M", entry.path) if other else None

    def below(self, folder: bytes) -> list[bytes]:
        """All that a folder has at any depth but folders: files, links, fifos."""
        taken: list[bytes] = []
        for above, folders, files in os.walk(self.full(folder), onerror=self.fail):
            links = [name for name in folders if os.path.islink(os.path.join(above, name))]
            taken += [os.path.relpath(os.path.join(above, name), self.top) for name in [*files, *links]]
        return taken

    @staticmethod
    def fail(why: OSError) -> None:
        raise why

    def may_be_added(self, path: bytes) -> bool:
        """Whether it is a plain file that no tree is made of, as an `OWNERS` or a `README`."""
        return not path.endswith(b".aidl") and self.is_file(path)


class Comparison:
    """The comparison of the versions below an API, which is a path from the top of its repository, with those of a commit."""

    def __init__(self, repository: Repository, api: bytes, commit: str):
        self.repository, self.api, self.commit = repository, api, commit
        self.tree = WorkingTree(repository.top)
        self.entries = repository.entries(commit)
        self.kept = [entry for entry in self.entries if self.version_of(entry.path)]
        self.known = {entry.path for entry in self.kept}
        if any(entry.mode == SUBMODULE and self.version_of(entry.path + b"/") for entry in self.entries):
            raise Fault("a frozen version of the revision is a submodule, whose files are in another repository")

    def version_of(self, path: bytes) -> Optional[bytes]:
        """The folder of a version in which a file of the API is, by its name; each that begins with a digit is compared."""
        start = self.api + b"/" if self.api else b""
        found = VERSION.fullmatch(path[len(start) :]) if path.startswith(start) else None
        return found[1] if found else None

    def versions(self) -> list[bytes]:
        return sorted({self.version_of(path) or b"" for path in self.known}, key=lambda name: (len(name), name))

    def changes(self) -> list[Change]:
        """What isn't as the commit has it, sorted by path."""
        rights = self.repository.compares_rights()
        found = [self.tree.change_of(entry, data, rights) for entry, data in zip(self.kept, self.repository.contents(self.kept))]
        folders = [folder for folder in (os.path.join(self.api, version) for version in self.versions()) if self.tree.is_folder(folder)]
        now = [path for folder in folders for path in self.tree.below(folder)]
        added = [Change("A", path) for path in now if path not in self.known and not self.tree.may_be_added(path)]
        return sorted([*filter(None, found), *added], key=lambda change: change.path)

    def left_out(self) -> list[bytes]:
        """The files of versions that git keeps and a sparse checkout leaves out, those of the commit or newer ones."""
        return [path for path in self.repository.left_out(self.api) if self.version_of(path) and not self.tree.is_file(path)]

    @staticmethod
    def hashes(entries: list[Entry]) -> list[bytes]:
        """The `.hash` files of versions."""
        return [entry.path for entry in entries if HASH.fullmatch(entry.path)]

    def gone(self) -> list[bytes]:
        """The `.hash` files of versions anywhere else that aren't there. What a sparse checkout leaves out and HEAD has is still there."""
        gone = [path for path in self.hashes(self.entries) if path not in self.known and not self.tree.is_file(path)]
        if not gone:
            return []
        head = self.repository.commit("HEAD")
        kept = {entry.path for entry in self.repository.entries(head)} if head else set()
        kept &= set(self.repository.left_out(b""))
        return [path for path in gone if path not in kept]

    def made(self) -> Compared:
        return Compared(self.commit, len(self.kept), self.versions(), self.changes(), self.left_out(), self.gone())
