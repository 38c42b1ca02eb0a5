"""The git repository in which a folder lies. The files of a commit are read from git's objects alone, so neither the index nor a sparse checkout, a mark on
a file, a setting, an attribute, a replaced object or a variable of the environment has a say in them."""

from __future__ import annotations

import os
import subprocess
import tempfile
from typing import Iterator, NamedTuple, Optional

from ..guard import Fault
from ..printing import plain

# Settings may say that a folder of another owner is safe to read. All other variables of git may lead it to another repository.
KEPT = "GIT_CONFIG_"


class Entry(NamedTuple):
    """A file of a commit: its mode as git prints it, the kind and the name of its object, and its path from the top."""

    mode: str
    kind: str
    name: str
    path: bytes


def environment() -> dict[str, str]:
    """The environment for git, without the variables by which it would read something else."""
    clean = {name: value for name, value in os.environ.items() if not name.startswith("GIT_") or name.startswith(KEPT)}
    return {**clean, "GIT_NO_REPLACE_OBJECTS": "1", "GIT_OPTIONAL_LOCKS": "0"}


def text(data: bytes) -> str:
    """A path or a message as it is shown."""
    return data.decode("utf-8", "surrogateescape")


class Repository:
    """The repository of a folder, which has a working tree."""

    def __init__(self, folder: str):
        self.folder = folder
        self.top = os.path.realpath(self.path_of("rev-parse", "--show-toplevel"))

    def ran(self, *words: str) -> subprocess.CompletedProcess[bytes]:
        try:
            return subprocess.run(
                ["git", *words], cwd=self.folder, env=environment(), stdin=subprocess.DEVNULL, stdout=subprocess.PIPE, stderr=subprocess.PIPE, check=False
            )
        except (OSError, ValueError) as why:
            raise Fault(f"git can't be run in {self.folder}: {why}") from why

    def git(self, *words: str) -> bytes:
        """What a command of git prints. That it fails is a fault."""
        ran = self.ran(*words)
        if ran.returncode != 0:
            raise Fault(f"git {words[0]} failed in {self.folder}: {plain(text(ran.stderr)).strip()}")
        return ran.stdout

    def path_of(self, *words: str) -> bytes:
        """The one path that a command of git prints."""
        return self.git(*words)[: -len(b"\n")]

    def commit(self, revision: str) -> Optional[str]:
        """The commit that a revision names, if it names one."""
        if revision.startswith("-") or "\0" in revision:
            return None
        ran = self.ran("rev-parse", "--verify", "--quiet", f"{revision}^{{commit}}")
        return ran.stdout.decode("ascii").strip() if ran.returncode == 0 else None

    def wanted(self, revision: str) -> str:
        """The commit that a revision names. That it names none is a fault."""
        commit = self.commit(revision)
        if commit is None:
            shallow = self.git("rev-parse", "--is-shallow-repository").strip() == b"true"
            raise Fault(f"git knows no revision {revision}" + ("; this clone is shallow: fetch the whole history" if shallow else ""))
        return commit

    def entries(self, commit: str) -> list[Entry]:
        """All files of a commit."""
        rows = self.git("ls-tree", "-r", "-z", "--full-tree", commit).split(b"\0")[:-1]
        return [Entry(*head.decode("ascii").split(" "), path) for head, _, path in (row.partition(b"\t") for row in rows)]

    def contents(self, entries: list[Entry]) -> Iterator[bytes]:
        """The bytes of these files, in their order."""
        with tempfile.TemporaryFile() as names:
            names.write("".join(f"{entry.name}\n" for entry in entries).encode("ascii"))
            names.seek(0)
            words = ["git", "cat-file", "--batch", "--buffer"]
            with subprocess.Popen(words, cwd=self.folder, env=environment(), stdin=names, stdout=subprocess.PIPE) as reader:
                assert reader.stdout
                for entry in entries:
                    head = reader.stdout.readline().split()
                    if head[:2] != [entry.name.encode("ascii"), b"blob"]:
                        reader.kill()
                        raise Fault(f"git can't read {text(entry.path)} of the revision: {text(b' '.join(head))}")
                    data = reader.stdout.read(int(head[2]))
                    if len(data) != int(head[2]) or reader.stdout.read(1) != b"\n":
                        reader.kill()
                        raise Fault(f"git cat-file broke off in {text(entry.path)}")
                    yield data

    def inside(self, folder: str) -> bytes:
        """The path of a folder from the top of the working tree, which is empty for the top itself. That it lies elsewhere is a fault."""
        path = os.path.relpath(os.path.realpath(os.fsencode(folder)), self.top)
        if path == b".." or path.startswith(b"../"):
            raise Fault(f"{folder} lies outside the working tree of its repository, {text(self.top)}")
        return b"" if path == b"." else path

    def compares_rights(self) -> bool:
        """Whether the file system keeps the right to run a file, so that git looks at it."""
        return self.ran("config", "--type=bool", "--get", "core.fileMode").stdout.strip() != b"false"

    def listed(self, below: bytes, *words: str) -> list[bytes]:
        """What `git ls-files` prints of a path from the top."""
        where = os.fsdecode(b":(top,literal)" + below)
        return self.git("ls-files", "-z", "--full-name", *words, "--", where).split(b"\0")[:-1]

    def left_out(self, below: bytes) -> list[bytes]:
        """The files below a path from the top that git keeps and a sparse checkout leaves out."""
        return [row[2:] for row in self.listed(below, "-t") if row.startswith(b"S ")]

    def untracked(self, below: bytes) -> list[bytes]:
        """The files below a path from the top that git doesn't keep."""
        return self.listed(below, "--others")

    def ignored(self, below: bytes) -> list[bytes]:
        """The files below a path from the top that git doesn't keep since an ignore file hides them."""
        return self.listed(below, "--others", "--ignored", "--exclude-standard")
