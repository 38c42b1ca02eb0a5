"""Scratch git repositories for the tests of `check-api`: the tree `hal` is a version of the example's lights, frozen versions of it are below `api`."""

from __future__ import annotations

import hashlib
import os
import pathlib
import shutil
import subprocess
from dataclasses import dataclass

TOP = pathlib.Path(__file__).resolve().parents[2]
JOB = TOP / "ci/check-api"
LIGHTS = TOP / "examples/lights"
GIT = ["git", "-c", "user.name=a", "-c", "user.email=a@example.org", "-c", "commit.gpgsign=false", "-c", "protocol.file.allow=always"]
WAITS = 60  # seconds for one command


@dataclass(frozen=True)
class Came:
    """What came of a job: its exit, what it printed, and what it said on standard error."""

    status: int
    printed: str
    said: str

    def says(self, *texts: str) -> bool:
        return all(text in self.printed + self.said for text in texts)


def environment(**more: str) -> dict:
    """The environment without what a workflow of GitHub, or this test's own job, has put there."""
    clean = {name: value for name, value in os.environ.items() if not name.startswith(("GITHUB_", "GIT_")) and name != "AIDL"}
    return {**clean, **more}


class Scratch:
    """A git repository, and the program."""

    def __init__(self, room: pathlib.Path, program: pathlib.Path):
        self.room, self.program = room, program

    def fill(self, frozen: int) -> Scratch:
        """Freezes so many versions of the lights, and commits them as `base`. The tree is the last of them."""
        self.git("init", "-q", "-b", "main")
        (self.room / "api").mkdir()
        (self.room / "api/README").write_text("The frozen versions.\n")
        for number in range(1, frozen + 1):
            self.tree(number)
            self.freeze()
        self.tree(frozen or 1)
        self.commit()
        self.git("tag", "base")
        return self

    def git(self, *words: str, folder: str = ".") -> str:
        return subprocess.run([*GIT, *words], cwd=self.room / folder, env=environment(), capture_output=True, text=True, check=True, timeout=WAITS).stdout

    def commit(self) -> None:
        self.git("add", "-A")
        self.git("commit", "-q", "-m", "as it is")

    def freeze(self) -> None:
        subprocess.run([self.program, "freeze", "hal", "api"], cwd=self.room, capture_output=True, check=True, timeout=WAITS)

    def tree(self, number: int) -> None:
        """Makes `hal` the version of the lights with this number."""
        shutil.rmtree(self.room / "hal", ignore_errors=True)
        shutil.copytree(LIGHTS / str(number), self.room / "hal")

    def rehash(self, number: int, recipe: int = 2) -> None:
        """Writes the hash of a version anew, so that it is taken for the right one."""
        folder = self.room / "api" / str(number)
        files = sorted(folder.rglob("*.aidl"), key=lambda path: bytes(path.relative_to(folder)))
        text = "".join(f"{hashlib.sha1(path.read_bytes()).hexdigest()}  ./{path.relative_to(folder)}\n" for path in files)
        (folder / ".hash").write_text(hashlib.sha1((text + f"{number}\n" * (recipe == 2)).encode()).hexdigest() + "\n")

    def widen(self, *folders: str) -> None:
        """Makes the field `onMs` a long in these folders."""
        for folder in folders:
            path = self.room / folder / "lights/LightState.aidl"
            path.write_text(path.read_text().replace("int onMs", "long onMs"))

    def forge(self) -> None:
        """Changes a type in both versions and in the tree, and makes the hashes anew: to `aidl` alone nothing is wrong."""
        self.widen("api/1", "api/2", "hal")
        self.rehash(1)
        self.rehash(2)

    def add(self) -> None:
        """Freezes version 3."""
        self.tree(3)
        self.freeze()

    def job(self, *words, job: pathlib.Path = JOB, folder: str = ".", stdout=subprocess.PIPE, **more: str) -> Came:
        """Runs the job in a folder of the repository."""
        ran = subprocess.run(
            [job, *words], cwd=self.room / folder, env=environment(**{"AIDL": str(self.program), **more}), stdout=stdout, stderr=subprocess.PIPE, timeout=WAITS, check=False
        )
        printed, said = ((part or b"").decode("utf-8", "replace") for part in (ran.stdout, ran.stderr))
        assert "Traceback" not in said
        return Came(ran.returncode, printed, said)
