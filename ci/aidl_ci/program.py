"""The program that all verdicts come from: where it is, and one run of it."""

from __future__ import annotations

import os
import pathlib
import subprocess
from dataclasses import dataclass
from typing import Optional

from .guard import Fault

HERE = pathlib.Path(__file__).resolve().parent.parent
# Beside `ci/` in a job or an archive, and in this repository.
PLACES = [HERE / "aidl-verified", HERE.parent / "bin" / "aidl", HERE.parent / "crates" / "aidl" / "out" / "aidl"]
INSTALLED = pathlib.Path("/usr/bin/leyomuvain-aidl")
VERDICTS = (0, 1)
MEANING = {
    2: "not a valid command line",
    3: "a call to the file system failed",
    4: "printing failed",
    5: "out of memory",
    6: "a parcel couldn't be carried",
    7: "a limit was passed",
    8: "the command line couldn't be read",
    9: "the program couldn't be built or run",
}


def find(environment: Optional[dict[str, str]] = None) -> pathlib.Path:
    """The program: the one that AIDL names, or the first that is there of its usual places."""
    named = (os.environ if environment is None else environment).get("AIDL")
    if named:
        path = pathlib.Path(named).absolute()
        if not (path.is_file() and os.access(path, os.X_OK)):
            raise Fault(f"there is no program {named}: AIDL has to name it")
        return path
    for path in [*PLACES, INSTALLED]:
        if path.is_file() and os.access(path, os.X_OK):
            return path
    raise Fault("there is no program: AIDL has to name it")


@dataclass(frozen=True)
class Ran:
    """One run of the program: its arguments, its exit, and what it printed."""

    words: tuple[str, ...]
    status: int
    printed: bytes

    @property
    def text(self) -> str:
        """What was printed. A byte that is no UTF-8, as in a path, stays as a surrogate."""
        return self.printed.decode("utf-8", "surrogateescape")

    @property
    def lines(self) -> list[str]:
        return self.text.split("\n")[:-1] if self.text.endswith("\n") else self.text.split("\n") if self.text else []

    def command(self) -> str:
        return " ".join(["aidl", *self.words])

    def ended(self) -> str:
        """The command and its exit, with what the exit means if it is no verdict."""
        meaning = f" ({MEANING[self.status]})" if self.status in MEANING else ""
        return f"{self.command()} ended with exit {self.status}{meaning}"


class Program:
    """The program, which is run once for each question."""

    def __init__(self, path: Optional[pathlib.Path] = None):
        self.path = find() if path is None else path

    def run(self, *words: str, folder: Optional[str] = None) -> Ran:
        """Runs a command in a folder, whatever its exit is."""
        try:
            ran = subprocess.run([os.fspath(self.path), *words], cwd=folder, stdin=subprocess.DEVNULL, stdout=subprocess.PIPE, check=False)
        except (OSError, ValueError) as why:
            raise Fault(f"{self.path} can't be run: {why}") from why
        return Ran(words, ran.returncode, ran.stdout)

    def verdict(self, *words: str, folder: Optional[str] = None) -> Ran:
        """Runs a command whose exit has to be a verdict, 0 or 1, and whose lines have to be whole."""
        ran = self.run(*words, folder=folder)
        if ran.status not in VERDICTS:
            raise Fault(f"{ran.ended()}: {ran.text.strip()[:200]}")
        if ran.printed and not ran.printed.endswith(b"\n"):
            raise Fault(f"{ran.command()}: its last line is cut off")
        return ran

    def done(self, *words: str, folder: Optional[str] = None) -> Ran:
        """Runs a command whose exit has to be 0."""
        ran = self.verdict(*words, folder=folder)
        if ran.status != 0:
            raise Fault(f"{ran.ended()}: {ran.text.strip()[:200]}")
        return ran
