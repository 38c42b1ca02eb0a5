"""Runs the program and Android's own compiler."""
import contextlib
import pathlib
import shutil
import subprocess
import tempfile
from typing import Dict, Iterator, NamedTuple, Optional, Sequence

from .base import CouldNotRun, Options


class Ran(NamedTuple):
    """How a process ended, and what it printed."""
    exit: int
    out: str
    err: str

    @property
    def lines(self) -> Sequence[str]:
        """The printed lines."""
        return self.out.split("\n")[:-1]


def ran(*words: object, cwd: Optional[pathlib.Path] = None, limit: int = 600) -> Ran:
    """Runs a command; bytes that aren't UTF-8 are kept as surrogates."""
    done = subprocess.run([str(word) for word in words], stdout=subprocess.PIPE, stderr=subprocess.PIPE, cwd=cwd, timeout=limit, check=False)
    return Ran(done.returncode, done.stdout.decode("utf-8", "surrogateescape"), done.stderr.decode("utf-8", "surrogateescape"))


def program(options: Options, *words: object, cwd: Optional[pathlib.Path] = None) -> Ran:
    """What the program answers; an exit that is no verdict is a fault of the run."""
    answer = ran(options.program, *words, cwd=cwd)
    if answer.exit not in (0, 1, 7):
        raise CouldNotRun(f"the program ended with {answer.exit} over {' '.join(map(str, words))}")
    return answer


def aosp(options: Options, *words: object, cwd: Optional[pathlib.Path] = None) -> Ran:
    """What Android 14's compiler answers. A negative exit is a signal that ended it."""
    compiler = options.home / "aidl"
    if not compiler.exists():
        raise CouldNotRun(f"no {compiler}: run tools/android/fetch first")
    return ran(compiler, *words, cwd=cwd)


def source(options: Options, *parts: str) -> pathlib.Path:
    """A folder of what was fetched."""
    folder = options.home.joinpath("src", *parts)
    if not folder.exists():
        raise CouldNotRun(f"no {folder}: run tools/android/fetch first")
    return folder


@contextlib.contextmanager
def scratch() -> Iterator[pathlib.Path]:
    """A folder that goes away again."""
    folder = pathlib.Path(tempfile.mkdtemp(prefix="beside-"))
    try:
        yield folder
    finally:
        shutil.rmtree(folder, ignore_errors=True)


def write_tree(folder: pathlib.Path, files: Dict[str, str]) -> pathlib.Path:
    """Writes the files, each with its path, below the folder, and answers the folder."""
    for name, text in files.items():
        path = folder / name
        path.parent.mkdir(parents=True, exist_ok=True)
        path.write_bytes(text.encode("utf-8", "surrogateescape"))
    folder.mkdir(parents=True, exist_ok=True)
    return folder
