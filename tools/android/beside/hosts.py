"""Runs hosts: libbinder with generated code of one tree."""
import pathlib
import subprocess
from typing import Callable, Iterator, List, NamedTuple, Optional, Sequence

from .backends import BACKENDS
from .base import CouldNotRun, HERE, Options
from .building import Builder, Version
from .family import Family
from .schema import Schema, read_tree
from .tools import program, scratch, write_tree

TREES = HERE / "hosts/trees"
HASH = "0123456789abcdef0123456789abcdef01234567"
Row = List[str]


class Host(NamedTuple):
    """A host program, its backend's name, its tree and what the tree declares."""
    path: pathlib.Path
    name: str
    tree: pathlib.Path
    schema: Schema

    @property
    def title(self) -> str:
        """How a line names it."""
        return BACKENDS[self.name].title

    def rows(self, mode: str, *words: object) -> List[Row]:
        """What it prints of itself."""
        run = subprocess.run([str(self.path), mode, *map(str, words)], stdout=subprocess.PIPE, stderr=subprocess.DEVNULL, check=False)
        if run.returncode:
            raise CouldNotRun(f"{self.path.name} {mode} ended with {run.returncode}")
        return columns_of(run.stdout)

    def answers(self, mode: str, lines: Sequence[str], lost: Callable[[str], Row], *words: object) -> List[Row]:
        """What it answers each line. Where it ends in the midst of them, for want of memory, `lost` answers that line, and it goes on with the next."""
        answers: List[Row] = []
        while len(answers) < len(lines):
            text = "".join(line + "\n" for line in lines[len(answers):]).encode("utf-8", "surrogateescape")
            run = subprocess.run([str(self.path), mode, *map(str, words)], input=text, stdout=subprocess.PIPE, stderr=subprocess.DEVNULL, check=False)
            answers += columns_of(run.stdout)
            if run.returncode == 9:
                raise CouldNotRun(f"{self.path.name} {mode} doesn't know what it was asked")
            if len(answers) < len(lines):
                answers.append(lost(lines[len(answers)]))
        return answers


def columns_of(output: bytes) -> List[Row]:
    """The lines of a host, each by its columns."""
    return [line.split("\t") for line in output.decode("utf-8", "surrogateescape").split("\n")[:-1]]


def fixed(options: Options, tree: str) -> Iterator[Host]:
    """The hosts over a tree of ours, which `build` makes."""
    for name in options.hosts:
        path = options.home / "hosts" / f"host.{tree}.{name}"
        if not path.exists():
            raise CouldNotRun(f"no {path}: run tools/android/build first, or name the hosts that are there by --host")
        yield Host(path, name, TREES / tree, read_tree(TREES / tree))


def family(options: Options, seed: int, version: str, names: Sequence[str] = ("v34", "ndk")) -> Iterator[Host]:
    """The hosts over one version, `old` or `new`, of the random trees of a seed; they are compiled where they aren't there. Only Android 14's compiler
    knows what is in them."""
    folder = options.home / "hosts/families" / str(seed) / version
    Family(seed).write(folder, version == "new")
    builder: Optional[Builder] = None
    for name in names:
        if name in options.hosts:
            builder = builder or Builder(options.home)
            path = builder.host(name, folder, f"{seed}.{version}", Version(1 if version == "old" else 2, HASH))
            yield Host(path, name, folder, read_tree(folder))


def printed(options: Options, *words: object, **files: str) -> List[str]:
    """What the program prints over these words; a word `@NAME` is a file with that text."""
    with scratch() as folder:
        write_tree(folder, files)
        return list(program(options, *(folder / word[1:] if isinstance(word, str) and word.startswith("@") else word for word in words)).lines)
