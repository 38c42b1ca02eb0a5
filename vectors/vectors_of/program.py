"""The program that all bytes and readings come from."""
from __future__ import annotations

import json
import os
import pathlib
import subprocess
from dataclasses import dataclass
from typing import Any, Optional

from .frame import HERE, TREES, Fault

PLACES = (HERE.parent / "crates" / "aidl" / "out" / "aidl", pathlib.Path("/usr/bin/leyomuvain-aidl"))


def find() -> pathlib.Path:
    """The program: the one that AIDL names, or the first that is there of its usual places."""
    named = os.environ.get("AIDL")
    for path in [pathlib.Path(named).absolute()] if named else PLACES:
        if path.is_file() and os.access(path, os.X_OK):
            return path
    raise Fault(f"there is no program {named}" if named else "there is no program: AIDL has to name it")


@dataclass(frozen=True)
class Reading:
    """What is read of bytes: values and how many bytes are left, or a status and, of the strict profile, the offset of the item that is wrong."""

    values: Optional[list[Any]] = None
    left: int = 0
    status: int = 0
    at: Optional[int] = None

    @property
    def is_value(self) -> bool:
        return self.values is not None

    def column(self) -> dict[str, Any]:
        """As a column of a vector."""
        if self.is_value:
            return {"values": self.values, "left": self.left}
        return {"status": self.status} if self.at is None else {"status": self.status, "at": self.at}


@dataclass(frozen=True)
class Item:
    """A line of `explain`: where bytes stand, how many there are, which value they are of, and what they are."""

    at: int
    length: int
    path: str
    kind: str


class Program:
    """The program, which is run once for each question."""

    def __init__(self, path: Optional[pathlib.Path] = None):
        self.path = find() if path is None else path

    def run(self, *words: str, text: str = "") -> tuple[int, list[str]]:
        """Its exit, which has to be 0 or 1, and its lines. It reads the text where a word is `/dev/stdin`."""
        ran = subprocess.run([os.fspath(self.path), *words], input=text.encode(), stdout=subprocess.PIPE, check=False)
        if ran.returncode not in (0, 1):
            raise Fault(f"aidl {' '.join(words)} ended with exit {ran.returncode}: {ran.stdout[:200]!r}")
        return ran.returncode, ran.stdout.decode("utf-8").split("\n")[:-1]

    def done(self, *words: str, text: str = "") -> list[str]:
        """Its lines; its exit has to be 0."""
        status, lines = self.run(*words, text=text)
        if status != 0:
            raise Fault(f"aidl {' '.join(words)} ended with exit {status}: {' | '.join(lines)[:200]}")
        return lines

    def encode(self, tree: str, types: str, values: list[Any]) -> bytes:
        """The bytes of values."""
        (line,) = self.done("encode", *tree_of(tree, types), types, "/dev/stdin", text=json.dumps(values, ensure_ascii=False))
        return bytes.fromhex(line)

    def read(self, tree: str, types: str, data: bytes, is_lenient: bool = False) -> Reading:
        """The reading of bytes by one profile."""
        lenient = ("--lenient",) if is_lenient else ()
        status, lines = self.run("decode", *lenient, *tree_of(tree, types), types, "/dev/stdin", text=data.hex())
        last = lines[-1].split(" ") if status else [""]
        if last[0] == "status":
            at = None if is_lenient else self.items(tree, types, data)[-1].at
            return Reading(status=int(last[1]), at=at)
        if status and last[0] != "left":
            raise Fault(f"aidl decode {types}: {lines[-1]}")
        return Reading([json.loads(line) for line in (lines[:-1] if status else lines)], int(last[1]) if status else 0)

    def items(self, tree: str, types: str, data: bytes) -> list[Item]:
        """The items of bytes."""
        _, lines = self.run("explain", *tree_of(tree, types), types, "/dev/stdin", text=data.hex())
        found = [line.split(" ", 3) for line in lines]
        return [Item(int(at), 0 if text == "-" else len(text) // 2, path, kind) for at, text, path, kind in found]


def tree_of(tree: str, types: str) -> tuple[str, ...]:
    """The option that names a tree, where a type is of one."""
    return ("--tree", os.fspath(TREES / tree)) if "." in types else ()
