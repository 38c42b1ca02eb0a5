"""Tokens of a file of AIDL: of the whole language, of which `aidl` reads a part. A file's bytes are characters here, one each, so that what isn't
replaced is copied to the byte."""

from __future__ import annotations

import bisect
import re
from dataclasses import dataclass
from typing import NoReturn

from ..guard import Fault

GAP = re.compile(r"(?:[ \t\r\n\f\v]+|//[^\n]*|/\*.*?\*/)*", re.S)
TOKEN = re.compile(
    r"""(?P<string>"(?:\\.|[^"\\\n])*")
    | (?P<character>'(?:\\.|[^'\\\n])')
    | (?P<word>[A-Za-z_][A-Za-z0-9_]*)
    | (?P<number>0[xX][0-9A-Za-z_]+ | (?:[0-9]*\.[0-9]+|[0-9]+)(?:[eE][-+]?[0-9]+)?[0-9A-Za-z_]*)
    | (?P<symbol>[{}()\[\]<>,;=.@+\-*/%&|^~!?:])""",
    re.X,
)


class Refused(Fault):
    """What a copy can't be made of, with the file and the line."""


@dataclass(frozen=True)
class Token:
    """A token: its kind, its text, and where it starts and ends. The end of a file is a token of no text."""

    kind: str
    text: str
    start: int
    end: int


class Text:
    """A file: the path that is shown, its path below the tree, its text and its tokens."""

    def __init__(self, shown: str, path: str, data: bytes):
        self.shown, self.path = shown, path
        self.text = data.decode("latin-1")
        self.newlines = [found.start() for found in re.finditer("\n", self.text)]
        self.tokens = self.cut()

    def cut(self) -> list[Token]:
        """The tokens, and one for the end of the file."""
        tokens: list[Token] = []
        at = self.behind_gap(0)
        while at < len(self.text):
            found = TOKEN.match(self.text, at)
            if not found:
                self.refuse(at, "no token of AIDL")
            tokens.append(Token(found.lastgroup or "", found[0], found.start(), found.end()))
            at = self.behind_gap(found.end())
        return [*tokens, Token("end", "", at, at)]

    def behind_gap(self, at: int) -> int:
        found = GAP.match(self.text, at)
        return found.end() if found else at

    def line(self, at: int) -> int:
        """The line of an offset, counted from 1."""
        return bisect.bisect_left(self.newlines, at) + 1

    def refuse(self, at: int, why: str) -> NoReturn:
        raise Refused(f"{self.shown}:{self.line(at)}: {why}")
