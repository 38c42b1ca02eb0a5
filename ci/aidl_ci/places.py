"""Where the places that `judge` prints stand in a tree's own sources: declarations, members and arguments, by their canonical names, and the
annotations of each. Sources of a checked tree are cut into tokens and walked; anything else is a fault."""

from __future__ import annotations

import bisect
import os
import re
from dataclasses import dataclass
from typing import Optional

from .dump import sources
from .guard import Fault

TOKEN = re.compile(rb"//[^\n]*|/\*.*?\*/|\"[^\"]*\"|'[^']*'|\w+|\S", re.S | re.A)
COMMENTS = (b"//", b"/*")
KINDS = (b"parcelable", b"union", b"enum", b"interface")


@dataclass(frozen=True)
class Place:
    """A path, a line and a column counted from 1 (a column counts characters), the column behind the name, and the line's text."""

    path: str
    line: int
    column: int
    end: int
    text: str

    def at(self) -> str:
        return f"{self.path}:{self.line}:{self.column}"


class Source:
    """A file of a checked tree: the names of its declarations, members and arguments, as tokens by place; and the names of their annotations."""

    def __init__(self, folder: str, path: str):
        self.path = os.path.join(folder, path)
        with open(self.path, "rb") as file:
            self.bytes = file.read()
        self.tokens = [one for one in TOKEN.finditer(self.bytes) if not one[0].startswith(COMMENTS)]
        self.starts = [0, *(one.end() for one in re.finditer(rb"\n", self.bytes))]
        self.at = 0
        self.names: dict[str, re.Match[bytes]] = {}
        self.marks: dict[str, dict[str, re.Match[bytes]]] = {}
        try:
            self.file()
        except IndexError as why:
            raise Fault(f"{self.path}: the source isn't one of a checked tree") from why

    def file(self) -> None:
        package = ""
        while self.at < len(self.tokens):
            if self.word() == b"package":
                start, self.at = self.at + 1, self.behind(b";")
                package = b"".join(one[0] for one in self.tokens[start : self.at - 1]).decode() + "."
            elif self.word() == b"import":
                self.at = self.behind(b";")
            else:
                self.declaration(package)

    def word(self) -> bytes:
        return self.tokens[self.at][0]

    def behind(self, symbol: bytes) -> int:
        """The number of the token behind the next one that is this symbol."""
        at = self.at
        while self.tokens[at][0] != symbol:
            at += 1
        return at + 1

    def annotations(self) -> dict[str, re.Match[bytes]]:
        """Goes behind the annotations that stand here, and answers their names."""
        found = {}
        while self.word() == b"@":
            name = self.tokens[self.at + 1]
            found[name[0].decode()] = name
            self.at += 2
            while self.word() == b".":
                self.at += 2
            if self.word() == b"(":
                self.group()
        return found

    def group(self) -> None:
        """Goes behind the bracket that closes the one which stands here."""
        depth = 0
        while True:
            depth += {b"(": 1, b"{": 1, b")": -1, b"}": -1}.get(self.word(), 0)
            self.at += 1
            if depth == 0:
                return

    def declaration(self, above: str) -> None:
        marks = self.annotations()
        self.at += self.word() == b"oneway"
        kind, name = self.word(), self.tokens[self.at + 1]
        if kind not in KINDS:
            raise Fault(f"{self.path}: there is no declaration at byte {self.tokens[self.at].start()}")
        place = above + name[0].decode()
        self.names[place], self.marks[place] = name, marks
        self.at += 3
        while self.word() != b"}":
            if kind == b"enum":
                self.enumerator(place)
            else:
                self.member(place)
        self.at += 1

    def enumerator(self, above: str) -> None:
        self.names[f"{above}.{self.word().decode()}"] = self.tokens[self.at]
        self.statement((b",", b"}"))
        self.at += self.word() == b","

    def member(self, above: str) -> None:
        start = self.at
        marks = self.annotations()
        oneway = self.word() == b"oneway"
        if self.tokens[self.at + oneway][0] in KINDS:
            self.at = start
            self.declaration(above + ".")
            return
        self.at += oneway
        marks.update(self.annotations())
        constant = self.word() == b"const"
        while self.word() not in (b"=", b"(", b";"):
            self.at += 1
        name = self.tokens[self.at - 1]
        place = f"{above}.{name[0].decode()}"
        self.names[place], self.marks[place] = name, marks
        if self.word() == b"(" and not constant:
            self.arguments(place)
        self.statement((b";",))
        self.at += 1

    def arguments(self, method: str) -> None:
        self.at += 1
        number = 0
        while self.word() != b")":
            marks: dict[str, re.Match[bytes]] = {}
            while self.word() not in (b",", b")"):
                if self.word() == b"@":
                    marks.update(self.annotations())
                else:
                    self.at += 1
            self.names[f"{method}/{number}"] = self.tokens[self.at - 1]
            self.marks[f"{method}/{number}"] = marks
            number += 1
            self.at += self.word() == b","

    def statement(self, ends: tuple[bytes, ...]) -> None:
        """Goes to the end of a member, past groups."""
        while self.word() not in ends:
            if self.word() in (b"(", b"{"):
                self.group()
            else:
                self.at += 1

    def place(self, name: re.Match[bytes]) -> Place:
        line = bisect.bisect_right(self.starts, name.start())
        start = self.starts[line - 1]
        column = len(self.bytes[start : name.start()].decode(errors="surrogateescape")) + 1
        end = self.bytes.find(b"\n", start)
        text = self.bytes[start : end if end >= 0 else None].decode(errors="surrogateescape").rstrip("\r")
        return Place(self.path, line, column, column + len(name[0]), text)


class Places:
    """The places of a checked tree."""

    def __init__(self, folder: str):
        self.found: dict[str, tuple[Source, re.Match[bytes]]] = {}
        for path in sources(folder):
            source = Source(folder, path)
            self.found.update({place: (source, name) for place, name in source.names.items()})

    def annotation(self, place: str, name: str) -> Optional[Place]:
        """Where an annotation of a place stands, if the place has it."""
        source = self.found[place][0] if place in self.found else None
        mark = source.marks.get(place, {}).get(name) if source else None
        return source.place(mark) if source and mark else None

    def exact(self, place: str) -> Optional[Place]:
        """Where a place stands, if the tree has it."""
        found = self.found.get(place)
        return found[0].place(found[1]) if found else None

    def nearest(self, place: str) -> Optional[Place]:
        """Where a place stands, or else what is around it: of an argument the method, of a member the declaration; None where that is gone too."""
        while place not in self.found:
            cut = max(place.rfind("/"), place.rfind("."))
            if cut < 0:
                return None
            place = place[:cut]
        return self.exact(place)
