"""The commands of the program as docs/PROGRAM.md has them, and its exits: manuals, completions and help are made of these tables."""

from __future__ import annotations

import pathlib
import re
from dataclasses import dataclass

COMMANDS = 14


class Fault(Exception):
    """The package can't be made."""


@dataclass(frozen=True)
class Command:
    """A command: its name, its options and arguments as the table shows them, and what it does."""

    name: str
    arguments: str
    does: str

    def options(self) -> list[str]:
        return re.findall(r"--\w+", self.arguments)


@dataclass(frozen=True)
class Exit:
    number: str
    meaning: str
    printed: str


def plain(text: str) -> str:
    """A cell of a table without Markdown's marks."""
    return text.replace("`", "")


def commands(top: pathlib.Path) -> list[Command]:
    """The rows of the table of commands, which are the commands of the program: the table of its own words has the same."""
    page = (top / "docs/PROGRAM.md").read_text(encoding="utf-8").split("\n## Exits")[0]
    found = [Command(*row) for row in re.findall(r"^\| `(\w+) ([^`]+)` \| (.+) \|$", page, re.M)]
    rows = (top / "crates/tool_words/src/rows.rt").read_text(encoding="utf-8")
    known = set(re.findall(r'^        "([a-z]+)" =>', rows, re.M))
    if len(found) != COMMANDS or {one.name for one in found} != known:
        raise Fault(f"docs/PROGRAM.md and the program don't have the same {COMMANDS} commands: {sorted({one.name for one in found} ^ known)}")
    return found


def exits(top: pathlib.Path) -> list[Exit]:
    page = (top / "docs/PROGRAM.md").read_text(encoding="utf-8").split("\n## Exits")[1].split("\n## ")[0]
    found = [Exit(number, plain(meaning), plain(printed)) for number, meaning, printed in re.findall(r"^\| (\d) \| (.+?) \| (.+?) \|$", page, re.M)]
    if [one.number for one in found] != [str(number) for number in range(9)]:
        raise Fault("the table of exits in docs/PROGRAM.md isn't one of 0 to 8")
    return found
