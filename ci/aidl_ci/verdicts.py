"""The lines that `check`, `judge` and `witness` print, read strictly: a line that isn't what the pages say is a fault, and no verdict."""

from __future__ import annotations

import re
from dataclasses import dataclass
from typing import Optional

from .guard import Fault
from .rules import rules

FAULT = re.compile(r"(?P<path>.+):(?P<offset>\d+): (?P<what>(?P<lex>lex \d) \w+|syntax|(?P<rule>E\d+) \w+)", re.S)
RULE = re.compile(r"(?:(?P<way>[<>]) )?(?P<rule>C\d+) (?P<place>[\w./]+)")
COUNTED = re.compile(r"ok (\d+) types")


@dataclass(frozen=True)
class FaultLine:
    """A fault of a tree: the file, the offset of a byte counted from 0, what is printed behind it, and its rule in the table."""

    path: str
    offset: int
    what: str
    code: str


@dataclass(frozen=True)
class RuleLine:
    """A broken rule of evolution: the order of the trees where `run` prints it (`>` or `<`), the rule, and the place that is printed."""

    way: Optional[str]
    code: str
    place: str

    def line(self) -> str:
        return f"{self.way + ' ' if self.way else ''}{self.code} {self.place}"


def fault_line(line: str) -> Optional[FaultLine]:
    """The fault that a line says, if it says one."""
    found = FAULT.fullmatch(line)
    if not found:
        return None
    code = found["lex"] or found["rule"] or "syntax"
    return FaultLine(found["path"], int(found["offset"]), found["what"], code) if code in rules() else None


def rule_line(line: str) -> Optional[RuleLine]:
    """The broken rule that a line says, if it says one."""
    found = RULE.fullmatch(line)
    return RuleLine(found["way"], found["rule"], found["place"]) if found and found["rule"] in rules() else None


def faults(lines: list[str]) -> list[FaultLine]:
    """The faults that `check` prints, which are at least one."""
    read = [fault_line(line) for line in lines]
    if not read or None in read:
        raise Fault(f"no fault of a tree: {next((line for line, one in zip(lines, read) if one is None), 'nothing was printed')}")
    return [one for one in read if one is not None]


def count_of_types(lines: list[str]) -> int:
    """The number that `check` prints of a checked tree."""
    found = COUNTED.fullmatch(lines[0]) if len(lines) == 1 else None
    if not found:
        raise Fault(f"check printed neither faults nor a number of types: {lines[:1]}")
    return int(found[1])


def broken_rules(lines: list[str]) -> list[RuleLine]:
    """The rules that `judge` prints with exit 1, which are at least one, each once."""
    read = [rule_line(line) for line in lines]
    if not read or any(one is None or one.way for one in read):
        raise Fault(f"no broken rule: {next((line for line, one in zip(lines, read) if one is None or one.way), 'nothing was printed')}")
    if len(set(read)) != len(read):
        raise Fault("a broken rule is printed twice")
    return [one for one in read if one is not None]
