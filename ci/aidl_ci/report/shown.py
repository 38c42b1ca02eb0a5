"""A call that goes wrong, or a value, as the report shows it; and those that `witness` prints."""

from __future__ import annotations

import re
from dataclasses import dataclass, field
from typing import Optional

from ..dump import Member
from ..guard import Fault
from ..verdicts import RuleLine, broken_rules, rule_line
from .parcels import STATUS, Row, Side, reply_parts, request_parts, rows
from .trees import Room, Tree

CALL = re.compile(r"(call|reply) ([<>]) ([\w.]+)\.(\w+) (-|(?:[0-9a-f]{2})+)")
WHO = {">": ("an old client", "a new service"), "<": ("a new client", "an old service")}
NONE = ("none outside the wire", "none no candidate")
NUMBER = re.compile(r"(transport|status) (-?\d+)")


@dataclass
class Shown:
    """Bytes that one version wrote and the other reads. `kind` is `call`, `reply` or `value`, `by` says where it comes from; `reaches` is the method
    that a call's code reaches; `read` and `meant` are what came of it and what should have; `silent` where nothing fails."""

    kind: str
    by: str
    way: str
    name: str
    code: int
    reaches: Optional[str]
    writer: str
    reader: str
    rows: list[Row]
    read: str
    meant: str
    silent: bool
    differences: list[str] = field(default_factory=list)

    def head(self) -> str:
        """What is shown, in words."""
        if self.kind == "value":
            return f"A value of {self.name}, no call"
        if self.kind == "call":
            return f"{self.writer[0].upper()}{self.writer[1:]} calls {self.name}, code {self.code}"
        return f"{self.writer[0].upper()}{self.writer[1:]} answers {self.name}"

    @property
    def misses(self) -> bool:
        """The call reaches another method, or none."""
        return self.kind == "call" and self.reaches != self.name.rpartition(".")[2]


@dataclass(frozen=True)
class Entry:
    """A broken rule with what `witness` prints below it: a call, or the line that says why there is none."""

    rule: RuleLine
    lines: tuple[str, ...]


def with_name(side: str) -> str:
    """A side of `witness`, with the name of its status behind the number."""
    found = NUMBER.fullmatch(side)
    return f"{side} {STATUS[int(found[2])]}" if found and int(found[2]) in STATUS else side


def entries(room: Room, old: Tree, new: Tree) -> list[Entry]:
    """The broken rules as `judge` lists them, each with the lines of `witness`. The two commands have to agree."""
    judged = room.program.verdict("judge", old.folder, new.folder)
    told = room.program.verdict("witness", old.folder, new.folder)
    if judged.status != told.status or (judged.lines == ["yes"]) != (judged.status == 0) or (told.lines == ["yes"]) != (told.status == 0):
        raise Fault(f"judge and witness don't agree on {old.folder} and {new.folder}")
    if judged.status == 0:
        return []
    found = list(split(told.lines))
    if [one.rule for one in found] != broken_rules(judged.lines):
        raise Fault(f"judge and witness don't list the same of {old.folder} and {new.folder}")
    return found


def split(lines: list[str]) -> list[Entry]:
    """The entries of the lines of `witness`."""
    made = []
    while lines:
        rule = rule_line(lines[0])
        length = 2 if lines[1:2] and lines[1] in NONE else 4
        if not rule or len(lines) < length or (length == 4 and not is_call(lines[1:4])):
            raise Fault(f"no line of witness: {lines[:2]}")
        made.append(Entry(rule, tuple(lines[1:length])))
        lines = lines[length:]
    return made


def is_call(lines: list[str]) -> bool:
    return bool(CALL.fullmatch(lines[0])) and lines[1].startswith("read ") and lines[2].startswith("projected ")


def method(tree: Tree, interface: str, name: str) -> Member:
    found = tree.member(f"{interface}.{name}")
    if found is None or found.kind != "method":
        raise Fault(f"{tree.folder} has no method {interface}.{name}, which witness names")
    return found


def side(tree: Tree, one: Optional[Member], reply: bool) -> Side:
    return (tree, reply_parts(one) if reply else request_parts(one)) if one else None


def witnessed(room: Room, entry: Entry, old: Tree, new: Tree) -> Optional[Shown]:
    """The call of an entry, if it has one, with the two readings of its bytes."""
    found = CALL.fullmatch(entry.lines[0])
    if not found:
        return None
    reply, forward = found[1] == "reply", found[2] == ">"
    client, server = (old, new) if forward else (new, old)
    called = method(client, found[3], found[4])
    reached = server.with_code(found[3], called.id + 1)
    ends = [side(client, called, reply), side(server, reached, reply)]
    who = list(WHO[found[2]])
    if reply:
        ends, who = ends[::-1], who[::-1]
    data = b"" if found[5] == "-" else bytes.fromhex(found[5])
    read, meant = entry.lines[1][len("read ") :], entry.lines[2][len("projected ") :]
    table = rows(room, data, ends[0], ends[1], forward != reply) if ends[0] else []
    silent = read.startswith(("called ", "returned "))
    return Shown(found[1], "witness", found[2], f"{found[3]}.{found[4]}", called.id + 1, reached.name if reached else None, *who, table, with_name(read), with_name(meant), silent)
