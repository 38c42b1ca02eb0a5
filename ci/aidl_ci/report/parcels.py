"""The bytes of a parcel with two readings: the items that `explain` prints by the types of the writer beside those by the types of the reader."""

from __future__ import annotations

import json
import re
import struct
from dataclasses import dataclass
from typing import Optional

from ..dump import Member, Type
from ..guard import Fault
from .trees import Room, Tree

ITEM = re.compile(r"(\d+) (-|(?:[0-9a-f]{2})+) (-|(?:/\w+)+) (value|count|text|bytes|marker|size|tag|tail|left|stop (-?\d+))")
STATUS = {-22: "BAD_VALUE", -61: "NOT_ENOUGH_DATA", -74: "UNKNOWN_TRANSACTION", -2147483647: "BAD_TYPE", -2147483640: "UNEXPECTED_NULL"}
TOKEN = ("token: policy", "token: work source", "token: header", "token: interface")
TOKEN_ITEMS = 5  # the last of the four parts has two items
BEYOND = ("tail", "left")
SHOWN_BYTES = 16


@dataclass(frozen=True)
class Part:
    """A value of a parcel: what it is called, and its type."""

    name: str
    type: Type


@dataclass(frozen=True)
class Cell:
    """What one side makes of some bytes: whose they are, what they say, and what is compared. Names of arguments aren't, since they may change."""

    name: str
    says: str
    key: tuple[str, ...]

    @property
    def text(self) -> str:
        return f"{self.name} {self.says}".strip()


@dataclass(frozen=True)
class Row:
    """Some bytes of a parcel, where they begin, and what the two sides make of them."""

    at: int
    data: bytes
    wrote: Optional[Cell]
    reads: Optional[Cell]
    differs: bool

    def hex(self) -> str:
        short = self.data if len(self.data) <= SHOWN_BYTES else self.data[: SHOWN_BYTES - 4]
        return short.hex(" ") + (" .." if short != self.data else "")


@dataclass(frozen=True)
class Item:
    """A line of `explain`."""

    offset: int
    data: bytes
    path: tuple[str, ...]
    kind: str
    status: Optional[int]


WORD = Type("int")


def named(status: int) -> str:
    """A status, with its name where it has one here."""
    return f"{status} {STATUS[status]}" if status in STATUS else str(status)


def request_parts(method: Member) -> list[Part]:
    """What a request of a method holds."""
    token = [Part(name, Type("String") if name == TOKEN[-1] else WORD) for name in TOKEN]
    sent = [one for one in method.arguments if one.direction != "out" or one.type.array]
    return token + [Part(one.name, one.type) if one.direction != "out" else Part(one.name + " (length)", WORD) for one in sent]


def reply_parts(method: Member) -> list[Part]:
    """What a reply of a method holds that returns."""
    result = [Part("result", method.type)] if method.type else []
    return [Part("exception", WORD), *result, *(Part(one.name, one.type) for one in method.arguments if one.direction != "in")]


def item_of(line: str) -> Item:
    found = ITEM.fullmatch(line)
    if not found:
        raise Fault(f"no item of explain: {line}")
    data = b"" if found[2] == "-" else bytes.fromhex(found[2])
    path = () if found[3] == "-" else tuple(found[3].split("/")[1:])
    return Item(int(found[1]), data, path, found[4].split(" ")[0], int(found[5]) if found[5] else None)


def entries(parts: list[Part]) -> str:
    return ",".join(one.type.entry() for one in parts)


def explain(room: Room, tree: Tree, parts: list[Part], data: bytes) -> list[Item]:
    """The items of bytes by the types of a tree. Joined they are the bytes."""
    path = room.file(data.hex())
    items = [item_of(line) for line in room.program.verdict("explain", "--tree", tree.folder, entries(parts), path).lines]
    starts = [sum(len(one.data) for one in items[:count]) for count in range(len(items))]
    if b"".join(one.data for one in items) != data or [one.offset for one in items] != starts:
        raise Fault(f"explain {entries(parts)}: the items aren't the bytes")
    return items


def type_at(tree: Tree, start: Type, path: tuple[str, ...]) -> Type:
    """The type of a part of a value."""
    for step in path:
        if start.array or start.listed:
            start = start.element()
        else:
            field = tree.declarations[start.base].members[step] if start.base in tree.declarations else None
            if field is None or field.type is None:
                raise Fault(f"explain names {'/'.join(path)}, which {start.base} hasn't")
            start = field.type
    return start


def spelled(name: str, path: tuple[str, ...]) -> str:
    """The name of a part of a value: `state.color`, `lights[0].id`."""
    return name + "".join(f"[{step}]" if step.isdigit() else f".{step}" for step in path)


def enumerator(tree: Tree, name: str, number: int) -> Optional[str]:
    """The first enumerator of an enum that has this number."""
    return next((one.name for one in tree.declarations[name].of_kind("enumerator") if one.number() == number), None)


def value_text(tree: Tree, kind: Type, data: bytes) -> str:
    """What the word or the two words of a value say."""
    number = struct.unpack("<i" if len(data) == 4 else "<q", data)[0]
    if kind.base == "boolean" and number in (0, 1):
        return f"= {('false', 'true')[number]}"
    if kind.base in tree.declarations:
        return f"= {number} ({enumerator(tree, kind.base, number) or 'no enumerator'})"
    return f"= {number}"


def says(tree: Tree, kind: Type, item: Item) -> str:
    """What an item says, in words."""
    if item.kind == "value":
        return value_text(tree, kind, item.data)
    if item.kind == "text":
        units = item.data.decode("utf-16-le", "replace")
        return "= " + json.dumps(units[: units.index("\0")] if "\0" in units else units, ensure_ascii=False)
    if item.kind == "bytes":
        return "= raw bytes"
    number = int.from_bytes(item.data[:4], "little", signed=True)
    if item.kind == "marker":
        return "is null" if number == 0 else "isn't null"
    if item.kind == "count":
        return "is null" if number == -1 else f"has {number} {'characters' if kind.base == 'String' and not (kind.array or kind.listed) else 'elements'}"
    if item.kind == "size":
        return f"has {number} bytes"
    member = tree.declarations[kind.base].of_kind("field")[number].name
    return f"holds {member} (tag {number})"


def cell(tree: Tree, parts: list[Part], item: Item) -> Cell:
    """What a side makes of an item."""
    if item.kind == "left" or not item.path:
        return Cell("", "left over, belongs to nothing", ("left",))
    part = parts[int(item.path[0])]
    name, key = spelled(part.name, item.path[1:]), item.path
    if item.kind == "tail":
        return Cell(name, "goes on, passed over", (*key, "tail"))
    if item.status is not None:
        return Cell(name, f"can't be read: {named(item.status)}", (*key, "stop"))
    told = says(tree, type_at(tree, part.type, item.path[1:]), item)
    return Cell(name, told, (*key, item.kind, told))


Side = Optional[tuple[Tree, list[Part]]]


def rows(room: Room, data: bytes, writer: Side, reader: Side, forward: bool) -> list[Row]:
    """The bytes, cut wherever one side has an item. A side that is None reads nothing. Forward is from the old version to the new one; else what the
    reader passes over, and a number without a name, are no difference, since a newer version may send them."""
    sides = [[(one, cell(side[0], side[1], one)) for one in explain(room, *side, data)] if side else [] for side in (writer, reader)]
    cuts = sorted({item.offset for side in sides for item, _ in side} | {0, len(data)})
    made = []
    for start, end in zip(cuts, cuts[1:]):
        left, right = (next((told for item, told in side if item.offset <= start < item.offset + len(item.data)), None) for side in sides)
        made.append(Row(start, data[start:end], left, right, reader is not None and differs(left, right, forward)))
    return with_token(made)


def differs(left: Optional[Cell], right: Optional[Cell], forward: bool) -> bool:
    if left is None or right is None:
        return left is not right
    if not forward and (right.key[-1] == "tail" or "no enumerator" in right.says):
        return False
    return left.key != right.key


def with_token(made: list[Row]) -> list[Row]:
    """The rows with those of an interface token, which no side reads otherwise, as one."""
    token = [row for row in made[:TOKEN_ITEMS] if row.wrote and row.wrote.name in TOKEN and not row.differs]
    if len(token) < TOKEN_ITEMS:
        return made
    told = Cell("interface token", token[-1].wrote.says[2:] if token[-1].wrote else "", ("token",))
    reads = told if token[-1].reads else None
    return [Row(0, b"".join(row.data for row in token), told, reads, False), *made[TOKEN_ITEMS:]]
