"""What a canonical dump says of a tree: its declarations with their members. The text of a dump is fixed (docs/VERSIONS.md), so it is read line by
line, and a line that isn't of a dump is a fault."""

from __future__ import annotations

import os
import re
from dataclasses import dataclass, field
from typing import Iterator, Optional

from .guard import Fault
from .program import Program
from .verdicts import count_of_types

ANNOTATIONS = r"(?P<annotations>(?:@\w+(?:\((?:\"[^\"]*\"|[^)\"])*\))? )*)"
TYPE = r"(?P<type>[\w.]+(?:<[\w.]+>)?(?:\[\])?)"
OPENED = re.compile(ANNOTATIONS + r"(?P<kind>parcelable|union|enum|interface) (?P<name>\w+) \{")
METHOD = re.compile(r"(?P<oneway>oneway )?" + ANNOTATIONS + TYPE + r" (?P<name>\w+)\((?P<arguments>.*)\) = (?P<id>\d+);")
CONSTANT = re.compile(r"const " + TYPE + r" (?P<name>\w+) = (?P<value>.*);")
FIELD = re.compile(ANNOTATIONS + TYPE + r" (?P<name>\w+)(?: = (?P<value>.*))?;")
ENUMERATOR = re.compile(r"(?P<name>\w+) = (?P<value>.+),")
ARGUMENT = re.compile(r"(?P<direction>in|out|inout) " + ANNOTATIONS + TYPE + r" (?P<name>\w+)")
FORMS = {
    "enum": [("enumerator", ENUMERATOR)],
    "interface": [("constant", CONSTANT), ("method", METHOD)],
    "parcelable": [("constant", CONSTANT), ("field", FIELD)],
    "union": [("constant", CONSTANT), ("field", FIELD)],
}
LEAST_LONG = "0x8000000000000000"  # the one enumerator that a dump writes in hexadecimal
PRIMITIVES = ("boolean", "byte", "char", "int", "long")


@dataclass(frozen=True)
class Type:
    """A type: its text without annotations, and whether it may be null."""

    text: str
    nullable: bool = False

    @property
    def array(self) -> bool:
        return self.text.endswith("[]")

    @property
    def listed(self) -> bool:
        return self.text.startswith("List<")

    @property
    def base(self) -> str:
        return self.text[:-2] if self.array else self.text[5:-1] if self.listed else self.text

    def entry(self) -> str:
        """The type as `decode`, `encode` and `explain` want it among TYPES."""
        return self.text + "?" * self.nullable

    def element(self) -> Type:
        """The type of an element, which may be null where the array or the `List` may."""
        return Type(self.base, self.nullable and self.base not in PRIMITIVES)


@dataclass(frozen=True)
class Argument:
    direction: str
    type: Type
    name: str


@dataclass(frozen=True)
class Member:
    """A field, a method, a constant or an enumerator: its kind, its name and its text in the dump, and what its kind has."""

    kind: str
    name: str
    text: str
    type: Optional[Type] = None  # of a field, a constant and a method that returns something
    value: Optional[str] = None  # the text of an initializer, a constant or an enumerator
    id: int = 0
    oneway: bool = False
    arguments: tuple[Argument, ...] = ()

    def number(self) -> int:
        """The number of an enumerator."""
        text = self.value or ""
        if text == LEAST_LONG:
            return -(2**63)
        if not re.fullmatch(r"-?\d+L?", text):
            raise Fault(f"no number of an enumerator in a dump: {text}")
        return int(text.rstrip("L"))


@dataclass
class Declaration:
    """A type: its canonical name, its kind, the line that opens it, and its members by name in the order of the dump."""

    name: str
    kind: str
    head: str
    members: dict[str, Member] = field(default_factory=dict)

    def of_kind(self, kind: str) -> list[Member]:
        return [one for one in self.members.values() if one.kind == kind]


def sources(folder: str) -> list[str]:
    """The paths below a folder that end in `.aidl`, as `aidl` takes them: links are left out. They are sorted by their bytes."""
    taken: list[str] = []
    for above, folders, files in os.walk(folder):
        folders[:] = [name for name in folders if not os.path.islink(os.path.join(above, name))]
        taken += [os.path.join(above, name) for name in files if name.endswith(".aidl") and not os.path.islink(os.path.join(above, name))]
    return sorted((os.path.relpath(path, folder) for path in taken), key=os.fsencode)


def type_of(found: re.Match[str]) -> Type:
    return Type(found["type"], "@nullable" in found["annotations"])


def arguments_of(text: str) -> tuple[Argument, ...]:
    found = [Argument(one["direction"], type_of(one), one["name"]) for one in ARGUMENT.finditer(text)]
    if len(found) != (text.count(", ") + 1 if text else 0):
        raise Fault(f"no arguments of a dump: {text}")
    return tuple(found)


def member_of(kind: str, found: re.Match[str], text: str) -> Member:
    """The member that a line of a dump is."""
    text, name = text.rstrip(";,"), found["name"]
    if kind == "enumerator":
        return Member(kind, name, text, value=found["value"])
    if kind == "constant":
        return Member(kind, name, text, Type(found["type"]), found["value"])
    if kind == "field":
        return Member(kind, name, text, type_of(found), found["value"])
    result = None if found["type"] == "void" else type_of(found)
    return Member(kind, name, text, result, None, int(found["id"]), bool(found["oneway"]), arguments_of(found["arguments"]))


def member_line(within: Declaration, text: str) -> Member:
    for kind, form in FORMS[within.kind]:
        found = form.fullmatch(text)
        if found:
            return member_of(kind, found, text)
    raise Fault(f"no line of a dump: {text}")


def declarations_of(lines: list[str]) -> Iterator[Declaration]:
    """The declarations of one file of a dump, the outer one first."""
    package, opened = "", []  # type: str, list[Declaration]
    for line in lines:
        text = line.strip()
        start = OPENED.fullmatch(text)
        if text.startswith("package ") and not opened:
            package = text[len("package ") : -1] + "."
        elif text == "}" and opened:
            opened.pop()
        elif start:
            above = opened[-1].name + "." if opened else package
            opened.append(Declaration(above + start["name"], start["kind"], text[:-2]))
            yield opened[-1]
        elif opened:
            member = member_line(opened[-1], text)
            opened[-1].members[member.name] = member
        else:
            raise Fault(f"no line of a dump: {text}")


def read(folder: str) -> dict[str, Declaration]:
    """The declarations of the dump that stands below a folder, by canonical name."""
    found: dict[str, Declaration] = {}
    for path in sources(folder):
        with open(os.path.join(folder, path), encoding="utf-8") as file:
            found.update({one.name: one for one in declarations_of(file.read().splitlines())})
    return found


def of_tree(program: Program, tree: str, room: str) -> dict[str, Declaration]:
    """The declarations of a checked tree, by its dump, which is written into an empty folder. Their number is the one that `check` prints."""
    program.done("dump", tree, room)
    found = read(room)
    counted = count_of_types(program.done("check", tree).lines)
    if len(found) != counted:
        raise Fault(f"check counts {counted} types in {tree}, and its dump has {len(found)}")
    return found
