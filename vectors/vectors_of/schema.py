"""The declarations of the trees here, which have a member a line and full names: for readers of Parcels, and for whoever has numbers in place of enumerators."""
from __future__ import annotations

import pathlib
import re
from dataclasses import dataclass, field
from typing import Any, Optional

from .frame import TREES, Fault

OPENED = re.compile(r"(?:@\w+(?:\(type=\"(\w+)\"\))? )*(parcelable|union|enum|interface) (\w+) \{")
ENUMERATOR = re.compile(r"(\w+) = (-?\d+),")
FIELD = re.compile(r"(@nullable )?([\w.]+(?:<[\w.]+>)?(?:\[\])?) (\w+)(?: = (.+))?;")
SCALARS = {"boolean": False, "byte": 0, "char": 0, "int": 0, "long": 0, "String": ""}


@dataclass(frozen=True)
class Field:
    """A field of a parcelable or a union, with its initializer's text or nothing; `types` is as a vector has it."""

    name: str
    types: str
    initializer: str


@dataclass
class Declaration:
    """A parcelable, a union or an enum."""

    kind: str
    backing: str
    fields: list[Field] = field(default_factory=list)
    numbers: dict[str, int] = field(default_factory=dict)

    def enumerator(self, number: int) -> Any:
        """The first name of a number, or the number itself."""
        return next((name for name, one in self.numbers.items() if one == number), number)


def read(tree: str) -> dict[str, Declaration]:
    """The declarations of a tree by their full names."""
    found: dict[str, Declaration] = {}
    for path in sorted(pathlib.Path(TREES / tree).rglob("*.aidl")):
        read_file(path, found)
    return found


def read_file(path: pathlib.Path, found: dict[str, Declaration]) -> None:
    """Adds the declarations of a file."""
    names: list[str] = []
    for line in map(str.strip, path.read_text(encoding="utf-8").split("\n")):
        opened = OPENED.fullmatch(line)
        if line.startswith("package "):
            names = [line[8:-1]]
        elif opened:
            names.append(opened[3])
            found[".".join(names)] = Declaration(opened[2], opened[1] or "byte")
        elif line == "}":
            names.pop()
        elif line and not line.startswith("import "):
            add_member(found[".".join(names)], line, path)


def add_member(within: Declaration, line: str, path: pathlib.Path) -> None:
    """Adds the member that a line is."""
    enumerator, member = ENUMERATOR.fullmatch(line), FIELD.fullmatch(line)
    if within.kind == "enum" and enumerator:
        within.numbers[enumerator[1]] = int(enumerator[2])
    elif within.kind in ("parcelable", "union") and member:
        within.fields.append(Field(member[3], member[2] + "?" * bool(member[1]), member[4] or ""))
    elif within.kind != "interface":
        raise Fault(f"{path}: no member: {line}")


def element_of(types: str) -> Optional[str]:
    """The type of an array's or a List's elements, which may be null where the whole may; None of another type."""
    plain = types[:-1] if types.endswith("?") else types
    base = plain[:-2] if plain.endswith("[]") else plain[5:-1] if plain.startswith("List<") else None
    return base + "?" * types.endswith("?") if base else None


def default(declarations: dict[str, Declaration], types: str, initializer: str = "") -> Any:
    """The default of a field of a type."""
    if types.endswith("?"):
        return None
    if element_of(types):
        return []
    if types in SCALARS:
        return scalar(types, initializer) if initializer else SCALARS[types]
    found = declarations[types]
    if found.kind == "enum":
        return initializer.rsplit(".", 1)[1] if initializer else found.enumerator(0)
    if found.kind == "union":
        first = found.fields[0]
        return {first.name: default(declarations, first.types, first.initializer)}
    return {one.name: default(declarations, one.types, one.initializer) for one in found.fields}


def scalar(types: str, initializer: str) -> Any:
    """The value of an initializer of a built-in type."""
    if types == "boolean":
        return initializer == "true"
    if types == "String":
        return initializer[1:-1]
    return ord(initializer[1]) if types == "char" else int(initializer)
