"""Values made to show a change: another one in each field, by the types of one tree; and how two values differ by the names of their parts."""

from __future__ import annotations

import json
import re
from dataclasses import dataclass, field
from typing import Any, Iterable, Optional

from ..dump import Declaration, Type
from .trees import Tree

DEPTH = 4  # nesting at which what may be null or empty is
BACKING = re.compile(r'@Backing\(type="(byte|int|long)"\)')
RANGES = {"byte": 1 << 7, "int": 1 << 31, "long": 1 << 63}
MOST = 2000  # parts of a value, behind which the rest stays small
BIG = {"byte": 100, "char": 50000, "int": 70000, "long": 1 << 33}


@dataclass
class Maker:
    """Makes values of a tree's types. `towards` are the declarations that are filled, all others stay small; `chosen` names the enumerator or the
    union's member to take; with `nulls` what may be null is, and with `big` numbers have more bytes than the next shorter type."""

    tree: Tree
    towards: set[str]
    chosen: dict[str, Any] = field(default_factory=dict)
    nulls: bool = False
    big: bool = False
    count: int = 0

    def of(self, kind: Type, depth: int = 0) -> Any:
        """A value of a type, as JSON."""
        small = depth > DEPTH or self.count > MOST or (kind.base in self.tree.declarations and kind.base not in self.towards)
        if kind.nullable and (self.nulls or small):
            return None
        if kind.array or kind.listed:
            return [] if small else [self.of(kind.element(), depth + 1)]
        return self.declared(self.tree.declarations[kind.base], depth) if kind.base in self.tree.declarations else self.plain(kind.base)

    def plain(self, base: str) -> Any:
        self.count += 1
        if base == "boolean":
            return True
        if base == "String":
            return f"text {self.count}"
        return (BIG[base] if self.big else 0) + 1 + self.count % 25

    def declared(self, one: Declaration, depth: int) -> Any:
        if one.kind == "enum":
            named = one.of_kind("enumerator")
            return self.chosen.get(one.name, named[-1].name if named else 0)
        fields = one.of_kind("field")
        if one.kind == "union":
            taken = self.chosen.get(one.name)
            member = next((each for each in fields if each.name == taken), fields[0])
            return {member.name: self.of(member.type, depth + 1)} if member.type else {}
        if one.name not in self.towards or self.count > MOST:
            return {}
        return {each.name: self.of(each.type, depth + 1) for each in fields if each.type}


def big_number(one: Declaration) -> int:
    """A number that fits the backing type of an enum and no shorter one."""
    found = BACKING.search(one.head)
    return {"byte": 100, "int": 200, "long": (1 << 32) + 1}[found[1] if found else "byte"]


def reaching(tree: Tree, names: Iterable[str]) -> set[str]:
    """The declarations that hold one of these through their fields, and these."""
    asked = frozenset(names)
    if asked not in tree.reaching:
        found, left = set(asked), list(asked)
        while left:
            more = [name for name in tree.holders().get(left.pop(), []) if name not in found]
            found.update(more)
            left += more
        tree.reaching[asked] = found
    return tree.reaching[asked]


@dataclass(frozen=True)
class Difference:
    """A part of a value that was sent as one thing and is seen as another, and the declarations that it is within."""

    text: str
    within: tuple[str, ...]


@dataclass
class Comparison:
    """Compares values by the names of their parts. Forward is from the old version to the new one; else a part that the reader lacks and a number
    without a name are no difference, since a newer version may send them."""

    sender: Tree
    reader: Tree
    forward: bool
    found: list[Difference] = field(default_factory=list)

    def add(self, name: str, sent: Any, seen: Any, within: tuple[str, ...]) -> None:
        self.found.append(Difference(f"{name}: {shown(sent)} was sent, {shown(seen)} is seen", within))

    def compare(self, name: str, sent: Any, seen: Any, kinds: tuple[Optional[Type], Optional[Type]], within: tuple[str, ...] = ()) -> None:
        """Compares a part, whose types in the two trees are given."""
        mine, other = kinds
        base = mine.base if mine else ""
        within = (*within, base) if base in self.sender.declarations else within
        if isinstance(sent, list) and isinstance(seen, list) and mine and other:
            if len(sent) != len(seen):
                self.add(name, sent, seen, within)
            for number, (left, right) in enumerate(zip(sent, seen)):
                self.compare(f"{name}[{number}]", left, right, (mine.element(), other.element()), within)
        elif isinstance(sent, dict) and isinstance(seen, dict) and mine and other:
            self.members(name, sent, seen, (mine, other), within)
        elif "enum" in (self.sender.kind(base), self.reader.kind(other.base if other else "")) and not isinstance(sent, (list, dict)):
            self.enumerator(name, sent, seen, (base, other.base if other else ""), within)
        elif type(sent) is not type(seen) or sent != seen:
            self.add(name, sent, seen, within)

    def members(self, name: str, sent: dict[str, Any], seen: dict[str, Any], kinds: tuple[Type, Type], within: tuple[str, ...]) -> None:
        union = self.sender.kind(kinds[0].base) == "union"
        for key in sent:
            if key in seen:
                types = [tree.member(f"{kind.base}.{key}") for tree, kind in zip((self.sender, self.reader), kinds)]
                mine, other = (one.type if one else None for one in types)
                self.compare(f"{name}.{key}", sent[key], seen[key], (mine, other), within)
            elif union:
                self.add(name, sent, seen, within)
            elif self.forward:
                self.found.append(Difference(f"{name}.{key}: {shown(sent[key])} was sent, and is dropped", within))

    def enumerator(self, name: str, sent: Any, seen: Any, bases: tuple[str, str], within: tuple[str, ...]) -> None:
        """Compares a value of an enum: a name means what the reader has by that name, and one that the reader hasn't is a difference only forward."""
        meant = number_of(self.reader, bases[1], sent)
        if isinstance(meant, str):
            differs = self.forward or number_of(self.sender, bases[0], sent) != number_of(self.reader, bases[1], seen)
        else:
            differs = meant != number_of(self.reader, bases[1], seen)
        if differs:
            self.add(name, sent, seen, within)


def number_of(tree: Tree, base: str, value: Any) -> Any:
    """The number of an enumerator that the tree has by this name; any other value as it is."""
    found = tree.member(f"{base}.{value}") if isinstance(value, str) else None
    return found.number() if found and found.kind == "enumerator" else value


def shown(value: Any) -> str:
    """A value in a sentence, shortened."""
    text = json.dumps(value, ensure_ascii=False)
    return text if len(text) <= 60 else text[:57] + "..."
