"""What a version added, and what the older one makes of it: defaults by `encode` and `decode`, and statuses by a recorded call, as they are printed."""

from __future__ import annotations

import json
from dataclasses import dataclass
from typing import Any, Iterator, Optional

from ..dump import Declaration, Member, Type
from ..places import Place
from .made import Call, Ends, Wanted, fillings, record, replayed
from .parcels import named
from .replies import encoded
from .trees import Room, Tree

AT_ONCE = 255  # entries of TYPES
AT_MOST = 40  # union members and interfaces of which the older version is asked
JAVA = "{} has no default in Java; Android 14's own check refuses it"
WORDS = {"parcelable": "field", "union": "union member", "enum": "enumerator", "interface": "method"}


@dataclass
class Added:
    """What came: a type or a member, its text in the dump, where it stands, and what the other version makes of it."""

    kind: str
    place: str
    text: str
    at: Optional[Place]
    means: str = ""


@dataclass(frozen=True)
class Warned:
    """A field whose default Java lacks, which is no rule of the judge."""

    place: str
    text: str
    at: Optional[Place]

    def says(self) -> str:
        return JAVA.format(self.place)


def added(ends: Ends, broken: set[str]) -> list[Added]:
    """What the new version has and the old one hasn't, type by type in the order of the dump. Of a new type only the type is listed. Of a type that is
    broken no default is asked for, since other bytes are read in its place."""
    found = list(compared(ends))
    for one in found:
        if one.kind == "field" and one.place.rpartition(".")[0] in broken:
            one.means = f"values of {one.place.rpartition('.')[0]} are read otherwise: what breaks has it"
    tell_defaults(ends, [one for one in found if one.kind == "field" and not one.means])
    tell_numbers(ends, [one for one in found if one.kind == "enumerator"])
    tell_members(ends, [one for one in found if one.kind == "union member"])
    tell_methods(ends, [one for one in found if one.kind == "method"])
    return found


def compared(ends: Ends) -> Iterator[Added]:
    for name, one in ends.new.declarations.items():
        before = ends.old.declarations.get(name)
        if before is None:
            if name.rpartition(".")[0] not in ends.new.declarations or name.rpartition(".")[0] in ends.old.declarations:
                yield Added(one.kind, name, one.head, ends.new.places.exact(name), "a type that the older version doesn't know")
            continue
        for member in one.members.values():
            if member.name not in before.members:
                yield of_member(ends.new, one, member)


def of_member(tree: Tree, one: Declaration, member: Member) -> Added:
    kind = "constant" if member.kind == "constant" else WORDS[one.kind]
    place = f"{one.name}.{member.name}"
    return Added(kind, place, member.text, tree.places.exact(place), "compiled in, never sent" if kind == "constant" else "")


def values_of(room: Room, writer: Tree, reader: Tree, asked: list[tuple[str, Any]]) -> list[Any]:
    """What a reader makes of values that a writer wrote, many at once; None from the first on that isn't read."""
    made: list[Any] = []
    for start in range(0, len(asked), AT_ONCE):
        part = asked[start : start + AT_ONCE]
        types = ",".join(name for name, _ in part)
        wrote = room.program.verdict("encode", "--tree", writer.folder, types, room.file(json.dumps([value for _, value in part])))
        read = room.program.verdict("decode", "--tree", reader.folder, types, room.file(wrote.text)).lines if wrote.status == 0 else []
        told = [json.loads(line) for line in read if not line.startswith(("status ", "left "))][: len(part)]
        made += told + [None] * (len(part) - len(told))
    return made


def tell_defaults(ends: Ends, fields: list[Added]) -> None:
    """Of each new field what a new reader sees of a value that an old sender wrote."""
    names = list(dict.fromkeys(one.place.rpartition(".")[0] for one in fields))
    seen = dict(zip(names, values_of(ends.room, ends.old, ends.new, [(name, {}) for name in names])))
    for one in fields:
        name, _, member = one.place.rpartition(".")
        read = seen[name]
        sees = f"a new reader sees {json.dumps(read[member], ensure_ascii=False)} of an old sender" if isinstance(read, dict) and member in read else "what a new reader sees of an old sender wasn't read"
        one.means = f"{sees}; an old reader drops it"


def tell_numbers(ends: Ends, enumerators: list[Added]) -> None:
    """Of each new enumerator what an old reader sees."""
    asked = [(place, member) for place, _, member in (one.place.rpartition(".") for one in enumerators)]
    for one, seen in zip(enumerators, values_of(ends.room, ends.new, ends.old, asked)):
        one.means = f"an old reader sees {json.dumps(seen)}" + (", without a name" if isinstance(seen, int) else "")


def tell_members(ends: Ends, members: list[Added]) -> None:
    """Of each new member of a union what an old reader says."""
    for one in members[:AT_MOST]:
        name, _, member = one.place.rpartition(".")
        maker = next(fillings(ends.new, Wanted(frozenset([name]), None, ((name, member),))))
        wrote = encoded(ends.room, ends.new, name, maker.declared(ends.new.declarations[name], 0))
        if wrote is None:
            continue
        read = ends.room.program.verdict("decode", "--tree", ends.old.folder, name, ends.room.file(wrote.hex())).lines
        refused = read[-1].split(" ") if read else []
        one.means = f"an old reader refuses it: {named(int(refused[1]))}" if refused[:1] == ["status"] else f"an old reader sees {read[0]}" if read else ""


def tell_methods(ends: Ends, methods: list[Added]) -> None:
    """Of each new method what an old service answers."""
    by_interface: dict[str, list[Added]] = {}
    for one in methods:
        by_interface.setdefault(one.place.rpartition(".")[0], []).append(one)
    asked = list(by_interface)[:AT_MOST]
    calls = record(ends, [call_of(ends.new, one) for name in asked for one in by_interface[name]])
    for name in asked:
        mine = [one for one in calls if one.interface == name]
        told = {one.place.rpartition(".")[2]: one for one in by_interface[name]}
        for call, answer in zip(mine, replayed(ends.room, ends.old, name, mine)):
            status = int(answer.get("transport", 0))
            told[call.method.name].means = f"an old service answers {named(status)}" if status else "an old service has another method of its code"


def call_of(tree: Tree, one: Added) -> Call:
    """A call of a new method from the new version."""
    name, _, member = one.place.rpartition(".")
    method = tree.declarations[name].members[member]
    maker = next(fillings(tree, Wanted(frozenset())))
    arguments = [(1 if each.type.array else None) if each.direction == "out" else maker.of(each.type) for each in method.arguments]
    return Call(name, method, False, json.dumps({"call": one.place, "args": arguments}))


def warned(ends: Ends) -> list[Warned]:
    """The fields of parcelables that are new, or had an initializer before, and that Java reads as null from a sender without them."""
    found = []
    for name, one in ends.new.declarations.items():
        before = ends.old.declarations.get(name)
        if one.kind != "parcelable" or before is None or before.kind != "parcelable":
            continue
        for member in one.of_kind("field"):
            earlier = before.members.get(member.name)
            if member.type and member.value is None and without_default(member.type) and (earlier is None or earlier.value is not None):
                place = f"{name}.{member.name}"
                found.append(Warned(place, member.text, ends.new.places.exact(place)))
    return found


def without_default(kind: Type) -> bool:
    return not kind.nullable and (kind.array or kind.listed or kind.base == "String")
