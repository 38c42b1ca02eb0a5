"""Fields whose default Java doesn't have, which is no rule of evolution: Java's reader has null for a String, an array or a `List` that the sender
didn't send, and Android 14's own check refuses such a field."""

from __future__ import annotations

import os
from typing import Iterator

from ..dump import sources
from .declarations import Declaration, Member
from .lexer import Text
from .parser import parse

WARNING = "{} has no default in Java; Android 14's own check refuses it"


def declared(folder: str) -> dict[str, Declaration]:
    """The declarations of a checked tree, by full name."""
    found = {}
    for path in sources(folder):
        shown = os.path.join(folder, path)
        with open(shown, "rb") as file:
            found.update({one.full: one for one in parse(Text(shown, path, file.read())).all()})
    return found


def without_default(member: Member) -> bool:
    """Whether a field has neither an initializer nor a default in Java."""
    type_ = member.type
    if type_ is None or member.value or member.is_nullable():
        return False
    return bool(type_.lengths) or type_.base in ("String", "List", "ParcelableHolder")


def fields_of(declaration: Declaration) -> dict[str, Member]:
    return {member.name: member for member in declaration.members if member.kind == "field"}


def warned(old: dict[str, Declaration], new: dict[str, Declaration]) -> Iterator[tuple[str, str, int]]:
    """The fields of parcelables that are new, or whose initializer was taken out, without a default in Java: what is said of each, its file and line."""
    for name, one in sorted(new.items()):
        before = old.get(name)
        if before is None or {one.kind, before.kind} != {"parcelable"} or not (one.structured and before.structured):
            continue
        earlier = fields_of(before)
        for field, member in fields_of(one).items():
            if without_default(member) and (field not in earlier or earlier[field].value):
                text = one.source.text
                yield WARNING.format(f"{name}.{field}"), text.shown, text.line(member.span.start)
