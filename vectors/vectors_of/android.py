"""The column `android`: what Android's own libbinder makes of the same bytes, asked of host programs.

A host is a program over one of the trees, `host read`, that answers each line TYPES, HEX by JSON, STATUS, PLACE between tabs: what a Parcel reads, 0 or the
status of the value that it can't read, or `memory`, and the place behind."""
from __future__ import annotations

import json
import subprocess
from dataclasses import dataclass
from typing import Any, Iterator

from . import schema
from .frame import Fault

UNKNOWN_TYPE = 9
MEMORY: dict[str, Any] = {"memory": True}


@dataclass(frozen=True)
class Host:
    """A host program: the version of Android and the tree that it is of."""

    version: str
    tree: str
    path: str

    @classmethod
    def of(cls, text: str) -> Host:
        """By an argument `VERSION:TREE=PATH`."""
        name, _, path = text.partition("=")
        version, _, tree = name.partition(":")
        if not (version and path and tree in ("old", "new")):
            raise ValueError(text)
        return cls(version, tree, path)

    def answers(self, lines: list[str]) -> tuple[list[str], int]:
        """Its lines to these lines, of which it may not reach all, and its exit."""
        text = "".join(line + "\n" for line in lines).encode()
        try:
            ran = subprocess.run([self.path, "read"], input=text, stdout=subprocess.PIPE, stderr=subprocess.DEVNULL, check=False)
        except OSError as why:
            raise Fault(f"{self.path} can't be run: {why}") from why
        return ran.stdout.decode("utf-8", "surrogateescape").split("\n")[:-1], ran.returncode

    def knows(self, types: str) -> bool:
        """Whether it reads these types: a Parcel has no call for an enum by itself, and an older one none for a List of parcelables."""
        return all(self.answers([f"{one}\t-"])[1] != UNKNOWN_TYPE for one in types.split(","))

    def rows(self, lines: list[str]) -> Iterator[list[str]]:
        """The columns of each answer. Where it ends for want of memory it goes on with the line behind."""
        reached = 0
        while reached < len(lines):
            found, status = self.answers(lines[reached:])
            if status == UNKNOWN_TYPE:
                raise Fault(f"{self.path} doesn't know what it was asked")
            yield from (line.split("\t") for line in found)
            reached += len(found)
            if reached < len(lines):
                yield ["[]", "memory", "0"]
                reached += 1


class Named:
    """Values of a host, which has the number of an enumerator, as a vector has them."""

    def __init__(self, tree: str):
        self.declarations = schema.read(tree)

    def value(self, types: str, value: Any) -> Any:
        """The value with the names of enumerators."""
        element, found = schema.element_of(types), self.declarations.get(types.rstrip("?"))
        if value is None:
            return None
        if element:
            return [self.value(element, one) for one in value]
        if found is None:
            return value
        if found.kind == "enum":
            return found.enumerator(value)
        kinds = {one.name: one.types for one in found.fields}
        return {name: self.value(kinds[name], one) for name, one in value.items()}


def column(hosts: list[Host], vectors: list[dict[str, Any]]) -> dict[str, dict[str, Any]]:
    """The column by id: a version has no entry where its host doesn't know the types."""
    found: dict[str, dict[str, Any]] = {}
    for host in sorted(hosts, key=lambda one: (one.version, one.tree)):
        mine = [one for one in vectors if one["tree"] == host.tree]
        known = {types for types in sorted({one["types"] for one in mine}) if host.knows(types)}
        mine = [one for one in mine if one["types"] in known]
        named = Named(host.tree)
        lines = [f"{one['types']}\t{one['hex'] or '-'}" for one in mine]
        for one, row in zip(mine, host.rows(lines)):
            found.setdefault(one["id"], {})[host.version] = entry(one, row, named)
    return found


def entry(vector: dict[str, Any], row: list[str], named: Named) -> Any:
    """What a host answered: `lenient` where that is the lenient reading."""
    text, status, place = row
    if status == "memory":
        return MEMORY
    reading: dict[str, Any] = {"status": int(status)}
    if reading["status"] == 0:
        values = [named.value(types, value) for types, value in zip(vector["types"].split(","), json.loads(text))]
        reading = {"values": values, "left": len(vector["hex"]) // 2 - int(place)}
    lenient = vector.get("lenient", vector["strict"])
    wanted = {name: value for name, value in lenient.items() if name != "at"}
    return "lenient" if json.dumps(reading, sort_keys=True) == json.dumps(wanted, sort_keys=True) else reading
