#!/usr/bin/env python3
"""A reader of Parcels as one writes it in an afternoon, from the headers: an adapter that fails, so that one sees what the vectors find.

It knows three parcelables of the older tree, passes over an enum's names, and writes nothing."""
import json
import struct
import sys

PARCELABLES = {
    "plain.Point": [("x", "int", 0), ("y", "int", 7)],
    "plain.Node": [("key", "int", 0), ("below", "plain.Node[]", [])],
    "plain.Scalars": [("flag", "boolean", True), ("octet", "byte", -1), ("unit", "char", 97), ("number", "int", 7), ("wide", "long", 0),
                      ("text", "String", "x")],
}
PRIMITIVES = ("boolean", "byte", "char", "int", "long")


class Bad(Exception):
    """A status."""


class Reader:
    """Reads bytes from the front."""

    def __init__(self, data: bytes):
        self.data, self.at = data, 0

    def take(self, count: int) -> bytes:
        if self.at + count > len(self.data):
            raise Bad(-61)
        self.at += count
        return self.data[self.at - count : self.at]

    def word(self) -> int:
        return struct.unpack("<i", self.take(4))[0]

    def read(self, types: str) -> object:
        """A value of a type."""
        is_nullable, types = types.endswith("?"), types.rstrip("?")
        base = types[:-2] if types.endswith("[]") else types[5:-1] if types.startswith("List<") else None
        if base:
            return self.sequence(base + "?" * (is_nullable and base not in PRIMITIVES))
        if types in PRIMITIVES:
            return self.number(types)
        if types == "String":
            return self.text()
        return None if self.word() == 0 else self.fields(PARCELABLES[types])

    def number(self, types: str) -> object:
        if types == "long":
            return struct.unpack("<q", self.take(8))[0]
        word = self.word()
        return {"boolean": word != 0, "byte": (word + 128) % 256 - 128, "char": word & 0xFFFF, "int": word}[types]

    def text(self) -> object:
        count = self.word()
        return None if count == -1 else self.take((2 * count + 2 + 3) // 4 * 4)[: 2 * count].decode("utf-16-le", "surrogatepass")

    def sequence(self, base: str) -> object:
        count = self.word()
        if count == -1:
            return None
        if base == "byte":
            return list(struct.unpack(f"{count}b", self.take((count + 3) // 4 * 4)[:count]))
        return [self.read(base) for _ in range(count)]

    def fields(self, declared: list) -> object:
        start, size, made = self.at, self.word(), {}
        for name, types, default in declared:
            made[name] = self.read(types) if self.at - start < size else default
        self.at = start + size
        return made


def answer(line: str) -> str:
    """The answer to a line."""
    what, types, rest = line.rstrip("\n").split(" ", 2)
    if what == "write" or "newer." in types or any(name in types for name in ("Arrays", "Nulls", "Outer")):
        return "skip"
    reader = Reader(b"" if rest == "-" else bytes.fromhex(rest))
    try:
        values = [reader.read(one) for one in types.split(",")]
        return f"{json.dumps(values)} {len(reader.data) - reader.at}"
    except Bad as why:
        return f"status {why}"


if sys.argv[1:] == ["new"]:
    PARCELABLES["plain.Point"] += [("label", "String?", None), ("time", "long", 5)]
    PARCELABLES["plain.Scalars"] += [("more", "boolean", True), ("numbers", "int[]", []), ("point", "plain.Point?", None)]
for request in sys.stdin:
    print(answer(request), flush=True)
