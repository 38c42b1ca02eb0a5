#!/usr/bin/env python3
"""A reader and writer of Parcels in Python, as an adapter: it knows the pages and not the program, and passes all vectors, as strict or as lenient.

`--wrong` turns off one rule, so that one sees by which causes `run` tells such readers apart: `null` takes null where none may stand, `counts` takes a
count below -1 for no elements, and `sizes` ignores the size of a parcelable.
"""
import argparse
import json
import os
import struct
import sys
from typing import Any, Iterator

sys.dont_write_bytecode = True
sys.path.insert(0, os.path.join(os.path.dirname(os.path.realpath(__file__)), ".."))
from vectors_of import frame, schema  # noqa: E402

BAD_VALUE, NOT_ENOUGH_DATA, UNEXPECTED_NULL = -22, -61, -2147483640
RANGES = {"boolean": (0, 1), "byte": (-128, 127), "char": (0, 65535), "int": (-(2**31), 2**31 - 1)}
LEVELS = 64


class Stop(Exception):
    """The bytes are no value: the status."""


class Reader:
    """Reads bytes from the front. `ends` are the ends of the parcelables that are being read."""

    def __init__(self, declarations: dict, data: bytes, is_strict: bool, wrong: str):
        self.declarations, self.data, self.is_strict, self.wrong = declarations, data, is_strict, wrong
        self.at, self.ends = 0, []

    def take(self, count: int) -> bytes:
        """The next bytes."""
        if self.at + count > (self.ends[-1] if self.ends else len(self.data)):
            raise Stop(BAD_VALUE if self.ends else NOT_ENOUGH_DATA)
        self.at += count
        return self.data[self.at - count : self.at]

    def word(self) -> int:
        return struct.unpack("<i", self.take(4))[0]

    def padded(self, count: int) -> bytes:
        """So many bytes, behind which there is padding."""
        raw = self.take((count + 3) // 4 * 4)
        if self.is_strict and any(raw[count:]):
            raise Stop(BAD_VALUE)
        return raw[:count]

    def scalar(self, types: str) -> Any:
        """A boolean or a number."""
        if types == "long":
            return struct.unpack("<q", self.take(8))[0]
        number = self.word()
        least, most = RANGES[types]
        if self.is_strict and not least <= number <= most:
            raise Stop(BAD_VALUE)
        if types == "byte":
            return (number + 128) % 256 - 128
        return number != 0 if types == "boolean" else number & 0xFFFF if types == "char" else number

    def count(self, is_nullable: bool) -> int:
        """The count of a sequence or a String; -1 of null."""
        count = self.word()
        if count == -1 and not (is_nullable or self.wrong == "null"):
            raise Stop(UNEXPECTED_NULL)
        if count < -1:
            if self.wrong != "counts":
                raise Stop(BAD_VALUE)
            return 0
        return count

    def value(self, types: str, levels: int = LEVELS) -> Any:
        """A value of a type."""
        is_nullable, plain = types.endswith("?"), types.rstrip("?")
        if schema.element_of(types):
            return self.sequence(types, levels)
        if plain == "String":
            return self.text(is_nullable)
        found = self.declarations.get(plain)
        if found is None:
            return self.scalar(plain)
        if found.kind == "enum":
            return found.enumerator(self.scalar(found.backing))
        return self.declared(found, is_nullable, levels)

    def text(self, is_nullable: bool) -> Any:
        """A String."""
        count = self.count(is_nullable)
        if count == -1:
            return None
        block = self.take((2 * count + 5) // 4 * 4)
        tail = block[2 * count :]
        if any(tail[:2]) or self.is_strict and any(tail):
            raise Stop(BAD_VALUE)
        try:
            return block[: 2 * count].decode("utf-16-le")
        except UnicodeDecodeError:
            raise Stop(BAD_VALUE) from None

    def sequence(self, types: str, levels: int) -> Any:
        """An array or a List."""
        count = self.count(types.endswith("?"))
        if count == -1:
            return None
        if levels == 0:
            raise Stop(BAD_VALUE)
        element = schema.element_of(types)
        found = self.declarations.get(element.rstrip("?"))
        is_enum = found is not None and found.kind == "enum"
        if (found.backing if is_enum else element.rstrip("?")) == "byte":
            numbers = struct.unpack(f"{count}b", self.padded(count))
            return [found.enumerator(one) if is_enum else one for one in numbers]
        return [self.value(element, levels - 1) for _ in range(count)]

    def declared(self, found: Any, is_nullable: bool, levels: int) -> Any:
        """A parcelable or a union."""
        marker = self.word()
        if marker == 0 and not (is_nullable or self.wrong == "null"):
            raise Stop(UNEXPECTED_NULL)
        if self.is_strict and marker not in (0, 1):
            raise Stop(BAD_VALUE)
        if marker == 0:
            return None
        if levels == 0:
            raise Stop(BAD_VALUE)
        if found.kind == "parcelable":
            return self.parcelable(found, levels - 1)
        tag = self.word()
        if not 0 <= tag < len(found.fields):
            raise Stop(BAD_VALUE)
        return {found.fields[tag].name: self.value(found.fields[tag].types, levels - 1)}

    def parcelable(self, found: Any, levels: int) -> Any:
        """The fields of a parcelable, as many as its size has room for."""
        start, size = self.at, self.word()
        if self.wrong == "sizes":
            return {one.name: self.value(one.types, levels) for one in found.fields}
        if size < 4 or size % 4:
            raise Stop(BAD_VALUE)
        self.at = start
        self.take(size)
        self.at = start + 4
        self.ends.append(start + size)
        made = {}
        for one in found.fields:
            is_left_out = self.at == self.ends[-1]
            made[one.name] = schema.default(self.declarations, one.types, one.initializer) if is_left_out else self.value(one.types, levels)
        self.at = self.ends.pop()
        return made


class Writer:
    """Writes values."""

    def __init__(self, declarations: dict):
        self.declarations = declarations

    def value(self, types: str, value: Any) -> bytes:
        """The bytes of a value of a type."""
        plain, element = types.rstrip("?"), schema.element_of(types)
        found = self.declarations.get(plain)
        if element:
            return self.sequence(element, value)
        if plain == "String":
            return word(-1) if value is None else text(value)
        if found is None:
            return struct.pack("<q", value) if plain == "long" else word(value)
        if found.kind == "enum":
            return self.value(found.backing, found.numbers.get(value, value))
        return word(0) if value is None else word(1) + b"".join(self.fields(found, value))

    def sequence(self, element: str, value: Any) -> bytes:
        """An array or a List."""
        if value is None:
            return word(-1)
        found = self.declarations.get(element.rstrip("?"))
        numbers = found.numbers if found else {}
        if (found.backing if found and found.kind == "enum" else element.rstrip("?")) == "byte":
            raw = struct.pack(f"{len(value)}b", *(numbers.get(one, one) for one in value))
            return word(len(value)) + raw + bytes(-len(raw) % 4)
        return word(len(value)) + b"".join(self.value(element, one) for one in value)

    def fields(self, found: Any, value: Any) -> Iterator[bytes]:
        """What is behind the null flag of a parcelable or a union."""
        if found.kind == "union":
            ((name, member),) = value.items()
            place = next(number for number, one in enumerate(found.fields) if one.name == name)
            yield word(place) + self.value(found.fields[place].types, member)
            return
        parts = b"".join(self.value(one.types, value[one.name]) for one in found.fields)
        yield word(4 + len(parts)) + parts


def word(number: int) -> bytes:
    return struct.pack("<i", number)


def text(value: str) -> bytes:
    """A String that isn't null."""
    units = value.encode("utf-16-le")
    return word(len(units) // 2) + units + bytes(2 + (-len(units) - 2) % 4)


def answer(line: str, declarations: dict, is_strict: bool, wrong: str) -> str:
    """The answer to a line."""
    what, types, rest = line.split(" ", 2)
    if what == "write":
        pairs = zip(types.split(","), json.loads(rest))
        return b"".join(Writer(declarations).value(one, value) for one, value in pairs).hex() or "-"
    reader = Reader(declarations, bytes.fromhex(rest.replace("-", "")), is_strict, wrong)
    try:
        values = [reader.value(one) for one in types.split(",")]
        return f"{json.dumps(values)} {len(reader.data) - reader.at}"
    except Stop as why:
        return f"status {why}"


def main(words: list) -> int:
    """Answers each line."""
    reader = argparse.ArgumentParser(description="A reader and writer of Parcels in Python, as an adapter.")
    reader.add_argument("--lenient", action="store_true", help="reads by the lenient profile")
    reader.add_argument("--wrong", choices=("null", "counts", "sizes"), default="", help="ignores a rule")
    reader.add_argument("tree", choices=("old", "new"))
    given = reader.parse_args(words)
    declarations = schema.read(given.tree)
    for line in sys.stdin:
        print(answer(line.rstrip("\n"), declarations, not given.lenient, given.wrong), flush=True)
    return 0


frame.run(main)
