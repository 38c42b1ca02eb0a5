"""Bytes that are wrong: each word turned to each edge value, the bytes cut off before and inside each word, and bytes behind them."""
from __future__ import annotations

import struct
from typing import Iterator

from .case import Case
from .program import Item, Program

MOST, LEAST = 2**31 - 1, -(2**31)
# The edge values of a word by what it is: where a rule changes, on both sides of it.
EDGES = {
    "value": (2, -1, 128, -129, 65536),
    "count": (0, 1, -1, -2, MOST, LEAST),
    "marker": (0, 2, -1),
    "size": (0, -4, 3, 4, 6, 8, MOST - 3, LEAST),
    "tag": (0, 1, 2, -1, 5, 6, MOST),
    "text": (0, 0xD800, 65536, -1),
    "bytes": (0, -1),
    "tail": (-1,),
}
# Of requests, in front of which there is always a token; a number may be the length of an `out` array, so it is small.
FEWER = {**EDGES, "value": (2, -1), "count": (-1, -2, MOST), "text": (65536, -1)}
NOUNS = {"value": "the number", "count": "the count", "text": "the text", "bytes": "the raw bytes", "marker": "the null flag", "size": "the size",
         "tag": "the tag", "tail": "the tail"}


def cause_of(item: Item, number: int) -> str:
    """What is wrong with bytes in which a word of this item is this number: what a runner counts by."""
    if item.kind == "count":
        return "count -1" if number == -1 else "count below -1" if number < 0 else "another count"
    if item.kind == "marker":
        return "null flag 0" if number == 0 else "null flag neither 0 nor 1"
    return {"size": "another size", "tag": "another tag", "value": "another number", "text": "another text", "bytes": "other raw bytes"}.get(
        item.kind, "another tail")


def words(case: Case, items: list[Item], edges: dict[str, tuple[int, ...]]) -> Iterator[Case]:
    """The case with each word turned to each edge value."""
    for at in range(0, len(case.data) - 3, 4):
        item = next(one for one in items if one.at <= at < one.at + one.length)
        for number in edges[item.kind]:
            data = case.data[:at] + struct.pack("<i", number) + case.data[at + 4 :]
            if data != case.data:
                yield turned(case, "word", data, f"the word at {at}, {NOUNS[item.kind]} of {item.path}, is {number}", cause_of(item, number))


def cuts(case: Case) -> Iterator[Case]:
    """The case cut off before each word, and in the midst of it."""
    for at in range(0, len(case.data), 4):
        yield turned(case, "cut", case.data[:at], f"cut off before {at}", "cut off")
        yield turned(case, "cut", case.data[: at + 2], f"cut off in the word at {at}", "cut off")


def behind(case: Case) -> Iterator[Case]:
    """The case with bytes behind it."""
    for more in (b"\0", b"\0\0\0\0", b"\xff\xff\xff\xff\x01\0\0\0"):
        yield turned(case, "behind", case.data + more, f"{len(more)} bytes behind", "bytes behind")


def turned(case: Case, kind: str, data: bytes, why: str, cause: str) -> Case:
    """The case with other bytes."""
    return Case(kind, case.tree, case.types, data, why, cause, case.call, case.is_request, True)


def damaged(program: Program, case: Case, edges: dict[str, tuple[int, ...]]) -> Iterator[Case]:
    """All that is made wrong of a case that is read to its end."""
    items = program.items(case.tree, case.types, case.data)
    if items and (items[-1].kind == "left" or items[-1].kind.startswith("stop")):
        return
    yield from words(case, items, edges)
    yield from cuts(case)
    yield from behind(case)
