"""`run`: tries an implementation of Parcel on the vectors."""
from __future__ import annotations

import collections
import json
import math
from typing import Any, Iterator

from . import verdict
from .adapter import NO_ANSWER, Adapter
from .frame import Fault, arguments, printable, say

SHOWN = 3
COLUMNS = {"id": str, "kind": str, "tree": str, "types": str, "hex": str, "why": str, "cause": str, "result": str, "strict": dict}


def main(words: list[str]) -> int:
    """The command."""
    reader = arguments("run", "Tries an implementation of Parcel on vectors. ADAPTER is a command; the name of a tree, old or new, is added to its words. It reads lines "
                       "`read TYPES HEX` and `write TYPES VALUES`, and answers each with a line. Exit 0: all vectors pass. 1: one fails. 2: a fault.")
    reader.add_argument("--count", type=int, metavar="N", help="N vectors alone, evenly spaced")
    reader.add_argument("--seconds", type=float, default=10.0, metavar="S", help="how long an answer may take; 10 if it isn't said")
    reader.add_argument("file", metavar="FILE", help="the vectors")
    reader.add_argument("adapter", metavar="ADAPTER", nargs="...", help="the adapter's command")
    given = reader.parse_args(words)
    if not given.adapter:
        reader.error("ADAPTER is missing")
    if given.count is not None and given.count < 1 or not (given.seconds > 0 and math.isfinite(given.seconds)):
        reader.error("N and S are more than 0")
    return report(tried(vectors_of(given.file, given.count), given.adapter, given.seconds))


def vectors_of(path: str, count: Any) -> list[dict[str, Any]]:
    """The vectors of a file."""
    found: list[dict[str, Any]] = []
    with open(path, encoding="utf-8") as file:
        for number, line in enumerate(file, 1):
            try:
                one = json.loads(line)
                is_right = isinstance(one, dict) and all(isinstance(one.get(name), kind) for name, kind in COLUMNS.items())
            except ValueError:
                is_right = False
            if not is_right:
                raise Fault(f"{path}:{number}: no vector")
            found.append(one)
    if not found:
        raise Fault(f"{path} has no vector")
    return [found[number * len(found) // count] for number in range(count)] if count and count < len(found) else found


def tried(vectors: list[dict[str, Any]], words: list[str], seconds: float) -> Iterator[tuple[dict[str, Any], str]]:
    """Each vector with what its answer is worth, and once more where it is to be written."""
    adapters = {tree: Adapter([*words, tree], seconds) for tree in sorted({one["tree"] for one in vectors})}
    try:
        for one in vectors:
            adapter = adapters[one["tree"]]
            line, why = adapter.ask(f"read {one['types']} {one['hex'] or '-'}")
            yield one, verdict.of_reading(one, verdict.Answer(why=why or NO_ANSWER) if line is None else verdict.answer_of(line))
            if one.get("canonical"):
                line, why = adapter.ask(f"write {one['types']} {json.dumps(one['strict']['values'], separators=(',', ':'))}")
                yield one, verdict.of_writing(one, line, why)
    finally:
        for adapter in adapters.values():
            adapter.end()


def report(found: Iterator[tuple[dict[str, Any], str]]) -> int:
    """Prints how many answers are worth what, and of each that is wrong the first vectors. The exit."""
    counts: collections.Counter[str] = collections.Counter()
    first: dict[str, list[dict[str, Any]]] = collections.defaultdict(list)
    for one, worth in found:
        counts[worth] += 1
        if worth.startswith(verdict.WRONG) and len(first[worth]) < SHOWN:
            first[worth].append(one)
    for worth, number in sorted(counts.items(), key=lambda row: (row[0].startswith(verdict.WRONG), -row[1], row[0])):
        say(f"{number:6} {worth}")
        for one in first[worth]:
            say(printable(f"         {one['id']} {one['types']} {one['hex'][:72] or '-'} ({one['why']})"))
    wrong = sum(number for worth, number in counts.items() if worth.startswith(verdict.WRONG))
    say(f"{sum(counts.values())} answers, {wrong} wrong")
    return 1 if wrong else 0
