"""`make`: writes the vectors, or makes them again and compares."""
from __future__ import annotations

import json
import os
import pathlib
import tempfile
from typing import Any

from . import android, making
from .frame import VECTORS, Fault, arguments, complain, say
from .program import Program

MOST_BYTES = 2_000_000
LEAST_VECTORS = 5000


def main(words: list[str]) -> int:
    """The command."""
    reader = arguments("make", "Writes vectors.jsonl from values.json, calls.json and the trees: every byte and reading is the program's, which AIDL names. "
                       "Exit 0: written, or the same. 1: --check found another line. 2: a fault.")
    reader.add_argument("--check", nargs="?", type=positive, const=0, metavar="COUNT",
                        help="compares with vectors.jsonl and writes nothing; with a number that many vectors alone, evenly spaced")
    reader.add_argument("--android", action="append", type=android.Host.of, metavar="VERSION:TREE=HOST",
                        help="fills the column `android` by this host program over a tree, old or new; may be repeated. Without it the column stays as it is")
    given = reader.parse_args(words)
    if given.android:
        return fill(given.android)
    program = Program()
    with tempfile.TemporaryDirectory() as room:
        cases = making.all_cases(program, pathlib.Path(room))
    if given.check is None:
        return write(program, cases)
    return check(program, cases, given.check or len(cases))


def positive(text: str) -> int:
    """A number of 1 or more."""
    number = int(text)
    if number < 1:
        raise ValueError(text)
    return number


def kept() -> dict[str, str]:
    """The lines of vectors.jsonl by their ids."""
    if not VECTORS.exists():
        return {}
    with open(VECTORS, encoding="utf-8") as file:
        return {json.loads(line)["id"]: line for line in file}


def android_of(lines: dict[str, str]) -> dict[str, Any]:
    """The column `android`, which no program of ours gives: it is kept."""
    return {name: json.loads(line)["android"] for name, line in lines.items() if '"android":' in line}


def fill(hosts: list[android.Host]) -> int:
    """Writes the column `android` of the file anew for the versions of these hosts."""
    made = [json.loads(line) for line in kept().values()]
    column = android.column(hosts, made)
    asked = {host.version for host in hosts}
    for one in made:
        entries = {version: entry for version, entry in one.pop("android", {}).items() if version not in asked}
        entries.update(column.get(one["id"], {}))
        if entries:
            one["android"] = dict(sorted(entries.items()))
    return store([making.line_of(one) for one in made])


def write(program: Program, cases: list[making.Case]) -> int:
    """Writes the file."""
    return store([making.line_of(one) for one in making.vectors(program, cases, android_of(kept()))])


def store(lines: list[str]) -> int:
    """Writes the file of these lines, where they are neither too few nor too long."""
    size = sum(map(len, lines))
    if size > MOST_BYTES or len(lines) < LEAST_VECTORS:
        raise Fault(f"{len(lines)} vectors of {size} bytes: at least {LEAST_VECTORS} are wanted, in at most {MOST_BYTES} bytes")
    part = VECTORS.with_suffix(".part")
    part.write_text("".join(lines), encoding="utf-8")
    os.replace(part, VECTORS)
    say(f"{len(lines)} vectors, {size} bytes")
    return 0


def check(program: Program, cases: list[making.Case], count: int) -> int:
    """Makes so many again. Their lines and the ids of all have to be those of the file."""
    lines = kept()
    if list(lines) != [one.id for one in cases]:
        complain(f"vectors.jsonl has {len(lines)} vectors, and they are {len(cases)}, or they are others: `vectors/make` writes it anew")
        return 1
    some = list(making.sample(cases, count))
    other = [one for one in making.vectors(program, some, android_of(lines)) if lines[one["id"]] != making.line_of(one)]
    for one in other[:10]:
        complain(f"{one['id']} is another: {making.line_of(one)[:300].rstrip()}")
    say(f"{len(some)} of {len(cases)} vectors made again, {len(other)} of them are others")
    return 1 if other else 0
