"""All vectors: which cases there are, and what the program reads of each."""
from __future__ import annotations

import concurrent.futures
import json
import pathlib
from typing import Any, Iterable, Iterator, Optional, Sequence

from . import parcels, turned
from .case import Case
from .frame import HERE, TREES, Fault
from .program import Program

# Two at a time: each is a process of its own.
PROCESSES = 2
# Types of which no word is turned: others have the same parts.
WHOLE = ("plain.Outer,int", "plain.Point[],String", "plain.Scalars[]")
# The types of which what another version wrote is made wrong.
GROWN = ("plain.Point", "plain.Point[]", "newer.Choice", "plain.Point,int")


def all_cases(program: Program, room: pathlib.Path) -> list[Case]:
    """All cases in order, each once."""
    if program.done("judge", str(TREES / "old"), str(TREES / "new")) != ["yes"]:
        raise Fault("trees/new may not follow trees/old")
    plain = list(values(program))
    carried = list(parcels.cases(program))
    made = [*plain, *carried, *parcels.answered(program, room)]
    with concurrent.futures.ThreadPoolExecutor(PROCESSES) as pool:
        for some in pool.map(lambda one: list(turned.damaged(program, *one)), bases(plain, carried)):
            made += some
    once = list({one.bytes_read: one for one in reversed(made)}.values())[::-1]
    if len({one.id for one in once}) != len(once):
        raise Fault("two cases have one id")
    return once


def values(program: Program) -> Iterator[Case]:
    """Values of `values.json` as each tree writes them, and as the other tree has to read them."""
    table = json.loads((HERE / "values.json").read_text(encoding="utf-8"))
    for tree, other, kind in (("old", "new", "older"), ("new", "old", "newer")):
        for types, rows in table[tree].items():
            for row in rows:
                given = row if "," in types else [row]
                data = program.encode(tree, types, given)
                yield Case("value", tree, types, data, f"{types} of {tree}", "a value")
                if "." in types and (kind == "newer" or differs(program, types, given, data)):
                    wrote = program.read(tree, types, data).values
                    yield Case(kind, other, types, data, f"{types} that {tree} wrote", f"what an {kind} version wrote" if kind == "older" else
                               f"what a {kind} version wrote", more={"wrote": {"tree": tree, "values": wrote}})


def differs(program: Program, types: str, given: list[Any], data: bytes) -> bool:
    """Whether the newer tree writes other bytes of what the older one wrote."""
    return program.encode("new", types, given) != data


def bases(plain: Sequence[Case], carried: Sequence[Case]) -> Iterator[tuple[Case, dict[str, tuple[int, ...]]]]:
    """The cases that are made wrong: of each type the last value, what other versions wrote of the richest types, and some requests and replies."""
    last = {(one.tree, one.types): one for one in plain if one.kind == "value"}
    for one in last.values():
        if (one.tree == "old" or len(one.data) <= 100) and one.types not in WHOLE:
            yield one, turned.EDGES
    for one in {(one.kind, one.types): one for one in plain if one.kind != "value" and one.types in GROWN}.values():
        yield one, turned.EDGES
    for one in carried:
        if one.more["damage"]:
            yield one, turned.FEWER if one.is_request else turned.EDGES


def vector(program: Program, case: Case) -> dict[str, Any]:
    """A line of the file, but for what a stub makes of a request."""
    strict = program.read(case.tree, case.types, case.data)
    lenient = strict if strict.is_value else program.read(case.tree, case.types, case.data, True)
    made: dict[str, Any] = {"id": case.id, "kind": case.kind, "tree": case.tree, "types": case.types, "hex": case.data.hex(), "why": case.why}
    made["cause"] = "null where none may stand" if strict.status == -2147483640 else case.cause
    made["result"] = "valid" if strict.is_value else "acceptable" if lenient.is_value else "invalid"
    made["strict"] = strict.column()
    if lenient.is_value != strict.is_value or lenient.status != strict.status:
        made["lenient"] = lenient.column()
    if case.kind == "value":
        made["canonical"] = True
    if case.call:
        made["call"] = case.call.column()
    made.update({name: value for name, value in case.more.items() if name != "damage"})
    return made


def vectors(program: Program, cases: Sequence[Case], android: Optional[dict[str, Any]] = None) -> Iterator[dict[str, Any]]:
    """The lines of these cases. `android` has the column of that name by id, where there is one."""
    stubs = parcels.stubs(program, [one for one in cases if one.is_request and "stub" not in one.more])
    with concurrent.futures.ThreadPoolExecutor(PROCESSES) as pool:
        for made in pool.map(lambda one: vector(program, one), cases):
            if made["id"] in stubs:
                made["stub"] = stubs[made["id"]]
            if android and made["id"] in android:
                made["android"] = android[made["id"]]
            yield made


def line_of(made: dict[str, Any]) -> str:
    """The line of a vector."""
    return json.dumps(made, separators=(",", ":")) + "\n"


def sample(cases: Sequence[Case], count: int) -> Iterable[Case]:
    """So many of them, evenly spaced."""
    return [cases[number * len(cases) // count] for number in range(count)] if count < len(cases) else cases
