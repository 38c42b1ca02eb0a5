"""Calls made to show a break that `witness` has no call for: recorded on the version that makes them, replayed on both, and compared by names."""

from __future__ import annotations

import json
import re
from dataclasses import dataclass
from itertools import islice
from typing import Any, Iterable, Iterator, Optional

from ..dump import Declaration, Member
from ..guard import Fault
from .parcels import named, request_parts, rows
from .shown import WHO, Shown
from .trees import Room, Tree
from .values import Comparison, Difference, Maker, reaching

CARRIED = re.compile(r"(request|reply) (\d+) (-|(?:[0-9a-f]{2})+) (-|(?:[0-9a-f]{2})+)")
METHODS = 3  # methods that are tried for a break
AT_ONCE = 400  # lines of a calls file


@dataclass(frozen=True)
class Wanted:
    """What a call is made for: the declarations whose reading changed, or the method; and names of enumerators and union members to take in turn."""

    names: frozenset[str]
    method: Optional[str] = None
    choices: tuple[tuple[str, Any], ...] = ()


@dataclass
class Call:
    """A call that is tried: of an interface's method, from the old version or the new one; what is carried of it is known after the recording."""

    interface: str
    method: Member
    forward: bool
    line: str
    request: str = ""
    reply: str = ""
    outcome: str = ""


@dataclass
class Ends:
    """The two versions of a comparison, with the program."""

    room: Room
    old: Tree
    new: Tree

    def ends(self, forward: bool) -> tuple[Tree, Tree]:
        return (self.old, self.new) if forward else (self.new, self.old)


def fillings(tree: Tree, wanted: Wanted) -> Iterator[Maker]:
    """The makers that are tried in turn, of the plainest values first."""
    towards = reaching(tree, wanted.names)
    for name, taken in wanted.choices:
        yield Maker(tree, towards, {name: taken})
    for nulls, big in ((False, False), (True, False), (False, True)):
        yield Maker(tree, towards, {}, nulls, big)


def carries(tree: Tree, method: Member, wanted: Wanted, reply: bool) -> bool:
    """The method's request, or its reply, holds one of the wanted declarations."""
    towards = reaching(tree, wanted.names)
    given = [one.type.base for one in method.arguments if one.direction != ("in" if reply else "out")]
    result = [method.type.base] if reply and method.type else []
    return bool(towards.intersection(given + result))


def entry(maker: Maker, method: Member) -> list[Any]:
    """The entries of `args` of a calls file."""
    return [(1 if one.type.array else None) if one.direction == "out" else maker.of(one.type) for one in method.arguments]


def answer(maker: Maker, method: Member) -> dict[str, Any]:
    """The answer that a calls file scripts, empty for a oneway method."""
    if method.oneway:
        return {}
    made: dict[str, Any] = {"return": maker.of(method.type)} if method.type else {}
    outs = [maker.of(one.type) for one in method.arguments if one.direction != "in"]
    return {**made, **({"out": outs} if outs else {})}


def calls_of(tree: Tree, interface: str, method: Member, wanted: Wanted, forward: bool) -> Iterator[Call]:
    """The calls of one method that are tried."""
    for maker in fillings(tree, wanted):
        made: dict[str, Any] = {"call": f"{interface}.{method.name}", "args": entry(maker, method)}
        scripted = answer(maker, method)
        if scripted:
            made["answer"] = scripted
        yield Call(interface, method, forward, json.dumps(made, ensure_ascii=True))


def methods_for(ends: Ends, wanted: Wanted, forward: bool) -> Iterable[tuple[str, Member]]:
    """The methods whose calls are tried: the wanted one, or the first that carry a wanted declaration and are alike in both versions."""
    tree, other = ends.ends(forward)
    if wanted.method:
        interface, _, name = wanted.method.rpartition(".")
        found = tree.member(wanted.method)
        return [(interface, found)] if found and found.kind == "method" and name else []
    alike = ((one.name, method) for one in tree.declarations.values() for method in one.of_kind("method") if is_alike(one, method, other))
    return islice((pair for pair in alike if carries(tree, pair[1], wanted, False) or carries(tree, pair[1], wanted, True)), METHODS)


def is_alike(one: Declaration, method: Member, other: Tree) -> bool:
    """The other version has the method with this code and these arguments."""
    found = other.member(f"{one.name}.{method.name}")
    return found is not None and found.kind == "method" and found.id == method.id and len(found.arguments) == len(method.arguments)


def record(ends: Ends, calls: list[Call]) -> list[Call]:
    """The calls that the version which makes them carries to itself, each with the bytes that were carried. The others are refused by the program."""
    made = []
    for forward in (True, False):
        mine = [one for one in calls if one.forward == forward]
        for start in range(0, len(mine), AT_ONCE):
            made += recorded(ends.room, ends.ends(forward)[0], mine[start : start + AT_ONCE])
    return made


def recorded(room: Room, tree: Tree, calls: list[Call]) -> list[Call]:
    """The calls of one version with what was carried of each."""
    if not calls:
        return []
    path = room.file("".join(f"{one.line}\n" for one in calls))
    found = list(outcomes(room.program.done("run", "--trace", tree.folder, tree.folder, path).lines))
    if len(found) != len(calls):
        raise Fault(f"run answered {len(found)} of {len(calls)} calls")
    for one, (outcome, request, reply) in zip(calls, found):
        one.outcome, one.request, one.reply = outcome, request, reply
    return [one for one in calls if one.request]


def outcomes(lines: list[str]) -> Iterator[tuple[str, str, str]]:
    """Of each call of a trace its outcome, the line of its request, and the bytes of its reply in hexadecimal."""
    parcels: dict[str, str] = {}
    for line in lines:
        found = CARRIED.fullmatch(line)
        if found:
            parcels[found[1]] = line if found[1] == "request" else found[4]
        elif isinstance(read_json(line), dict):
            yield line, parcels.pop("request", ""), parcels.pop("reply", "")
        else:
            raise Fault(f"no line of run: {line}")


def read_json(line: str) -> Any:
    try:
        return json.loads(line)
    except ValueError:
        return None


def replayed(room: Room, tree: Tree, interface: str, calls: list[Call]) -> list[dict[str, Any]]:
    """What a version makes of recorded requests to an interface, which it has."""
    path = room.file("".join(f"{one.request}\n" for one in calls))
    found = [read_json(line) for line in room.program.done("replay", tree.folder, interface, path).lines]
    if len(found) != len(calls) or not all(isinstance(one, dict) for one in found):
        raise Fault(f"replay {tree.folder} {interface} answered {len(found)} of {len(calls)} requests")
    return found


def compared(ends: Ends, call: Call, mine: dict[str, Any], other: dict[str, Any]) -> Optional[tuple[list[Difference], bool, str]]:
    """How a request is read otherwise: the differences, whether nothing fails, and what came of it; None where it is read as it was meant."""
    sender, receiver = ends.ends(call.forward)
    if mine.get("transport") != 0 or mine.get("saw") is None:
        return None
    reached = receiver.with_code(call.interface, call.method.id + 1)
    if other.get("transport") != 0:
        return [], False, f"transport {named(int(other.get('transport', 0)))}"
    if other.get("saw") is None or reached is None:
        return [], False, f"bytes are left over, {reached.name if reached else 'no method'} isn't called"
    comparison = Comparison(sender, receiver, call.forward)
    for argument, theirs, sent, seen in zip(call.method.arguments, reached.arguments, mine["saw"], other["saw"]):
        comparison.compare(argument.name, sent, seen, (argument.type, theirs.type))
    if reached.name != call.method.name:
        comparison.found.insert(0, Difference(f"{reached.name} is called in place of {call.method.name}", ()))
    return (comparison.found, True, f"called {reached.name} {json.dumps(other['saw'], ensure_ascii=False)}") if comparison.found else None


def shown_request(ends: Ends, call: Call, found: tuple[list[Difference], bool, str], meant: Any) -> Shown:
    """A request that is read otherwise, with the two readings of its bytes."""
    sender, receiver = ends.ends(call.forward)
    reached = receiver.with_code(call.interface, call.method.id + 1)
    carried = CARRIED.fullmatch(call.request)
    data = bytes.fromhex(carried[4]) if carried and carried[4] != "-" else b""
    way = ">" if call.forward else "<"
    reader = (receiver, request_parts(reached)) if reached else None
    table = rows(ends.room, data, (sender, request_parts(call.method)), reader, call.forward)
    told = [one.text for one in found[0]]
    return Shown("call", "made", way, f"{call.interface}.{call.method.name}", call.method.id + 1, reached.name if reached else None, *WHO[way], table,
                 found[2], f"called {call.method.name} {json.dumps(meant, ensure_ascii=False)}", found[1], told)


def concerns(differences: list[Difference], wanted: Wanted) -> bool:
    return bool(wanted.method) or any(wanted.names.intersection(one.within) for one in differences)


def requests(ends: Ends, wants: list[Wanted]) -> list[Optional[Shown]]:
    """Of each want a request that shows it, if one of those that are tried does. All calls are recorded at once, and replayed once an interface."""
    tried = [[call for forward in (True, False) for call in request_calls(ends, wanted, forward)] for wanted in wants]
    kept = {id(one) for one in record(ends, [call for calls in tried for call in calls])}
    tried = [[call for call in calls if id(call) in kept] for calls in tried]
    read = both_readings(ends, [call for calls in tried for call in calls])
    return [best(ends, wanted, [(call, *read[id(call)]) for call in calls]) for wanted, calls in zip(wants, tried)]


def request_calls(ends: Ends, wanted: Wanted, forward: bool) -> Iterator[Call]:
    tree = ends.ends(forward)[0]
    for interface, method in methods_for(ends, wanted, forward):
        if wanted.method or carries(tree, method, wanted, False):
            yield from calls_of(tree, interface, method, wanted, forward)


def both_readings(ends: Ends, calls: list[Call]) -> dict[int, tuple[dict[str, Any], dict[str, Any]]]:
    """What the sender's own version and the other one make of each request."""
    read = {}
    for forward in (True, False):
        mine = [one for one in calls if one.forward == forward]
        for interface in sorted({one.interface for one in mine}):
            group = [one for one in mine if one.interface == interface]
            sides = [replayed(ends.room, tree, interface, group) if tree.kind(interface) == "interface" else [{"transport": -74}] * len(group) for tree in ends.ends(forward)]
            read.update({id(one): (first, second) for one, first, second in zip(group, *sides)})
    return read


def best(ends: Ends, wanted: Wanted, read: list[tuple[Call, dict[str, Any], dict[str, Any]]]) -> Optional[Shown]:
    """The first call in which nothing fails and the difference is the wanted one; else the first that fails."""
    failing = None
    for call, mine, other in read:
        found = compared(ends, call, mine, other)
        if found and found[1] and concerns(found[0], wanted):
            return shown_request(ends, call, found, mine["saw"])
        if found and not found[1] and failing is None:
            failing = (call, found, mine["saw"])
    return shown_request(ends, *failing) if failing else None
