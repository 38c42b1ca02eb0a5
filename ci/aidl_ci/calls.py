"""`try-calls`: calls that are recorded on the version which makes them, replayed on both versions, and compared by the names of their parts."""

from __future__ import annotations

import json
import tempfile
from dataclasses import dataclass, field
from typing import Any, Iterator, Optional

from .dump import Declaration, Member
from .guard import Fault, arguments
from .printing import plain, use_utf8
from .program import Program
from .report.made import Call, Ends, answer, both_readings, compared, entry, outcomes, read_json, record
from .report.parcels import Part, reply_parts
from .report.replies import both, decoded
from .report.trees import Room, Tree
from .report.values import Comparison, Difference, Maker

AT_ONCE = 60  # replies that are decoded together
VALUES = 255  # entries of TYPES
MOST = 64  # calls of a method that take another enumerator and union member each
CLIENTS = {True: "old client, new service", False: "new client, old service"}


@dataclass
class Trial:
    """The calls that were tried, and what differs: of calls that were made the first of each method, of calls of a file each."""

    ends: Ends
    file: bool = False
    forward: bool = True  # of calls of a file: the client is the older version
    tried: int = 0
    found: dict[str, str] = field(default_factory=dict)
    failing: set[str] = field(default_factory=set)

    def say(self, call: Call, reply: bool, found: tuple[list[Difference], bool, str]) -> None:
        """Keeps what differs in a request, or in a reply, which goes the other way. A call in which nothing fails is kept in place of one that fails."""
        name = f"{call.interface}.{call.method.name}"
        head = f"line {call.line}: {name}" if self.file else f"{CLIENTS[call.forward != reply]}: {name}"
        head += ", its reply" if reply else ""
        if head not in self.found or (head in self.failing and found[1]):
            self.found[head] = "; ".join(one.text for one in found[0]) or found[2]
            self.failing = self.failing - {head} if found[1] else self.failing | {head}


def made_calls(ends: Ends, forward: bool) -> Iterator[Call]:
    """Calls of all methods of a version: another value in each field, every enumerator and union member in turn, and null where it may be. A new
    version's union members that the old one lacks aren't sent: that they are refused breaks nothing."""
    tree = ends.ends(forward)[0]
    for one in tree.declarations.values():
        for method in one.of_kind("method"):
            for maker in makers(ends, forward, method):
                line: dict[str, Any] = {"call": f"{one.name}.{method.name}", "args": entry(maker, method)}
                scripted = answer(maker, method)
                yield Call(one.name, method, forward, json.dumps({**line, **({"answer": scripted} if scripted else {})}))


def makers(ends: Ends, forward: bool, method: Member) -> Iterator[Maker]:
    tree = ends.ends(forward)[0]
    held = held_by(tree, method)
    members = {name: members_of(tree.declarations[name], None if forward else ends.old.declarations.get(name)) for name in held}
    turns = min(MOST, max((len(names) for names in members.values()), default=1) or 1)
    chosen: dict[str, Any] = {}
    for turn in range(turns):
        chosen = {name: names[turn % len(names)] for name, names in members.items() if names}
        yield Maker(tree, held, chosen)
    yield Maker(tree, held, chosen, nulls=True)
    yield Maker(tree, held, chosen, big=True)


def members_of(one: Declaration, known: Optional[Declaration]) -> list[str]:
    """The enumerators of an enum, or the members of a union, of which only those that the other version knows."""
    if one.kind == "enum":
        return [each.name for each in one.of_kind("enumerator")]
    fields = one.of_kind("field") if one.kind == "union" else []
    return [each.name for each in fields if known is None or each.name in known.members]


def held_by(tree: Tree, method: Member) -> set[str]:
    """The declarations that a method's arguments and result hold."""
    left = [one.type.base for one in method.arguments] + ([method.type.base] if method.type else [])
    found: set[str] = set()
    while left:
        name = left.pop()
        if name in tree.declarations and name not in found:
            found.add(name)
            left += [each.type.base for each in tree.declarations[name].of_kind("field") if each.type]
    return found


def requests(trial: Trial, calls: list[Call]) -> None:
    """What the other version makes of each request."""
    read = both_readings(trial.ends, calls)
    for call in calls:
        mine, other = read[id(call)]
        found = compared(trial.ends, call, mine, other)
        if found and not is_unknown(trial.ends, call, other):
            trial.say(call, False, found)


def is_unknown(ends: Ends, call: Call, other: dict[str, Any]) -> bool:
    """A new client calls a method that the old version doesn't have, which breaks nothing."""
    return not call.forward and other.get("transport") == -74 and ends.old.member(f"{call.interface}.{call.method.name}") is None


@dataclass(frozen=True)
class Reply:
    """A reply with the types by which its server wrote it and by which the other version's client reads it."""

    call: Call
    data: bytes
    parts: tuple[list[Part], list[Part]]


def replies(trial: Trial, calls: list[Call]) -> None:
    """What the other version's client makes of each reply: many are decoded together, and one by one where they aren't all as they were meant."""
    for forward in (True, False):
        batch: list[Reply] = []
        for one in (each for each in calls if each.forward == forward):
            made = reply_of(trial, one)
            if made and (len(batch) >= AT_ONCE or sum(len(each.parts[0]) for each in [*batch, made]) > VALUES):
                tell(trial, forward, batch)
                batch = []
            batch += [made] if made else []
        tell(trial, forward, batch)


def reply_of(trial: Trial, call: Call) -> Optional[Reply]:
    """The reply of a call that the other version's client could make and that waits for one."""
    client = trial.ends.ends(call.forward)[1]
    asked = client.member(f"{call.interface}.{call.method.name}")
    if asked is None or asked.kind != "method" or asked.id != call.method.id or asked.oneway:
        return None
    if not call.reply:
        trial.say(call, True, ([], True, "none is sent"))
        return None
    return Reply(call, bytes.fromhex(call.reply), (reply_parts(call.method), reply_parts(asked)))


def tell(trial: Trial, forward: bool, batch: list[Reply]) -> None:
    if not batch or (len({len(one.parts[0]) - len(one.parts[1]) for one in batch}) == 1 and as_meant(trial.ends, forward, batch)):
        return
    for one in batch:
        found = both(trial.ends, forward, one.parts, one.data)
        if found:
            trial.say(one.call, True, found[:3])


def as_meant(ends: Ends, forward: bool, batch: list[Reply]) -> bool:
    """All replies, one behind the other, are read by both versions to the end, and no part differs."""
    sides = [[part for one in batch for part in one.parts[number]] for number in (0, 1)]
    data = b"".join(one.data for one in batch)
    (meant, first), (read, second) = (decoded(ends.room, tree, parts, data) for tree, parts in zip(ends.ends(forward), sides))
    comparison = Comparison(*ends.ends(forward), forward)
    for mine, theirs, sent, seen in zip(*sides, meant, read):
        comparison.compare(mine.name, sent, seen, (mine.type, theirs.type))
    return not (first or second or comparison.found or len(meant) != len(read))


def of_file(trial: Trial, path: str) -> tuple[list[Call], list[Call]]:
    """The calls of a file: those of the client's version with their requests, and those of the service's with their replies. The answers in the file are by
    the types of the service, so where `run` refuses the pair the calls are recorded without them on the client's version, and no reply is known."""
    old, new = trial.ends.ends(trial.forward)
    with open(path, encoding="utf-8", errors="surrogateescape", newline="\n") as file:
        lines = file.read().split("\n")
    ran = trial.ends.room.program.verdict("run", "--trace", old.folder, new.folder, path)
    if ran.status:
        if not ran.lines or not all(line[:2] in ("> ", "< ") for line in ran.lines):
            raise Fault(f"{ran.ended()}: {ran.text.strip()[:200]}")
        bare = trial.ends.room.file("\n".join(without_answer(line) for line in lines))
        ran = trial.ends.room.program.done("run", "--trace", old.folder, old.folder, bare)
        new = old
    asked, answered = [], []
    for outcome, request, reply in outcomes(ran.lines):
        told = read_json(outcome)
        number = str(told.get("line"))
        if "refused" in told:
            trial.found[f"line {number}"] = f"refused, {told['refused']} at {told.get('at') or 'the line'}"
            continue
        interface, method = called(old, lines[int(number) - 1])
        asked.append(Call(interface, method, trial.forward, number, request, reply, outcome))
        theirs = new.member(f"{interface}.{method.name}") if new is not old else None
        if theirs is not None and reply:
            answered.append(Call(interface, theirs, not trial.forward, number, request, reply, outcome))
    return asked, answered


def without_answer(line: str) -> str:
    """A line of a calls file without its answer."""
    told = read_json(line)
    return json.dumps({key: value for key, value in told.items() if key != "answer"}) if isinstance(told, dict) and "answer" in told else line


def called(tree: Tree, line: str) -> tuple[str, Member]:
    """The method that a line calls."""
    told = read_json(line)
    name = str(told.get("call")) if isinstance(told, dict) else ""
    method = tree.member(name)
    if method is None:
        raise Fault(f"run carried a call of {name}, which {tree.folder} doesn't have")
    return name.rpartition(".")[0], method


def of_all(room: Room, old: Tree, new: Tree) -> Trial:
    """All calls of both versions, made."""
    trial = Trial(Ends(room, old, new))
    calls = record(trial.ends, [one for forward in (True, False) for one in made_calls(trial.ends, forward)])
    return tried(trial, calls, calls)


def of_calls(room: Room, client: Tree, service: Tree, path: str) -> Trial:
    """The calls of a file. The client is the older version, unless `judge` says so of the service."""
    ways = [room.program.verdict("judge", one.folder, other.folder).status for one, other in ((client, service), (service, client))]
    forward = ways != [1, 0]
    trial = Trial(Ends(room, client, service) if forward else Ends(room, service, client), True, forward)
    return tried(trial, *of_file(trial, path))


def tried(trial: Trial, asked: list[Call], answered: list[Call]) -> Trial:
    requests(trial, asked)
    replies(trial, answered)
    trial.tried = len(asked)
    return trial


def main(words: list[str]) -> int:
    reader = arguments("try-calls", "Tries calls from one version of a tree to the other, and says what is read otherwise, by the names of arguments and fields.")
    reader.add_argument("old", metavar="OLD", help="the older tree, or the one that makes the calls of CALLS")
    reader.add_argument("new", metavar="NEW", help="the newer tree, or the one that answers them")
    reader.add_argument("calls", metavar="CALLS", nargs="?", help="a calls file (docs/CALLS.md); without one calls of all methods are made, from either version")
    reader.epilog = "Ends with 1 where a line is refused or an answer differs, 2 where that isn't known. That nothing differs is no verdict: judge has it."
    options = reader.parse_args(words)
    use_utf8()
    with tempfile.TemporaryDirectory() as folder:
        room = Room(Program(), folder, "try-calls")
        trees = [Tree(room, path, path) for path in (options.old, options.new)]
        for tree in trees:
            if tree.faults:
                raise Fault(f"{tree.folder} isn't a checked tree: {tree.faults[0].path}:{tree.faults[0].offset}: {tree.faults[0].what}")
        trial = of_all(room, *trees) if options.calls is None else of_calls(room, *trees, options.calls)
    for head, told in trial.found.items():
        print(plain(f"{head}: {told}"))
    end = "all are read as they were meant" if not trial.found else f"{len(trial.found)} of them differ or are refused" if trial.file else f"{len(trial.found)} differences"
    print(f"{trial.tried} calls, {end}")
    return 1 if trial.found else 0
