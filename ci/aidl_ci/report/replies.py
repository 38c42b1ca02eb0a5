"""Replies and values made to show a break that no request shows: written by one version, decoded by both, and compared by names."""

from __future__ import annotations

import json
from typing import Any, Iterator, Optional

from ..dump import Type
from ..guard import Fault
from .made import Call, Ends, Wanted, calls_of, carries, fillings, methods_for, record
from .parcels import Part, entries, named, reply_parts, rows
from .shown import WHO, Shown
from .trees import Room, Tree
from .values import Comparison, Difference

EMPTY = ("Empty.aidl", "parcelable Empty { }\n")
VERSIONS = {">": ("the old version", "the new version"), "<": ("the new version", "the old version")}


def decoded(room: Room, tree: Tree, parts: list[Part], data: bytes) -> tuple[list[Any], str]:
    """The values that a version reads, and behind them the line that says why it stopped, if it did."""
    ran = room.program.verdict("decode", "--tree", tree.folder, entries(parts), room.file(data.hex()))
    stopped = ran.lines[-1] if ran.status else ""
    told = ran.lines[: len(ran.lines) - bool(stopped)]
    if stopped and not stopped.startswith(("status ", "left ")) or not stopped and len(told) != len(parts):
        raise Fault(f"{ran.command()}: {ran.lines[-1:]}")
    return [json.loads(line) for line in told], stopped


def stop_text(stopped: str) -> str:
    """The line of `decode` that says why it stopped, with the name of the status."""
    word, _, number = stopped.partition(" ")
    return f"status {named(int(number))}" if word == "status" else f"{number} bytes are left over"


def both(ends: Ends, forward: bool, parts: tuple[list[Part], list[Part]], data: bytes) -> Optional[tuple[list[Difference], bool, str, str]]:
    """How bytes of the writer are read otherwise: the differences, whether nothing fails, what is read and what was meant; None where all is as meant."""
    writer, reader = ends.ends(forward)
    meant, stopped = decoded(ends.room, writer, parts[0], data)
    if stopped:
        return None
    read, stopped = decoded(ends.room, reader, parts[1], data)
    told = json.dumps(meant if len(meant) != 1 else meant[0], ensure_ascii=False)
    if stopped:
        return [], False, stop_text(stopped), told
    comparison = Comparison(writer, reader, forward)
    for mine, theirs, sent, seen in zip(*parts, meant, read):
        comparison.compare(mine.name, sent, seen, (mine.type, theirs.type))
    return (comparison.found, True, json.dumps(read if len(read) != 1 else read[0], ensure_ascii=False), told) if comparison.found else None


def reply(ends: Ends, wanted: Wanted) -> Optional[Shown]:
    """A reply that shows a want: nothing fails in it if there is such a one."""
    failing = None
    for server_is_old in (True, False):
        for call in record(ends, list(answered(ends, wanted, server_is_old))):
            made = shown_reply(ends, call, wanted)
            if made and made.silent:
                return made
            failing = failing or made
    return failing


def answered(ends: Ends, wanted: Wanted, server_is_old: bool) -> Iterator[Call]:
    tree = ends.ends(server_is_old)[0]
    for interface, method in methods_for(ends, wanted, server_is_old):
        if wanted.method or carries(tree, method, wanted, True):
            yield from calls_of(tree, interface, method, wanted, server_is_old)


def shown_reply(ends: Ends, call: Call, wanted: Wanted) -> Optional[Shown]:
    """A recorded reply that the other version's client reads otherwise."""
    server, client = ends.ends(call.forward)
    asked = client.member(f"{call.interface}.{call.method.name}")
    if asked is None or asked.kind != "method" or asked.id != call.method.id or asked.oneway:
        return None
    way = "<" if call.forward else ">"
    ends_of = (WHO[way][1], WHO[way][0])
    name = f"{call.interface}.{call.method.name}"
    if not call.reply:
        return Shown("reply", "made", way, name, asked.id + 1, None, *ends_of, [], f"no reply: {call.outcome}", "a reply", True, ["no reply is sent"])
    parts = (reply_parts(call.method), reply_parts(asked))
    data = bytes.fromhex(call.reply)
    found = both(ends, call.forward, parts, data)
    if not found or (found[1] and not wanted.method and not any(wanted.names.intersection(one.within) for one in found[0])):
        return None
    table = rows(ends.room, data, (server, parts[0]), (client, parts[1]), call.forward)
    return Shown("reply", "made", way, name, asked.id + 1, None, *ends_of, table, found[2], found[3], found[1], [one.text for one in found[0]])


def value(ends: Ends, wanted: Wanted, name: str) -> Optional[Shown]:
    """A value of a type, written by one version and read by the other."""
    failing = None
    for forward in (True, False):
        writer, reader = ends.ends(forward)
        if "interface" in (writer.kind(name), reader.kind(name)) or not (writer.kind(name) and reader.kind(name)):
            return None
        for maker in fillings(writer, wanted):
            made = shown_value(ends, forward, name, maker.declared(writer.declarations[name], 0), wanted)
            if made and made.silent:
                return made
            failing = failing or made
    return failing


def encoded(room: Room, tree: Tree, name: str, made: Any) -> Optional[bytes]:
    """The bytes of a value, or None where the type doesn't take it."""
    ran = room.program.verdict("encode", "--tree", tree.folder, name, room.file(json.dumps([made], ensure_ascii=True)))
    if ran.status:
        return None
    return bytes.fromhex(ran.text.strip())


def shown_value(ends: Ends, forward: bool, name: str, made: Any, wanted: Wanted) -> Optional[Shown]:
    data = encoded(ends.room, ends.ends(forward)[0], name, made)
    return value_of(ends, forward, name, data, wanted) if data is not None else None


def value_of(ends: Ends, forward: bool, name: str, data: bytes, wanted: Wanted) -> Optional[Shown]:
    """A value as bytes that the other version reads otherwise."""
    parts = [Part(name.rpartition(".")[2], Type(name))]
    found = both(ends, forward, (parts, parts), data)
    if not found or (found[1] and not any(wanted.names.intersection(one.within) for one in found[0])):
        return None
    writer, reader = ends.ends(forward)
    table = rows(ends.room, data, (writer, parts), (reader, parts), forward)
    way = ">" if forward else "<"
    told = [one.text for one in found[0]]
    return Shown("value", "made", way, name, 0, None, *VERSIONS[way], table, found[2], found[3], found[1], told)


def ended_value(ends: Ends, name: str, wanted: Wanted) -> Optional[Shown]:
    """A value of a sender that has none of the type's fields, as one that was built before they came: each version takes its own defaults."""
    tree = ends.room.empty()
    with open(f"{tree}/{EMPTY[0]}", "w", encoding="utf-8") as file:
        file.write(EMPTY[1])
    ran = ends.room.program.done("encode", "--tree", tree, "Empty", ends.room.file("[{}]"))
    made = value_of(ends, True, name, bytes.fromhex(ran.text.strip()), wanted)
    if made:
        made.name = f"{name} that was sent without its fields"
        made.differences = [one.replace("was sent", "is taken by the old version").replace("is seen", "by the new one") for one in made.differences]
    return made
