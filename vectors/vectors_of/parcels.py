"""Requests and replies: of the calls in `calls.json`, and of the two codes that a stub answers by itself."""
from __future__ import annotations

import json
import pathlib
from typing import Any, Iterator

from .case import Call, Case
from .frame import HERE, TREES, Fault
from .program import Program

TOKEN = "int,int,int,String"
# The two codes, with the types of their replies and how a vector of them is called.
RESERVED = {16777215: ("getInterfaceVersion", "int,int", "version"), 16777214: ("getInterfaceHash", "int,String", "hash")}
INTERFACES = ("plain.IPoints", "newer.IShapes")
WORDS = "00000080ffffffff"


def cases(program: Program) -> Iterator[Case]:
    """A request and a reply of each call."""
    calls = json.loads((HERE / "calls.json").read_text(encoding="utf-8"))
    for client, server in sorted({(one["client"], one["server"]) for one in calls}):
        some = [one for one in calls if (one["client"], one["server"]) == (client, server)]
        yield from carried(program, client, server, some)


def carried(program: Program, client: str, server: str, calls: list[dict[str, Any]]) -> Iterator[Case]:
    """The parcels of these calls from one tree to another."""
    text = "".join(json.dumps(one["line"]) + "\n" for one in calls)
    parcels: list[list[str]] = []
    rest = iter(calls)
    for line in program.done("run", "--trace", str(TREES / client), str(TREES / server), "/dev/stdin", text=text):
        if line.startswith(("request ", "reply ")):
            parcels.append(line.split(" "))
            continue
        yield from parcels_of(next(rest), json.loads(line), parcels)
        parcels = []


def parcels_of(one: dict[str, Any], outcome: dict[str, Any], parcels: list[list[str]]) -> Iterator[Case]:
    """The request and the reply of one call, with its outcome."""
    interface, method = one["line"]["call"].rsplit(".", 1)
    if "refused" in outcome:
        raise Fault(f"calls.json: {one['line']['call']} is refused: {outcome}")
    for what, code, _, delivered in parcels:
        call, data = Call(interface, method, int(code), one["client"]), bytes.fromhex(delivered.replace("-", ""))
        if what == "request":
            types = ",".join([TOKEN, one["request"]]) if one["request"] else TOKEN
            yield Case("request", one["server"], types, data, f"a request of {method}, from {one['client']} to {one['server']}", "a request", call, True,
                       more={"damage": one.get("damaged", False)})
        else:
            yield Case("reply", one["client"], one["reply"], data, f"a reply of {method}, from {one['server']} to {one['client']}", "a reply", call,
                       more={"damage": one.get("damaged", False), "proxy": outcome["client"]})


def frozen(program: Program, room: pathlib.Path) -> str:
    """The two trees as frozen versions 1 and 2 of one API."""
    api = str(room / "api")
    for tree in ("old", "new"):
        program.done("freeze", str(TREES / tree), api)
    return api


def answered(program: Program, room: pathlib.Path) -> Iterator[Case]:
    """Requests of the two codes to each version of each interface, right and wrong ones, and the replies."""
    api = frozen(program, room)
    for number, tree in enumerate(("old", "new"), 1):
        for interface in INTERFACES:
            for code in RESERVED:
                for why, data in requests(program, interface):
                    yield from asked(program, [api, str(number), interface, str(code)], tree, why, data)


def requests(program: Program, interface: str) -> Iterator[tuple[str, bytes]]:
    """Tokens, of which the first alone is right."""
    def token(words: str, name: str) -> bytes:
        return bytes.fromhex(words) + program.encode("old", "String", [name])

    right = token(WORDS + "54535953", interface)
    yield "a token", right
    yield "a token with another policy and work source", token("0000000001000000" + "54535953", interface)
    yield "a token of another interface", token(WORDS + "54535953", interface + "x")
    yield "a token with the header VNDR", token(WORDS + "52444e56", interface)
    yield "a token without a header, as Android 10 writes it", token(WORDS, interface)
    yield "a token and a word behind", right + b"\0\0\0\0"
    yield "a token that is cut off", right[:-4]
    yield "no bytes", b""


def asked(program: Program, words: list[str], tree: str, why: str, data: bytes) -> Iterator[Case]:
    """The request, with what the stub makes of it, and the reply."""
    transport, saw, reply = (line.split(" ", 1)[1] for line in program.done("ask", *words, "/dev/stdin", text=data.hex()))
    method, types, kind = RESERVED[int(words[3])]
    call, hexadecimal = Call(words[2], method, int(words[3]), tree), reply.replace("-", "")
    stub = {"transport": int(transport), "saw": json.loads(saw), "reply": hexadecimal}
    yield Case(kind, tree, TOKEN, data, f"a request of {method}: {why}", "a request", call, True, more={"stub": stub})
    if why == "a token":
        yield Case(kind, tree, types, bytes.fromhex(hexadecimal), f"the reply of {method}", "a reply", call)


def stubs(program: Program, some: list[Case]) -> dict[str, dict[str, Any]]:
    """What the stub of each request's interface makes of it, by the request's id; a trace has many, each by itself."""
    found: dict[str, dict[str, Any]] = {}
    for tree, interface in sorted({(one.tree, one.call.interface) for one in some if one.call}):
        mine = [one for one in some if one.call and (one.tree, one.call.interface) == (tree, interface)]
        text = "".join(f"request {one.call.code} - {one.data.hex() or '-'}\n" for one in mine if one.call)
        for one, line in zip(mine, program.done("replay", str(TREES / tree), interface, "/dev/stdin", text=text)):
            answer = json.loads(line)
            del answer["line"]
            found[one.id] = answer
    return found
