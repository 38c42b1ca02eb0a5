"""Calls of a generated proxy that a generated stub answers, of one version of a tree or of two, beside `run --trace`."""
import json
from typing import Any, Dict, Iterator, List, NamedTuple

from .base import Counts, Options
from .hosts import Host, Row, printed
from .schema import Method, Type
from .values import text_of

SYST = "54535953"
PART = 2000  # so many calls stand in one calls file


class Call(NamedTuple):
    """One call: the start of its line, the interface, and what the generated code made of it. `heard` is the proxy's outcome."""
    line: str
    face: str
    code: str
    is_oneway: bool
    request: str
    transport: str
    saw: str
    answer: str
    reply: str
    heard: str

    @property
    def text(self) -> str:
        """Its line in a calls file."""
        return self.line + (f',"answer":{self.answer}' if self.answer != "-" and not self.is_oneway else "") + "}"


def calls_of(options: Options, client: Host, server: Host, count: int) -> List[Call]:
    """So many calls of the client's proxies, answered by the server's stubs."""
    asked = client.rows("ask", options.seed, count)
    lines = ["\t".join([row[0], *row[2:]]) for row in asked]
    served = server.answers("serve", lines, lambda line: [line.split("\t")[0], "memory", "null", "-", "-"], options.seed)
    replies = [f"{row[0]}\t{row[1]}\t{row[4]}" for row in served]
    heard = client.answers("hear", replies, lambda line: [line.split("\t")[0], "memory"], options.seed)
    return [call_of(*rows) for rows in zip(asked, served, heard)]


def call_of(asked: Row, served: Row, heard: Row) -> Call:
    """The call that three rows of the hosts are."""
    _, line, face, code, flags, request = asked
    _, transport, saw, answer, reply = served
    return Call(line, face, code, bool(int(flags) & 1), request, transport, saw, answer, reply, heard[1])


def traced(lines: List[str]) -> Iterator[List[str]]:
    """The lines of a trace call by call: each ends with its outcome."""
    call: List[str] = []
    for line in lines:
        call.append(line)
        if line.startswith("{"):
            yield call
            call = []


class Pair:
    """A client and a server whose calls are compared."""

    def __init__(self, options: Options, client: Host, server: Host, title: str):
        self.options, self.client, self.server, self.title, self.counts = options, client, server, title, Counts()

    def compare(self, count: int) -> Counts:
        """Compares so many calls."""
        calls = calls_of(self.options, self.client, self.server, count)
        for first in range(0, len(calls), PART):
            part = calls[first:first + PART]
            text = "".join(call.text + "\n" for call in part)
            got = traced(printed(self.options, "run", "--trace", self.client.tree, self.server.tree, "@calls", calls=text))
            for call in part:
                self.look(call, next(got, ["{}"]))
        return self.counts

    def look(self, call: Call, lines: List[str]) -> None:
        """Compares one call with its trace: first what differs is told."""
        lines = [self.options.turn(line.split(" ")[0] if line[:1] != "{" else "outcome", line) for line in lines]
        outcome: Dict[str, Any] = json.loads(lines[-1])
        parcels = {line.split(" ")[0]: line.split(" ")[1:3] for line in lines[:-1]}
        method = self.client.schema.method(*json.loads(call.line + "}")["call"].rsplit(".", 1))
        found = self.difference(call, method, outcome, parcels)
        if found:
            self.counts.differ(self.title, found, call.text, "request", call.request, "stub", call.transport, call.saw, call.reply, "proxy", call.heard,
                               "run", *lines)
            return
        self.counts.add(f"calls, {self.title}: {self.outcome_of(call, outcome)}")

    def difference(self, call: Call, method: Method, outcome: Dict[str, Any], parcels: Dict[str, List[str]]) -> str:
        """What differs of one call, or nothing."""
        request = call.request if self.client.name != "v10" else call.request[:16] + SYST + call.request[16:]  # its token has no third word
        if parcels.get("request") != [call.code, request]:
            return "the request"
        if str(outcome.get("transport")) != call.transport:
            return "the transport's status"
        saw = outcome.get("saw")
        kinds = [argument.type for argument in method.arguments]
        if text_of(saw and [self.server.schema.numbers(kind, value) for kind, value in zip(kinds, saw)]) != text_of(json.loads(call.saw)):
            return "what the handler saw"
        if call.is_oneway or call.transport != "0":
            return ""
        if parcels.get("reply") != [call.code, call.reply]:
            return "the reply"
        return "" if self.is_heard(call, method, outcome["client"]) else "what the client heard"

    def is_heard(self, call: Call, method: Method, client: Dict[str, Any]) -> bool:
        """Whether the proxy has what `run` says, but for what it keeps of `inout` arguments."""
        if "out" not in client:
            return text_of(client) == text_of(json.loads(call.heard))
        outs = [argument for argument in method.arguments if argument.way != "in"]
        values = [self.client.schema.numbers(argument.type, value) for argument, value in zip(outs, client["out"])]
        result = method.result and self.client.schema.numbers(method.result, client["return"])
        if text_of({"out": values, "return": result}) == text_of(json.loads(call.heard)):
            return True
        if not self.options.has_row("inout"):
            return False
        sent = json.loads(call.line + "}")["args"]
        given = [value for argument, value in zip(method.arguments, sent) if argument.way != "in"]
        kept = [self.kept(argument.type, old, new) if argument.way == "inout" else new for argument, old, new in zip(outs, given, values)]
        if text_of({"out": kept, "return": result}) != text_of(json.loads(call.heard)):
            return False
        self.counts.add(f"of them, {self.title}: the proxy keeps what the caller sent in an inout argument, by the row of docs/CALLS.md")
        return True

    def kept(self, kind: Type, sent: Any, got: Any) -> Any:
        """What a proxy has that reads into the caller's value: a field that the reply leaves out keeps what was sent. Android 14's C++ makes the elements of
        an array anew, and every version what may be null and a union's member."""
        found = self.client.schema.get(kind.base)
        if found is None or found.kind != "parcelable" or kind.is_nullable or sent is None:
            return got
        if kind.shape:
            keeps = self.client.name != "v34"
            return [self.kept(kind.element(), sent[i], item) if keeps and i < len(sent) else item for i, item in enumerate(got)]
        known = self.server.schema.get(kind.base)
        names = {field.name for field in known.fields} if known else set()
        return {field.name: self.kept(field.type, sent[field.name], got[field.name]) if field.name in names else sent[field.name] for field in found.fields}

    @staticmethod
    def outcome_of(call: Call, outcome: Dict[str, Any]) -> str:
        """With which others a call is counted."""
        if call.transport != "0":
            return f"equal, transport {call.transport}"
        if call.is_oneway:
            return "equal, oneway"
        return "equal, an exception" if "exception" in outcome["client"] else "equal"


def compare(options: Options, client: Host, server: Host, title: str, count: int) -> Counts:
    """Compares so many calls of a client and a server."""
    return Pair(options, client, server, title).compare(count)
