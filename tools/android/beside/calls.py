"""Calls within one version, and requests that generated stubs take otherwise than `replay`: the rows of `classes/requests.json`."""
import json
import pathlib
import re
from typing import Any, Dict, Iterator, List, NamedTuple, Union

from .base import HERE, Counts, Options, Trial
from .damaged import is_on_page
from .hosts import HASH, Host, family, fixed, printed
from .joined import SYST, compare
from .reader import STATUSES
from .tools import scratch

VERSION_CODE, HASH_CODE = 16777215, 16777214
Said = Union[int, str]  # a status of the transport, or what came of it


class Request(NamedTuple):
    """A row: a request, what the stubs that know it make of it, by host, and what `replay` does. `token` is the name in it, or nothing for no token."""
    name: str
    does: str
    interface: str
    token: str
    code: int
    bytes: str
    stubs: Dict[str, str]
    replay: str


def rows_of_table() -> List[Request]:
    """The table, in its order."""
    entries: List[Dict[str, Any]] = json.loads((HERE / "classes/requests.json").read_text(encoding="utf-8"))
    return [Request(**entry) for entry in entries]


def text_block(text: str) -> str:
    """A String's bytes."""
    units = (text + "\0").encode("utf-16-le")
    return (len(text).to_bytes(4, "little") + units + bytes(-len(units) % 4)).hex()


def token(name: str, is_older: bool) -> str:
    """An interface's token, as the newer libbinders and the program write it, or as Android 10's does. No name is no token."""
    return "00000080ffffffff" + ("" if is_older else SYST) + text_block(name) if name else ""


def stub_said(host: Host, face: str, code: int, sent: str) -> Said:
    """What the generated stub makes of a request, as a row says it."""
    line = f"1\t{face}\t{code}\t0\t{sent or '-'}"
    _, status, saw, _, reply = host.answers("serve", [line], lambda _: ["1", "memory", "null", "-", "-"], 1)[0]
    if status != "0":
        return int(status)
    if saw == "null":
        return f"reply `{reply}`"
    return "called" if len(saw) > 200 else f"called, `{json.dumps(json.loads(saw), separators=(',', ':'))}`"


def replay_said(options: Options, tree: pathlib.Path, face: str, code: int, sent: str) -> Said:
    """What `replay` makes of it."""
    line = f"request {code} {sent or '-'} {sent or '-'}\n"
    got = json.loads(options.turn("replay", printed(options, "replay", tree, face, "@trace", trace=line)[0]))
    if "saw" not in got:
        return int(got["transport"])
    return "not called" if got["saw"] is None else f"called, `{json.dumps(got['saw'], separators=(',', ':'))}`"


def said(cell: str) -> Said:
    """What a row says: a status by its name, or words with the blanks of its bytes taken out."""
    return STATUSES.get(cell, re.sub(r"(?<=[0-9a-f]{8}) (?=[0-9a-f]{8})", "", cell))


def compare_row(options: Options, host: Host, row: Request) -> Counts:
    """A row's request, by a stub and by `replay`."""
    counts, sent = Counts(), row.bytes.replace(" ", "")
    stub = stub_said(host, row.interface, row.code, token(row.token, host.name == "v10") + sent)
    wanted = said(row.stubs[host.name]) if options.has_row(row.name) else said(row.replay)
    if stub != wanted:
        counts.differ("the row", row.name, "says", wanted, host.title, stub)
    replayed = replay_said(options, host.tree, row.interface, row.code, token(row.token, False) + sent)
    if replayed != said(row.replay):
        counts.differ("the row", row.name, "says", row.replay, "replay", replayed)
    if not is_on_page(row.does, row.bytes):
        counts.differ("the row", row.name, "isn't on docs/BYTES.md")
    counts.add(f"requests of docs/BYTES.md sent, {host.title}")
    return counts


def compare_reserved(options: Options, host: Host, tree: pathlib.Path) -> Counts:
    """The two codes that generated stubs answer by themselves, beside `ask`: whatever a token says for C++, not so for the NDK."""
    counts, face = Counts(), "calls.IVersioned"
    for code in (VERSION_CODE, HASH_CODE) if host.name in ("v34", "ndk") else (VERSION_CODE,):
        asked = options.turn("ask", printed(options, "ask", tree, 1, face, code, "@hex", hex=token(face, False))[-1])
        digits = re.sub(r"\s", "", next(path.read_text() for path in tree.rglob(".hash")))
        wanted = re.sub("reply (.*)", r"reply `\1`", asked).replace(text_block(digits), text_block(HASH))
        for name in face, "calls.ICalls":
            is_refused = host.name == "ndk" and name != face
            got = stub_said(host, face, code, token(name, host.name == "v10"))
            if got != (STATUSES["BAD_TYPE"] if is_refused else wanted):
                counts.differ("code", code, "token", name, "ask", wanted, host.title, got)
            counts.add(f"getInterfaceVersion and getInterfaceHash asked, {host.title}")
    return counts


def look_at_tokens(options: Options, host: Host) -> Counts:
    """Rows, reserved codes, foreign tokens."""
    counts = Counts()
    for row in rows_of_table():
        if host.name in row.stubs:
            counts.join(compare_row(options, host, row))
    with scratch() as folder:
        printed(options, "freeze", host.tree, folder / "api")
        counts.join(compare_reserved(options, host, folder / "api"))
    return counts


def run(options: Options) -> Counts:
    """Calls of every host within its tree, and the rows."""
    counts = Counts()
    for host in fixed(options, "calls"):
        counts.join(compare(options, host, host, host.title, options.amount(10000)))
        counts.join(look_at_tokens(options, host))
    for version in "old", "new":
        for host in family(options, options.seed, version):
            counts.join(compare(options, host, host, f"{host.title}, random trees", options.amount(10000) // 2))
    return counts


def trials(options: Options) -> Iterator[Trial]:
    """One answer is turned, and each row is taken for what `replay` says."""
    for host in fixed(options, "calls"):
        for name in "request", "reply", "outcome":
            yield Trial(f"one answer turned, {name}, {host.title}",
                        lambda name=name, host=host: compare(options.sabotaged(name), host, host, "", 60))  # type: ignore
        rows = [row.name for row in rows_of_table() if host.name in row.stubs and said(row.stubs[host.name]) != said(row.replay)]
        for name in "replay", "ask", *rows:
            yield Trial(f"{'without the row' if name in rows else 'one answer turned'}, {name}, {host.title}",
                        lambda name=name, host=host: look_at_tokens(options.sabotaged(name), host))  # type: ignore
