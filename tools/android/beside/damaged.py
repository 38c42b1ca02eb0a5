"""Damaged bytes: `decode --lenient` beside its page, and each libbinder beside the rows of `classes/damaged.json`."""
import concurrent.futures
import json
import os
import random
import re
from typing import Any, Dict, Iterator, List, NamedTuple, Optional, Tuple, Union

from .base import TOP, Counts, Options, Trial
from .hosts import Host, family, fixed, printed
from .reader import ANY, STATUSES, Reader, Row, Stop, rows_of_table
from .schema import Type
from .values import Kept, kept, ours

EDGES = [0, 1, 2, -1, -2, 3, 4, 6, 8, 12, 128, 255, 256, 65536, 2**31 - 1, -2**31, 2**30, 0xd800, 0x610061, 0xdc00d800 - 2**32, 0x7ffffffc]
Reading = Union[int, Tuple[Any, int]]  # a status, or a value and the place behind it


class Case(NamedTuple):
    """Bytes, and the type as which they are read."""
    name: str
    data: bytes


def word(number: int) -> bytes:
    """A word's bytes."""
    return (number % 2**32).to_bytes(4, "little")


def damage_once(data: bytearray, dice: random.Random) -> None:
    """Makes one thing wrong: a word, a byte, an end, a word more or less."""
    at = 4 * dice.randrange(len(data) // 4) if len(data) >= 4 else 0
    kind = dice.randrange(8)
    if kind < 3:
        data[at:at + 4] = word(dice.choice(EDGES))
    elif kind == 3 and data:
        data[dice.randrange(len(data))] = dice.randrange(256)
    elif kind == 4:
        del data[dice.randrange(len(data) + 1):]
    elif kind == 5:
        data[at:at] = word(dice.choice(EDGES))
    elif kind == 6:
        del data[at:at + 4]
    elif at + 4 <= len(data) and data[at:at + 4] != b"\xff" * 4:
        data[at:at + 4] = word(int.from_bytes(data[at:at + 4], "little") + dice.choice((-8, -4, 4, 1, -1, 2, 8)))


def damaged(data: bytes, dice: random.Random) -> bytes:
    """The bytes with one to three things wrong."""
    changed = bytearray(data)
    for _ in range(dice.choice((1, 1, 1, 2, 3))):
        damage_once(changed, dice)
    return bytes(changed)


def nodes(number: int) -> bytes:
    """So many `Node`s, each in the array of the one before it."""
    inner = b""
    for _ in range(number):
        body = word(1) + word(1 if inner else 0) + inner
        inner = word(1) + word(len(body) + 4) + body
    return inner


def alike(wanted: Any, got: Any) -> bool:
    """Whether two values are equal, where any text may stand for one that isn't defined."""
    if wanted == ANY:
        return isinstance(got, str)
    if isinstance(wanted, dict):
        return isinstance(got, dict) and wanted.keys() == got.keys() and all(alike(wanted[key], got[key]) for key in wanted)
    if isinstance(wanted, list):
        return isinstance(got, list) and len(wanted) == len(got) and all(map(alike, wanted, got))
    return type(wanted) is type(got) and bool(wanted == got)


def matches(wanted: Reading, got: Reading) -> bool:
    """Equal statuses, or alike values with the same place behind them."""
    if isinstance(wanted, int) or isinstance(got, int):
        return wanted == got
    return wanted[1] == got[1] and alike(wanted[0], got[0])


def reading(host: Host, case: Case, rows: Tuple[str, ...]) -> Tuple[Reading, bool]:
    """What these rows make of the bytes, and whether memory may be wanted."""
    reader = Reader(host.schema, case.data, rows)
    try:
        value = reader.value(Type.named(case.name))
        return (value, reader.at), reader.may_want_memory
    except Stop as stop:
        return stop.status, reader.may_want_memory


def decoded(options: Options, host: Host, case: Case) -> Reading:
    """What `decode --lenient` answers."""
    lines = printed(options, "decode", "--lenient", "--tree", host.tree, ours(case.name), "@hex", hex=case.data.hex())
    first = options.turn("damaged", lines[0] if lines else "")
    if first.startswith("status "):
        return int(first[7:])
    left = int(lines[1][5:]) if len(lines) > 1 else 0
    return host.schema.numbers(Type.named(case.name), json.loads(first)), len(case.data) - left


def answered(host: Host, cases: List[Case]) -> Iterator[Optional[Reading]]:
    """What a libbinder reads of each case; None where it wants more memory than there is."""
    lines = [f"{case.name}\t{case.data.hex() or '-'}" for case in cases]
    for values, status, at in host.answers("read", lines, lambda _: ["[]", "memory", "0"]):
        yield None if status == "memory" else int(status) if status != "0" else (json.loads(values)[0], int(at))


def cases_of(host: Host, values: List[Kept], count: int, seed: int) -> List[Case]:
    """Damaged values, each with its type, and nodes in one another around the bound on levels."""
    dice = random.Random(seed)
    small = [one for one in values if len(one.bytes) <= 800]
    chain = next(name for name in host.schema.declarations if name.endswith(".Node"))
    cases = [Case(chain, nodes(number)) for number in range(30, 40)]
    while len(cases) < count:
        one = dice.choice(small)
        if host.schema.get(Type.named(one.name).base) or dice.random() < 0.5:
            cases.append(Case(one.name, damaged(bytes.fromhex(one.bytes), dice)))
    return cases


def names_of_rows(options: Options, host: Host) -> Tuple[str, ...]:
    """The rows that a host has."""
    return tuple(row.name for row in rows_of_table() if host.name in row.hosts and options.has_row(row.name))


def all_decoded(options: Options, host: Host, cases: List[Case]) -> List[Reading]:
    """What `decode --lenient` answers each case."""
    with concurrent.futures.ThreadPoolExecutor(os.cpu_count()) as pool:
        return list(pool.map(lambda case: decoded(options, host, case), cases))


def compare(options: Options, host: Host, cases: List[Case], is_lenient: bool = True) -> Counts:
    """What `decode --lenient` reads of each case has to be what the reader without a row reads, and what the libbinder reads what the reader with all of
    its rows does."""
    counts, rows = Counts(), names_of_rows(options, host)
    lenient = all_decoded(options, host, cases) if is_lenient else [reading(host, case, ())[0] for case in cases]
    for case, ours_read, theirs in zip(cases, lenient, answered(host, cases)):
        plain, (wanted, may_want_memory) = reading(host, case, ())[0], reading(host, case, rows)
        if not matches(plain, ours_read):
            counts.differ("damaged", case.name, case.data.hex(), "decode", ours_read, "lenient by the page", plain)
        if theirs is None and not may_want_memory or theirs is not None and not matches(wanted, theirs):
            counts.differ("damaged", case.name, case.data.hex(), host.title, theirs, "by its rows", wanted)
        is_same = theirs is not None and matches(theirs, ours_read)
        counts.add(f"damaged values, {host.title}: {'read or refused as --lenient does' if is_same else 'otherwise, by the rows of docs/BYTES.md'}")
    return counts


def said(cell: str, size: int) -> Optional[Reading]:
    """What a row says: a status, or a value and the place behind it; None for `out of memory`."""
    if cell == "out of memory":
        return None
    if cell in STATUSES:
        return STATUSES[cell]
    found = re.fullmatch(r"`(.*)`(?:, (\d+) bytes (left|past the end))?", cell)
    assert found, cell
    behind = int(found[2] or 0)
    return json.loads(found[1]), size + (behind if found[3] == "past the end" else -behind)


def is_on_page(does: str, data: str) -> bool:
    """Whether a row of docs/BYTES.md has these words and these bytes."""
    lines = (TOP / "docs/BYTES.md").read_text(encoding="utf-8").split("\n")
    return any(line.startswith(f"| {does} |") and data in line for line in lines)


def compare_row(options: Options, host: Host, row: Row) -> Counts:
    """A row's example, by the program and by a libbinder that it speaks of."""
    counts, number = Counts(), re.fullmatch(r"(\d+) in one another", row.bytes)
    case = Case(row.type, nodes(int(number[1])) if number else bytes.fromhex(row.bytes))
    ours_read, theirs = decoded(options, host, case), next(answered(host, [case]))
    if ours_read != said(row.lenient, len(case.data)):
        counts.differ("the row", row.name, "says", row.lenient, "decode", ours_read)
    is_whole = row.libbinder == "read to its end"
    if (isinstance(theirs, tuple) and theirs[1] != len(case.data)) if is_whole else theirs != said(row.libbinder, len(case.data)):
        counts.differ("the row", row.name, "says", row.libbinder, host.title, theirs)
    if not is_on_page(row.does, row.bytes):
        counts.differ("the row", row.name, "isn't on docs/BYTES.md")
    counts.add(f"rows of docs/BYTES.md run, {host.title}")
    return counts


def run(options: Options) -> Counts:
    """Damaged values of every host, and the rows."""
    counts, count = Counts(), options.amount(4000)
    for host in fixed(options, "values"):
        for row in rows_of_table():
            if host.name in row.hosts:
                counts.join(compare_row(options, host, row))
        counts.join(compare(options, host, cases_of(host, kept(options, host, 4000), count, options.seed)))
    for version in "old", "new":
        for host in family(options, options.seed, version):
            counts.join(compare(options, host, cases_of(host, kept(options, host, 4000), count, options.seed)))
    return counts


def trials(options: Options) -> Iterator[Trial]:
    """An answer of `decode` is turned, and each row is left out, of each libbinder that has it."""
    for host in fixed(options, "values"):
        cases = cases_of(host, kept(options, host, 4000), options.amount(4000), options.seed)
        few: Dict[str, List[Case]] = {"damaged": cases[:40]}
        for name in ("damaged", *names_of_rows(options, host)):
            what = "one answer turned" if name == "damaged" else "without the row"
            here = few.get(name, cases)
            yield Trial(f"{what}, {name}, {host.title}",
                        lambda name=name, host=host, here=here: compare(options.sabotaged(name), host, here, name == "damaged"))  # type: ignore
