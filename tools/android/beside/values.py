"""Values: what each libbinder writes beside `encode`, and what each side reads of the other's bytes."""
import json
from typing import Iterator, List, NamedTuple, Tuple

from .base import Counts, Options, Trial
from .hosts import Host, family, fixed, printed
from .schema import PRIMITIVES, Type

GROUP = 255  # about so many values stand behind one another in a parcel


class Kept(NamedTuple):
    """A value's type, by its name in a host, and its bytes in hexadecimal."""
    name: str
    bytes: str


def text_of(value: object) -> str:
    """JSON in which equal values are equal texts."""
    return json.dumps(value, sort_keys=True)


def ours(name: str) -> str:
    """The name in TYPES of a type of a host."""
    return name.replace("utf8", "String").replace("signed", "byte")


def sort_of(host: Host, name: str) -> str:
    """With which others a value is counted."""
    kind = Type.named(name)
    found = host.schema.get(kind.base)
    if found:
        return {"enum": "enums", "union": "unions", "parcelable": "parcelables"}[found.kind] + " and arrays of them"
    if kind.base in PRIMITIVES:
        return "arrays of booleans, bytes, chars, ints and longs" if kind.shape else "booleans, bytes, chars, ints and longs"
    return "Strings, and arrays and Lists of them"


class Group:
    """Values that stand one behind another in a parcel, and what either side makes of them."""

    def __init__(self, options: Options, host: Host, row: List[str]):
        names, ends, wanted, self.sent = row
        self.options, self.host, self.names = options, host, names.split(",")
        self.ends = [0, *map(int, ends.split(","))]
        self.wanted = [text_of(value) for value in json.loads(wanted)]
        types = ",".join(map(ours, self.names))
        self.encoded = options.turn("encode", (printed(options, "encode", "--tree", host.tree, types, "@json", json=wanted) or [""])[0])
        self.strict = printed(options, "decode", "--tree", host.tree, types, "@hex", hex=self.sent)
        self.lenient = printed(options, "decode", "--lenient", "--tree", host.tree, types, "@hex", hex=self.sent)
        values, *self.read_to = host.answers("read", [f"{names}\t{self.encoded}"], lambda _: ["[]", "memory", "0"])[0]
        self.read = [text_of(value) for value in json.loads(options.turn("read back", values))]

    def part(self, i: int, digits: str) -> str:
        """The bytes of one value."""
        return digits[2 * self.ends[i]:2 * self.ends[i + 1]]

    def decoded(self, lines: List[str], i: int) -> str:
        """What `decode` printed of one value, with numbers for enumerators."""
        line = self.options.turn("decode", lines[i]) if i < len(lines) else ""
        if line[:1] not in set('-0123456789tfn"[{'):
            return line
        return text_of(self.host.schema.numbers(Type.named(self.names[i]), json.loads(line)))

    def is_equal(self, i: int, counts: Counts) -> bool:
        """Whether one value is the same bytes and, both ways, the same value."""
        name, wanted, sent = self.names[i], self.wanted[i], self.part(i, self.sent)
        if self.part(i, self.encoded) != sent:
            counts.differ(self.host.title, "bytes of", name, wanted, "libbinder", sent, "encode", self.part(i, self.encoded))
        elif {self.decoded(self.strict, i), self.decoded(self.lenient, i)} != {wanted}:
            counts.differ(self.host.title, "value of", name, sent, "libbinder", wanted, "decode", self.strict[i:i + 1], self.lenient[i:i + 1])
        elif self.read[i:i + 1] != [wanted]:
            counts.differ(self.host.title, "value of", name, sent, "encode", wanted, "libbinder", self.read[i:i + 1], self.read_to)
        else:
            return True
        return False

    def look_at_end(self, counts: Counts) -> None:
        """Both sides have to end where the bytes end."""
        found = len(self.encoded), len(self.strict), len(self.lenient), self.read_to
        if found != (len(self.sent), len(self.names), len(self.names), ["0", str(self.ends[-1])]):
            counts.differ(self.host.title, "the end of", self.sent[-80:], "encode", self.encoded[-80:], "decode", self.strict[-1:], "libbinder", self.read_to)


def compare(options: Options, host: Host, count: int) -> Counts:
    """Compares about so many values of one host."""
    counts = Counts()
    for row in host.rows("values", options.seed, max(1, round(count / GROUP))):
        group = Group(options, host, row)
        for i, name in enumerate(group.names):
            counts.add(f"values equal, {host.title}: {sort_of(host, name)}", int(group.is_equal(i, counts)))
        group.look_at_end(counts)
    return counts


def kept(options: Options, host: Host, count: int) -> List[Kept]:
    """About so many values of a host, as it writes them."""
    found = []
    for names, ends, _, sent in host.rows("values", options.seed, max(1, round(count / GROUP))):
        places = [0, *map(int, ends.split(","))]
        found += [Kept(name, sent[2 * places[i]:2 * places[i + 1]]) for i, name in enumerate(names.split(","))]
    return found


def hosts(options: Options) -> Iterator[Host]:
    """Each libbinder over the trees of ours, and Android 14's over random ones."""
    yield from fixed(options, "values")
    for version in "old", "new":
        yield from family(options, options.seed, version)


def run(options: Options) -> Counts:
    """Compares values of every host."""
    counts = Counts()
    for host in hosts(options):
        counts.join(compare(options, host, options.amount(16000)))
    return counts


def trials(options: Options) -> Iterator[Trial]:
    """One answer of each side is turned."""
    found: List[Tuple[str, Host]] = [(name, host) for host in fixed(options, "values") for name in ("encode", "decode", "read back")]
    for name, host in found:
        yield Trial(f"one answer turned, {name}, {host.title}", lambda name=name, host=host: compare(options.sabotaged(name), host, GROUP))  # type: ignore
