"""The stand-ins of one run: what each stands for, how often, and the files that declare them. All copies of a run have the same files."""

from __future__ import annotations

import collections
import re
from dataclasses import dataclass

from .lexer import Text
from .tree import PACKAGE

NAMED = {"float": ("Float", "int", 32), "double": ("Double", "long", 64)}
UNSTRUCTURED = "Unstructured"
LONGEST = 120  # characters of a text that the name of its stand-in keeps


@dataclass(frozen=True)
class Replaced:
    """What was replaced, what stands for it, and how often in each tree."""

    what: str
    standin: str
    counts: tuple[int, ...]

    @property
    def count(self) -> int:
        return sum(self.counts)

    def line(self) -> str:
        return f"replaced: {self.what} ({' and '.join(map(str, self.counts))} times): {self.standin}"


class StandIns:
    """What stands for what. A text gets one name, and no two texts get the same."""

    def __init__(self, trees: int):
        self.trees = trees
        self.tree = 0  # the number of the tree that is copied
        self.counts: dict[tuple[str, str], list[int]] = collections.defaultdict(lambda: [0] * trees)
        self.names: dict[str, str] = {}
        self.taken = {UNSTRUCTURED.lower(), *(name.lower() for name, _, _ in NAMED.values())}
        self.fixed: set[str] = set()
        self.bits: dict[str, set[int]] = {word: {0} for word in NAMED}
        self.unstructured = False

    def count(self, what: str, standin: str) -> None:
        self.counts[what, standin][self.tree] += 1

    def number(self, word: str) -> str:
        """The stand-in of `float` or `double`: an enum of as many bits."""
        name = f"{PACKAGE}.{NAMED[word][0]}"
        self.count(word, f"{name}, an enum of {NAMED[word][2]} bits")
        return name

    def value(self, word: str, bits: int) -> str:
        """The enumerator of the bits of a value."""
        self.bits[word].add(bits)
        return f"{PACKAGE}.{NAMED[word][0]}.{enumerator(bits)}"

    def parcelable(self, text: str, array: bool = False, fixed_size: bool = False) -> str:
        """The stand-in of a type with this full text: a parcelable without fields, or an array of one."""
        name = self.named(text + " in a type of fixed size" * fixed_size)
        if fixed_size:
            self.fixed.add(name)
        standin = f"{PACKAGE}.{name}{'[]' * array}"
        self.count(text, f"{standin}, {'an array of a parcelable' if array else 'a parcelable'} without fields")
        return standin

    def body(self, what: str) -> str:
        """The body of a parcelable that stands for one without a known body."""
        self.unstructured = True
        self.count(what, f"a parcelable with a field {PACKAGE}.{UNSTRUCTURED}")
        return f"{{ {PACKAGE}.{UNSTRUCTURED} unstructured; }}"

    def named(self, text: str) -> str:
        """The name for a text, as much of the text as a name can have."""
        if text not in self.names:
            start = "T_" + re.sub(r"\W+", "_", text).strip("_")[:LONGEST]
            name, number = start, 2
            while name.lower() in self.taken:
                name, number = f"{start}_{number}", number + 1
            self.taken.add(name.lower())
            self.names[text] = name
        return self.names[text]

    def files(self) -> dict[str, str]:
        """The files that declare what was used, by their paths."""
        names = sorted(self.names.values()) + [UNSTRUCTURED] * self.unstructured
        made = {name: f"{'@FixedSize ' if name in self.fixed else ''}parcelable {name} {{ }}" for name in names}
        for word, (name, backing, width) in NAMED.items():
            if any(what == word for what, _ in self.counts):
                values = ", ".join(f"{enumerator(bits)} = {signed(bits, width)}" for bits in sorted(self.bits[word]))
                made[name] = f'@Backing(type="{backing}") enum {name} {{ {values} }}'
        return {f"{PACKAGE}/{name}.aidl": f"package {PACKAGE}; @VintfStability {text}\n" for name, text in made.items()}

    def replaced(self) -> list[Replaced]:
        return [Replaced(what, standin, tuple(counts)) for (what, standin), counts in sorted(self.counts.items())]


def enumerator(bits: int) -> str:
    return f"V{bits:x}"


def signed(bits: int, width: int) -> str:
    """Bits as a number of AIDL."""
    if width == 64 and bits == 1 << 63:
        return "0x8000000000000000L"
    number = bits - (bits >> (width - 1) << width)
    return f"{number}L" if width == 64 else str(number)


def hexadecimal(text: Text, start: int, end: int) -> str:
    """A part of a file's text as hexadecimal digits."""
    return text.text[start:end].encode("latin-1").hex()
