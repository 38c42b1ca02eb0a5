"""What a file of AIDL says, as far as a copy asks for it: its imports, its declarations and their members, each with the offsets of its text."""

from __future__ import annotations

from dataclasses import dataclass, field
from typing import Iterator, Optional

from .lexer import Text, Token


@dataclass(frozen=True)
class Span:
    """A part of a file's text."""

    start: int
    end: int


@dataclass(frozen=True)
class Annotation:
    """An annotation: its name, the tokens behind it in parentheses, and its text."""

    name: str
    parameters: tuple[Token, ...]
    span: Span


@dataclass(frozen=True)
class Expression:
    """The tokens of a constant expression or of a brace list."""

    tokens: tuple[Token, ...]

    @property
    def span(self) -> Span:
        return Span(self.tokens[0].start, self.tokens[-1].end)


@dataclass(frozen=True)
class Type:
    """A type as it is written: its name, its arguments between `<` and `>`, and its brackets with their lengths. The annotations in front of it are
    outside its span."""

    base: str
    span: Span
    arguments: tuple[Type, ...] = ()
    lengths: tuple[Optional[Expression], ...] = ()
    annotations: tuple[Annotation, ...] = ()

    def is_fixed(self) -> bool:
        """Whether a length stands between its brackets, or it has more brackets than the profile reads."""
        return len(self.lengths) > 1 or self.lengths[:1] not in ((), (None,))

    def has(self, annotation: str) -> bool:
        return any(one.name == annotation for one in self.annotations)


@dataclass(frozen=True)
class Argument:
    """An argument of a method: its direction or "", its type, its name, and where a direction may be written."""

    direction: str
    type: Type
    name: str
    start: int


@dataclass(frozen=True)
class Member:
    """A field, a method, a constant or an enumerator. Its span has no annotations in front of it; `assigned` goes from `=` to the value's end, and
    `behind` are the annotations behind `oneway` or `const`."""

    kind: str
    name: str
    span: Span
    annotations: tuple[Annotation, ...] = ()
    type: Optional[Type] = None
    value: Optional[Expression] = None
    assigned: Optional[Span] = None
    arguments: tuple[Argument, ...] = ()
    behind: tuple[Annotation, ...] = ()

    def is_nullable(self) -> bool:
        return any(one.name == "nullable" for one in self.annotations)


@dataclass
class Declaration:
    """A parcelable, a union, an enum or an interface: its name as it is written, its full name, and where its body starts and ends; one without a body
    has the offset of its `;` as both. `head` is where what follows the name starts."""

    kind: str
    name: str
    full: str
    annotations: tuple[Annotation, ...]
    start: int
    head: int
    source: Source
    body: int = 0
    end: int = 0
    structured: bool = True
    parameters: Optional[Span] = None
    members: list[Member] = field(default_factory=list)
    nested: list[Declaration] = field(default_factory=list)

    def has(self, annotation: str) -> bool:
        return any(one.name == annotation for one in self.annotations)

    def member(self, name: str, kind: str) -> Optional[Member]:
        return next((one for one in self.members if one.name == name and one.kind == kind), None)

    def all(self) -> Iterator[Declaration]:
        """It and all declarations inside it."""
        yield self
        for one in self.nested:
            yield from one.all()

    def types(self) -> Iterator[Type]:
        """The types of its members, without those between `<` and `>`."""
        for member in self.members:
            if member.type:
                yield member.type
            for argument in member.arguments:
                yield argument.type


@dataclass(frozen=True)
class Import:
    """An import: the full name, its last part and its text."""

    full: str
    span: Span

    @property
    def last(self) -> str:
        return self.full.rpartition(".")[2]


@dataclass
class Source:
    """A file: its package or "", its imports and its declarations."""

    text: Text
    package: str = ""
    imports: list[Import] = field(default_factory=list)
    declarations: list[Declaration] = field(default_factory=list)

    def all(self) -> Iterator[Declaration]:
        for one in self.declarations:
            yield from one.all()

    def named(self, name: str) -> str:
        """The full name of a name in the package."""
        return f"{self.package}.{name}" if self.package else name
