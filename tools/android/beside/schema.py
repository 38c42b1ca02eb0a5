"""The declarations of a tree whose files have a member a line and full names, as those of `hosts/trees` and of `family.py` do."""
import dataclasses
import pathlib
import re
from typing import Dict, Iterator, List, NamedTuple, Optional, Tuple

from .base import CouldNotRun

PRIMITIVES = ("boolean", "byte", "char", "int", "long")
NOTES = r"((?:@\w+(?:\([^)]*\))? )*)"
TYPE = r"([\w.]+(?:<[\w.]+>)?(?:\[\])?)"
OPENED = re.compile(NOTES + r"(oneway )?(parcelable|union|enum|interface) (\w+) \{(\})?")
ENUMERATOR = re.compile(r"(\w+) = (-?\d+),")
FIELD = re.compile(NOTES + TYPE + r" (\w+)(?: = (.+))?;")
METHOD = re.compile(r"(oneway )?" + NOTES + TYPE + r" (\w+)\((.*)\)(?: = (\d+))?;")
ARGUMENT = re.compile(r"(?:(in|out|inout) )?" + NOTES + TYPE + r" (\w+)")
PASSED = re.compile(r"|//.*|(package|import|const) .*")


class Type(NamedTuple):
    """A type: its base, `array`, `list` or nothing, whether it may be null, and whether its texts are UTF-8 in C++."""
    base: str
    shape: str = ""
    is_nullable: bool = False
    is_utf8: bool = False

    @classmethod
    def of(cls, words: str, notes: str = "") -> "Type":
        """By the words of a file and the annotations in front of them."""
        base = re.sub(r"^List<(.*)>$|\[\]$", r"\1", words)
        shape = "" if base == words else "array" if words.endswith("]") else "list"
        return cls(base, shape, "@nullable" in notes, "@utf8InCpp" in notes)

    @classmethod
    def named(cls, name: str) -> "Type":
        """By the name that a host gives it: with `utf8` for String and `signed` for byte, and `?` where it may be null."""
        plain = cls.of(name[:-1] if name.endswith("?") else name)
        return plain._replace(base={"utf8": "String", "signed": "byte"}.get(plain.base, plain.base), is_nullable=name.endswith("?"),
                              is_utf8=plain.base == "utf8")

    @property
    def words(self) -> str:
        """The type as a file has it, without annotations."""
        return {"": "{}", "array": "{}[]", "list": "List<{}>"}[self.shape].format(self.base)

    @property
    def text(self) -> str:
        """The type as a file has it, with annotations."""
        return "@nullable " * self.is_nullable + "@utf8InCpp " * self.is_utf8 + self.words

    def element(self) -> "Type":
        """The type of an element, which may be null where the sequence may."""
        return self._replace(shape="", is_nullable=self.is_nullable and self.base not in PRIMITIVES)


class Field(NamedTuple):
    """A field or a member of a union, with its initializer's text or nothing."""
    name: str
    type: Type
    initializer: str = ""


class Argument(NamedTuple):
    """An argument, with `in`, `out` or `inout`."""
    name: str
    type: Type
    way: str


class Method(NamedTuple):
    """A method; `id` is its transaction code less 1."""
    name: str
    id: int
    is_oneway: bool
    arguments: Tuple[Argument, ...]
    result: Optional[Type]


@dataclasses.dataclass
class Declaration:
    """A type by its canonical name, with what its kind has."""
    name: str
    kind: str
    notes: str = ""
    fields: List[Field] = dataclasses.field(default_factory=list)
    numbers: Dict[str, int] = dataclasses.field(default_factory=dict)
    methods: List[Method] = dataclasses.field(default_factory=list)
    is_nested: bool = False

    @property
    def backing(self) -> str:
        """The backing type of an enum."""
        found = re.search(r'type="(\w+)"', self.notes)
        return found[1] if found else "byte"

    @property
    def is_fixed(self) -> bool:
        """Whether it is `@FixedSize`."""
        return "@FixedSize" in self.notes


class Schema:
    """The declarations of a tree by their names, those that others need first."""

    def __init__(self, declarations: Dict[str, Declaration]):
        self.declarations = declarations

    def get(self, name: str) -> Optional[Declaration]:
        """The declaration of this name; None of a built-in type."""
        return self.declarations.get(name)

    def of_kind(self, *kinds: str) -> Iterator[Declaration]:
        """The declarations of these kinds."""
        return (one for one in self.declarations.values() if one.kind in kinds)

    def older(self) -> "Schema":
        """What Android 10's compiler knows of it: nothing of the package `newer`, of whose enums a host declares its own."""
        return Schema({name: one for name, one in self.declarations.items() if not name.startswith("newer.") or one.kind == "enum" and not one.is_nested})

    def backing(self, name: str) -> str:
        """The name itself, or an enum's backing type."""
        found = self.get(name)
        return found.backing if found and found.kind == "enum" else name

    def is_plain(self, kind: Type) -> bool:
        """Whether C++ hands it over by value."""
        return not kind.shape and self.backing(kind.base) in PRIMITIVES

    def method(self, face: str, name: str) -> Method:
        """A method of an interface."""
        return next(one for one in self.declarations[face].methods if one.name == name)

    def numbers(self, kind: Type, value: object) -> object:
        """A value with the numbers of enumerators in place of their names."""
        found = self.get(kind.base)
        if value is None or found is None:
            return value
        if kind.shape:
            return [self.numbers(kind.element(), item) for item in value]  # type: ignore[attr-defined]
        if found.kind == "enum":
            return found.numbers.get(value, value)  # type: ignore[call-overload]
        types = {one.name: one.type for one in found.fields}
        return {name: self.numbers(types[name], item) for name, item in value.items()}  # type: ignore[attr-defined]


def arguments_of(text: str) -> Tuple[Argument, ...]:
    """The arguments of a method's line."""
    found = [ARGUMENT.fullmatch(part) for part in text.split(", ")] if text else []
    if None in found:
        raise CouldNotRun(f"no arguments: {text}")
    return tuple(Argument(one[4], Type.of(one[3], one[2]), one[1] or "in") for one in found if one)


def add_member(within: Declaration, line: str, is_oneway: bool) -> None:
    """Adds the member that a line is."""
    enumerator, field, method = ENUMERATOR.fullmatch(line), FIELD.fullmatch(line), METHOD.fullmatch(line)
    if within.kind == "enum" and enumerator:
        within.numbers[enumerator[1]] = int(enumerator[2])
    elif within.kind in ("parcelable", "union") and field:
        within.fields.append(Field(field[3], Type.of(field[2], field[1]), field[4] or ""))
    elif within.kind == "interface" and method:
        result = None if method[3] == "void" else Type.of(method[3], method[2])
        number = int(method[6]) if method[6] else len(within.methods)
        within.methods.append(Method(method[4], number, is_oneway or bool(method[1]), arguments_of(method[5]), result))
    else:
        raise CouldNotRun(f"no member of {within.name}: {line}")


def declarations_of(text: str) -> Iterator[Declaration]:
    """The declarations of one file, the outer one first."""
    package, opened, is_oneway = "", [], False
    for line in map(str.strip, text.split("\n")):
        start = OPENED.fullmatch(line)
        if PASSED.fullmatch(line):
            package = line[8:-1] if line.startswith("package ") else package
        elif start:
            above, is_oneway = opened[-1].name if opened else package, bool(start[2])
            declaration = Declaration(f"{above}.{start[4]}", start[3], start[1], is_nested=bool(opened))
            opened += [] if start[5] else [declaration]
            yield declaration
        elif line == "}" and opened:
            opened.pop()
        elif opened:
            add_member(opened[-1], line, is_oneway)
        else:
            raise CouldNotRun(f"no line of a tree: {line}")


def read_tree(tree: pathlib.Path) -> Schema:
    """The declarations of all files below a folder."""
    texts = [path.read_text(encoding="utf-8") for path in sorted(tree.rglob("*.aidl"))]
    return Schema({one.name: one for text in texts for one in declarations_of(text)})
