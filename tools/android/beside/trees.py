"""Trees of AIDL as objects, and their source text; the random parts draw and edit them."""
import copy
import dataclasses
from typing import Dict, Iterator, List, Optional, Tuple

INDENT = "  "


@dataclasses.dataclass
class Type:
    """The type of a field, an argument, a result or a constant."""
    base: str
    shape: str = "one"  # "array", "list"
    nullable: bool = False
    heap: bool = False
    is_not_heap: bool = False
    utf8: bool = False

    def annotations(self) -> List[str]:
        """Those that belong to the type."""
        nullable = ["@nullable(heap=true)"] if self.heap else ["@nullable(heap=false)"] if self.nullable and self.is_not_heap else ["@nullable"] if self.nullable else []
        return nullable + (["@utf8InCpp"] if self.utf8 else [])

    def text(self) -> str:
        """The type without its annotations."""
        return {"one": "{}", "array": "{}[]", "list": "List<{}>"}[self.shape].format(self.base)


@dataclasses.dataclass
class Field:
    """A field of a parcelable or a union."""
    type: Type
    name: str
    default: Optional[str] = None
    annotations: List[str] = dataclasses.field(default_factory=list)

    def text(self) -> str:
        """One line of source."""
        words = self.annotations + self.type.annotations() + [self.type.text(), self.name]
        return " ".join(words) + (f" = {self.default}" if self.default is not None else "") + ";"


@dataclasses.dataclass
class Argument:
    """An argument of a method; `direction` may be empty."""
    direction: str
    type: Type
    name: str
    is_annotated_first: bool = False

    def text(self) -> str:
        """As it stands between the parentheses."""
        direction = [self.direction] if self.direction else []
        front = self.type.annotations() + direction if self.is_annotated_first else direction + self.type.annotations()
        return " ".join(front + [self.type.text(), self.name])


@dataclasses.dataclass
class Method:
    """A method of an interface; `result` is None for void."""
    name: str
    result: Optional[Type]
    arguments: List[Argument]
    is_oneway: bool = False
    id: Optional[int] = None
    annotations: List[str] = dataclasses.field(default_factory=list)

    def text(self) -> str:
        """One line of source."""
        words = self.annotations + (self.result.annotations() if self.result else []) + (["oneway"] if self.is_oneway else [])
        words += [self.result.text() if self.result else "void"]
        arguments = ", ".join(argument.text() for argument in self.arguments)
        return " ".join(words) + f" {self.name}({arguments})" + (f" = {self.id}" if self.id is not None else "") + ";"


@dataclasses.dataclass
class Constant:
    """A constant of a declaration."""
    type: Type
    name: str
    value: str

    def text(self) -> str:
        """One line of source."""
        return " ".join(self.type.annotations() + ["const", self.type.text(), self.name, "=", self.value]) + ";"


@dataclasses.dataclass
class Enumerator:
    """An enumerator; `value` is None where it has no expression."""
    name: str
    value: Optional[str] = None

    def text(self) -> str:
        """As it stands between the braces."""
        return self.name + (f" = {self.value}" if self.value is not None else "") + ","


@dataclasses.dataclass
class Declaration:
    """A parcelable, union, enum or interface with what it has."""
    kind: str
    name: str
    members: list = dataclasses.field(default_factory=list)
    constants: List[Constant] = dataclasses.field(default_factory=list)
    nested: List["Declaration"] = dataclasses.field(default_factory=list)
    annotations: List[str] = dataclasses.field(default_factory=list)
    backing: Optional[str] = None
    is_oneway: bool = False

    def lines(self, indent: str = "") -> Iterator[str]:
        """Its source, line by line."""
        words = self.annotations + ([f'@Backing(type="{self.backing}")'] if self.backing else []) + (["oneway"] if self.is_oneway else [])
        yield indent + " ".join(words + [self.kind, self.name, "{"])
        for part in [*self.members, *self.constants]:
            yield indent + INDENT + part.text()
        for inner in self.nested:
            yield from inner.lines(indent + INDENT)
        yield indent + "}"

    def types(self) -> Iterator[Type]:
        """The types of its members, without those of constants and of nested declarations."""
        for member in self.members:
            if isinstance(member, Field):
                yield member.type
            if isinstance(member, Method):
                yield from [argument.type for argument in member.arguments] + ([member.result] if member.result else [])


@dataclasses.dataclass
class Tree:
    """Top-level declarations, all of one package."""
    package: str
    declarations: List[Declaration] = dataclasses.field(default_factory=list)
    imports: bool = True
    comment: str = ""

    def walk(self) -> Iterator[Tuple[str, Declaration]]:
        """Each declaration with its canonical name, outer ones first."""
        def below(prefix: str, declaration: Declaration) -> Iterator[Tuple[str, Declaration]]:
            name = f"{prefix}.{declaration.name}"
            yield name, declaration
            for inner in declaration.nested:
                yield from below(name, inner)
        for declaration in self.declarations:
            yield from below(self.package, declaration)

    def files(self) -> Dict[str, str]:
        """The source files, each with its path. Each imports its neighbours, since Android 14's compiler finds them in no other way, or else names
        them by their short names."""
        made = {}
        for declaration in self.declarations:
            others = [other.name for other in self.declarations if other is not declaration]
            imports = "".join(f"import {self.package}.{other};\n" for other in others) if self.imports else ""
            text = "\n".join(declaration.lines()) + "\n"
            text = text if self.imports else text.replace(self.package + ".", "")
            made[f"{self.package.replace('.', '/')}/{declaration.name}.aidl"] = f"{self.comment}package {self.package};\n{imports}" + text
        return made

    def copy(self) -> "Tree":
        """Another tree of the same text."""
        return copy.deepcopy(self)
