"""Random trees in two versions, of which the newer one is what `judge` allows: fields, members of unions, enumerators and methods are added."""
import pathlib
import random
from typing import Dict, Iterator, List, Optional, Set, Tuple

from .schema import PRIMITIVES, Argument, Declaration, Field, Method, Schema, Type

LITERALS: Dict[str, Tuple[str, ...]] = {
    "boolean": ("true", "false"), "byte": ("-128", "-1", "1", "127"), "char": ("'a'", "'Z'"), "int": ("-2147483648", "-1", "7", "2147483647"),
    "long": ("-9", "5", "4611686018427387904"), "String": ('"x"', '"hey"', '""'),
}
SHAPES = ("primitive", "primitive", "enum", "primitive[]", "primitive[]", "enum[]", "String", "String[]", "List<String>", "parcelable", "parcelable",
          "parcelable[]", "List<parcelable>", "union", "union", "union[]", "List<union>")


class Family:
    """The newer version's declarations, and which of their members the older one hasn't."""

    def __init__(self, seed: int):
        self.dice = random.Random(seed)
        self.schema = Schema({})
        self.added: Set[Tuple[str, str]] = set()
        self.build()

    # -- types and initializers

    def named(self, kind: str, last: int = 10) -> List[str]:
        """The last declarations of a kind that a type may name."""
        return [one.name for one in self.schema.of_kind(kind)][-last:]

    def type(self) -> Type:
        """Any type of what was declared before."""
        shape, is_nullable, is_utf8 = self.dice.choice(SHAPES), self.dice.random() < 0.35, self.dice.random() < 0.25
        kind = Type.of(shape)
        if kind.base == "String":
            return kind._replace(is_nullable=is_nullable, is_utf8=is_utf8)
        names = list(PRIMITIVES) if kind.base == "primitive" else self.named(kind.base)
        if not names:
            return Type(self.dice.choice(PRIMITIVES), "array" if kind.shape else "", bool(kind.shape) and is_nullable)
        is_scalar = kind.base in ("primitive", "enum") and not kind.shape
        return Type(self.dice.choice(names), kind.shape, is_nullable and not is_scalar)

    def initializer(self, kind: Type) -> str:
        """An initializer, at times none. Android 14's compiler takes no array of characters."""
        if kind.is_nullable or self.dice.random() < 0.4:
            return ""
        found = self.schema.get(kind.base)
        if found and found.kind == "enum" and not kind.shape:
            return f"{kind.base}.{self.dice.choice([name for name in found.numbers if (found.name, name) not in self.added])}"
        if found or kind.shape == "list":
            return ""
        if not kind.shape:
            return self.dice.choice(LITERALS[kind.base])
        number = 0 if kind.base == "char" else self.dice.randrange(4)
        return "{" + ", ".join(self.dice.choice(LITERALS[kind.base]) for _ in range(number)) + "}"

    def useful(self, kind: Type) -> Type:
        """A type with a useful default, as a union's first member and an added field need it."""
        found = self.schema.get(kind.base)
        if kind.shape or found and found.kind != "enum":
            return kind._replace(is_nullable=True)
        return Type("long") if found else kind

    # -- declarations

    def add(self, declaration: Declaration, added: Tuple[str, ...] = ()) -> Declaration:
        """Adds a declaration, of which the older version hasn't these members."""
        self.schema.declarations[declaration.name] = declaration
        self.added |= {(declaration.name, name) for name in added}
        return declaration

    def fields(self, least: int, most: int) -> List[Field]:
        """Fields of a parcelable in its older version."""
        kinds = [self.type() for _ in range(self.dice.randrange(least, most))]
        return [Field(f"m{i}", kind, self.initializer(kind)) for i, kind in enumerate(kinds)]

    def later_fields(self, first: int) -> List[Field]:
        """Fields that the newer version adds: each with a plain default."""
        fields = []
        for i in range(first, first + self.dice.randrange(1, 4)):
            kind = self.type()
            found = self.schema.get(kind.base)
            if found and found.kind == "enum" and not kind.shape:
                fields.append(Field(f"m{i}", kind, f"{kind.base}.{next(iter(found.numbers))}"))
            elif found and not kind.shape:
                fields.append(Field(f"m{i}", kind._replace(is_nullable=True)))
            else:
                fields.append(Field(f"m{i}", kind, self.initializer(kind)))
        return fields

    def parcelable(self, name: str, least: int, most: int, grows: bool, first: Tuple[Field, ...] = (), is_nested: bool = False) -> None:
        """A parcelable, which the newer version may make grow."""
        fields = [*first, *self.fields(least, most)]
        later = self.later_fields(len(fields)) if grows else []
        self.add(Declaration(name, "parcelable", fields=fields + later, is_nested=is_nested), tuple(field.name for field in later))

    def union(self, name: str, most: int, grows: bool, is_nested: bool = False) -> None:
        """A union, which the newer version may make grow."""
        number = self.dice.randrange(1, most)
        later = self.dice.randrange(1, 4) if grows else 0
        kinds = [self.type() for _ in range(number + later)]
        kinds[0] = self.useful(kinds[0])
        fields = [Field(f"m{i}", kind, self.initializer(kind) if i == 0 else "") for i, kind in enumerate(kinds)]
        self.add(Declaration(name, "union", fields=fields, is_nested=is_nested), tuple(field.name for field in fields[number:]))

    def nest(self, name: str) -> None:
        """A parcelable that declares an enum, a parcelable and a union."""
        self.add(Declaration(f"{name}.Kind", "enum", '@Backing(type="int") ', numbers={"A": 0, "B": 1}, is_nested=True))
        self.parcelable(f"{name}.In", 0, 4, True, is_nested=True)
        self.union(f"{name}.Un", 4, True, is_nested=True)
        first = (Field("k", Type(f"{name}.Kind")), Field("i", Type(f"{name}.In", "", self.dice.random() < 0.5)),
                 Field("u", Type(f"{name}.Un", "array", self.dice.random() < 0.5)))
        self.parcelable(name, 1, 5, self.dice.random() < 0.6, first)

    def method(self, index: int, is_added: bool, number: int) -> Tuple[Method, bool]:
        """A method with up to four arguments."""
        is_oneway, arguments = self.dice.random() < 0.12, []
        for i in range(self.dice.randrange(0, 5)):
            kind = self.type()
            is_simple = not kind.shape and (kind.base == "String" or self.schema.is_plain(kind))
            way = "in" if is_oneway or is_simple else self.dice.choice(("in", "in", "out", "inout"))
            arguments.append(Argument(f"a{i}", kind._replace(is_nullable=False) if way == "out" and not kind.shape else kind, way))
        result = None if is_oneway or self.dice.random() < 0.3 else self.type()
        return Method(f"m{index}", number, is_oneway, tuple(arguments), result), is_added

    def interface(self, name: str, has_ids: bool) -> None:
        """An interface; the newer version has methods more at its end."""
        number, first_added = self.dice.randrange(5, 10), self.dice.randrange(4, 9)
        ids = self.dice.sample(range(16777000), number) if has_ids else list(range(number))
        made = [self.method(i, i >= first_added, ids[i]) for i in range(number)]
        self.add(Declaration(name, "interface", methods=[method for method, _ in made]), tuple(method.name for method, is_added in made if is_added))

    # -- the family

    def build(self) -> None:
        """All declarations: some by hand, most at random."""
        for name, back, numbers in ("E8", "byte", (0, 5, -128)), ("E32", "int", (0, 2, -2147483648)), ("E64", "long", (0, -3, 1099511627776)):
            values = {f"V{i}": number for i, number in enumerate(numbers)}
            self.add(Declaration(f"f.{name}", "enum", f'@Backing(type="{back}") ', numbers={**values, "V9": 9}), ("V9",))
        self.add(Declaration("f.Node", "parcelable", fields=[Field("key", Type("int")), Field("below", Type("f.Node", "array"))]))
        for i in range(22):
            if i % 3 == 2:
                self.union(f"f.U{i}", 7, self.dice.random() < 0.5)
            elif i % 7 == 3:
                self.nest(f"f.N{i}")
            else:
                self.parcelable(f"f.P{i}", 0, 7, self.dice.random() < 0.7)
        self.add_fixed()
        self.add_growing()
        for i in range(8):
            self.interface(f"f.IFace{i}", i % 3 == 1)

    def add_fixed(self) -> None:
        """A parcelable and a union of fixed size."""
        fields = [Field("a", Type("long"), "-9"), Field("e", Type("f.E8")), Field("c", Type("char"))]
        self.add(Declaration("f.Fix", "parcelable", "@FixedSize ", fields=fields))
        self.add(Declaration("f.FixU", "union", "@FixedSize ", fields=[Field("a", Type("int"), "4"), Field("e", Type("f.E64"))]))

    def add_growing(self) -> None:
        """A parcelable and a union that grow, and an interface that has them as `inout` arguments."""
        grow = Type("f.Grow")
        fields = [Field("a", Type("int"), "3"), Field("b", Type("String"), '"x"'), Field("c", Type(self.named("union")[0], "", True))]
        self.add(Declaration("f.Grow", "parcelable", fields=fields), ("b", "c"))
        self.add(Declaration("f.GrowU", "union", fields=[Field("a", Type("int")), Field("g", grow), Field("z", grow._replace(shape="array"))]), ("z",))
        kinds = [grow, Type("f.Grow", "array"), Type("f.Grow", "", True), Type("f.Grow", "list"), Type("f.GrowU"), Type("f.Grow", "array", True)]
        methods = [Method(f"m{i}", i, False, (Argument("a0", kind, "inout"),), grow) for i, kind in enumerate(kinds)]
        self.add(Declaration("f.IKeep", "interface", methods=methods))

    # -- their text

    def lines(self, one: Declaration, is_newer: bool, indent: str) -> Iterator[str]:
        """A declaration's lines."""
        here = [name for name in self.members(one) if is_newer or (one.name, name) not in self.added]
        yield f"{indent}{one.notes}{one.kind} {one.name.rsplit('.', 1)[1]} {{"
        for other in self.schema.declarations.values():
            if other.name.rsplit(".", 1)[0] == one.name:
                yield from self.lines(other, is_newer, indent + "    ")
        yield from (f"{indent}    {self.members(one)[name]}" for name in here)
        yield indent + "}"

    @staticmethod
    def members(one: Declaration) -> Dict[str, str]:
        """The members of a declaration, each with its line."""
        lines = {name: f"{name} = {number}," for name, number in one.numbers.items()}
        lines.update({field.name: f"{field.type.text} {field.name}{' = ' * bool(field.initializer)}{field.initializer};" for field in one.fields})
        has_ids = [method.id for method in one.methods] != list(range(len(one.methods)))
        lines.update({method.name: line_of(method, has_ids) for method in one.methods})
        return lines

    def needed(self, one: Declaration) -> Set[str]:
        """The files that a file has to import."""
        nested = [other for other in self.schema.declarations.values() if other.name.startswith(one.name + ".")]
        kinds: List[Optional[Type]] = [field.type for each in [one, *nested] for field in each.fields]
        for method in one.methods:
            kinds += [method.result, *(argument.type for argument in method.arguments)]
        names = {".".join(kind.base.split(".")[:2]) for kind in kinds if kind and "." in kind.base}
        return names - {one.name}

    def write(self, folder: pathlib.Path, is_newer: bool) -> None:
        """Writes one version's tree."""
        (folder / "f").mkdir(parents=True, exist_ok=True)
        for one in self.schema.declarations.values():
            if not one.is_nested:
                text = "package f;\n" + "".join(f"import {name};\n" for name in sorted(self.needed(one)))
                (folder / "f" / f"{one.name[2:]}.aidl").write_text(text + "\n".join(self.lines(one, is_newer, "")) + "\n")


def line_of(method: Method, has_id: bool) -> str:
    """A method's line."""
    arguments = ", ".join(f"{argument.way} {argument.type.text} {argument.name}" for argument in method.arguments)
    result = method.result.text if method.result else "void"
    return f"{'oneway ' * method.is_oneway}{result} {method.name}({arguments}){f' = {method.id}' * has_id};"
