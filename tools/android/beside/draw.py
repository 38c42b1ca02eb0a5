"""Draws trees at random, by a seed: each is one that both compilers read, unless a feature is asked for that Android 14's refuses."""
import random
from typing import FrozenSet, List, Optional, Tuple

from .trees import Argument, Constant, Declaration, Enumerator, Field, Method, Tree, Type

PRIMITIVES = ["boolean", "byte", "char", "int", "long"]
# what Android 14's compiler refuses and the program reads; each is drawn only where it is asked for
FEATURES = ("no import", "vintf", "const kinds", "annotation first", "bare union", "list default", "dropped annotation")
# what Android 14's dump keeps and that of the program drops; drawn where "dressed" is asked for
WORN = ["@JavaDerive(toString=true)", "@JavaDerive(equals=true)", "@UnsupportedAppUsage", "/** @hide */", "/** @deprecated for a reason */"]
DROPPED = ['@JavaDerive(toString=true)', '@RustDerive(Clone=true)', "@JavaOnlyImmutable", '@SuppressWarnings(value={"x"})', "@Hide", "@SensitiveData"]


class Drawer:
    """Draws one tree. Types are drawn in order, and name earlier ones alone, so that no tree holds itself."""

    def __init__(self, dice: random.Random, package: str, features: FrozenSet[str] = frozenset()):
        self.dice, self.package, self.features = dice, package, features
        self.known: List[Tuple[str, Declaration]] = []
        self.number = 0

    def name(self, stem: str) -> str:
        """A name that nothing else of the tree has."""
        self.number += 1
        return f"{stem}{self.number}"

    def may(self, probability: float) -> bool:
        """True with that probability."""
        return self.dice.random() < probability

    def has(self, feature: str, probability: float = 0.3) -> bool:
        """Whether a feature is asked for and drawn."""
        return feature in self.features and self.may(probability)

    def tree(self, size: int) -> Tree:
        """A tree of so many declarations at the top."""
        made = Tree(self.package, imports=not self.has("no import", 0.7), comment="/* a licence */\n" if self.has("dressed") else "")
        for _ in range(size):
            made.declarations.append(self.declaration(self.package, 0))
        return made

    def declaration(self, outside: str, depth: int, kinds: Tuple[str, ...] = ("parcelable", "parcelable", "union", "enum", "interface")) -> Declaration:
        """A declaration of any kind, with nested ones, which its members may name."""
        made = Declaration(self.dice.choice(kinds), self.name("T"))
        name = f"{outside}.{made.name}"
        if made.kind != "enum" and depth < 2 and self.may(0.3):
            made.nested = [self.declaration(name, depth + 1) for _ in range(self.dice.randint(1, 2))]
        {"parcelable": self.parcelable, "union": self.union, "enum": self.enum, "interface": self.interface}[made.kind](made)
        if made.kind != "enum" and self.may(0.3):
            made.constants = [self.constant() for _ in range(self.dice.randint(1, 3))]
        if self.has("vintf", 0.3) and depth == 0:
            made.annotations.append("@VintfStability")
        if self.has("dropped annotation", 0.4) and made.kind in ("parcelable", "union"):
            made.annotations.append(self.dice.choice(DROPPED))
        if self.has("dressed", 0.5):
            self.dress(made)
        if made.kind != "interface":
            self.known.append((name, made))
        return made

    def dress(self, made: Declaration) -> None:
        """Annotations and comments that no byte of a call depends on."""
        worn = WORN if made.kind in ("parcelable", "union") else WORN[2:]
        made.annotations = self.dice.sample(worn[::-1], 1) + made.annotations
        for member in made.members:
            if made.kind != "enum" and self.may(0.3):
                member.annotations.insert(0, self.dice.choice(WORN[2:]))

    def parcelable(self, made: Declaration) -> None:
        """Fields, of a fixed size now and then."""
        is_fixed = self.may(0.1)
        made.members = [self.field(is_fixed) for _ in range(self.dice.randint(0, 5))]
        if is_fixed:
            made.annotations.append("@FixedSize")
        elif self.may(0.05):
            made.members.append(Field(Type(made.name, nullable=True, heap=True), self.name("f")))

    def union(self, made: Declaration) -> None:
        """Fields, of which the first alone may have an initializer."""
        made.members = [self.field(False) for _ in range(self.dice.randint(1, 4))]
        for field in made.members[1:]:
            field.default = None
        first = made.members[0]
        needs = first.type.shape == "array" or self.kind_of(first.type.base) == "enum"
        if needs and first.default is None and not first.type.nullable and not self.has("bare union", 0.5):
            made.members[0] = Field(Type("int"), first.name)

    def enum(self, made: Declaration) -> None:
        """Enumerators with values that ascend, written or not."""
        made.backing = self.dice.choice([None, "byte", "int", "long"])
        value = self.dice.choice([0, 0, 0, 1, -3])
        for i in range(self.dice.randint(1, 4)):
            is_written = self.may(0.6) or (i == 0 and value != 0)
            if i:
                value += 1 if not is_written else 0 if self.has("dressed", 0.3) else self.dice.randint(1, 3)
            made.members.append(Enumerator(self.name("E"), self.number_text(value, "byte") if is_written else None))

    def interface(self, made: Declaration) -> None:
        """Methods, all with ids or none."""
        made.is_oneway = self.may(0.1)
        made.members = [self.method(made.is_oneway) for _ in range(self.dice.randint(0, 4))]
        if self.may(0.3):
            number = self.dice.choice([0, 1, 7])
            for method in made.members:
                method.id, number = number, number + self.dice.choice([1, 1, 3])

    def method(self, is_oneway: bool) -> Method:
        """A method, oneway or not."""
        one = not is_oneway and self.may(0.15)
        result = None if is_oneway or one or self.may(0.3) else self.type()
        return Method(self.name("m"), result, [self.argument(is_oneway or one) for _ in range(self.dice.randint(0, 3))], one)

    def argument(self, is_in: bool) -> Argument:
        """An argument; a direction stands where it has to."""
        drawn = self.type()
        plain = drawn.shape == "one" and (drawn.base in PRIMITIVES + ["String"] or self.kind_of(drawn.base) == "enum")
        direction = self.dice.choice(["", "in"]) if plain else "in" if is_in else self.dice.choice(["in", "out", "inout"])
        return Argument(direction, drawn, self.name("a"), bool(direction) and self.has("annotation first", 0.5))

    def kind_of(self, base: str) -> Optional[str]:
        """The kind of a declared type, None of a built-in one."""
        return next((declaration.kind for name, declaration in self.known if name == base), None)

    def base(self) -> str:
        """A primitive, a String, or a type that was drawn before."""
        if self.known and self.may(0.45):
            return self.dice.choice(self.known)[0]
        return self.dice.choice(PRIMITIVES + ["int", "String", "String"])

    def type(self) -> Type:
        """Any type of a field, an argument or a result."""
        base = self.base()
        kind = self.kind_of(base)
        is_object = base == "String" or kind in ("parcelable", "union")
        shape = self.dice.choice(["one", "one", "one", "array", "list" if is_object else "array"])
        made = Type(base, shape, utf8=base == "String" and self.may(0.2))
        made.nullable = (is_object or shape != "one") and self.may(0.25)
        made.is_not_heap = made.nullable and self.has("dressed", 0.2)
        return made

    def field(self, is_fixed: bool) -> Field:
        """A field with or without an initializer."""
        if is_fixed:
            enums = [name for name, declaration in self.known if declaration.kind == "enum" or "@FixedSize" in declaration.annotations]
            drawn = Type(self.dice.choice(PRIMITIVES + enums))
        else:
            drawn = self.type()
        return Field(drawn, self.name("f"), self.default(drawn) if self.may(0.45) or self.needs_default(drawn) else None)

    def needs_default(self, drawn: Type) -> bool:
        """Whether Android 14's backends want an initializer: of an enum, which may have no zero."""
        return False if drawn.shape != "one" else self.kind_of(drawn.base) == "enum" and self.may(0.5)

    def default(self, drawn: Type) -> Optional[str]:
        """An initializer that both take."""
        if drawn.shape == "list":
            return "{}" if self.has("list default", 0.6) and not drawn.nullable else None
        if drawn.shape == "array":
            if self.kind_of(drawn.base) in ("parcelable", "union") or drawn.nullable:
                return None
            most = 1 if drawn.base == "char" and not self.has("list default") else 3
            return "{" + ", ".join(str(self.single(drawn.base)) for _ in range(self.dice.randint(0, most))) + "}"
        return None if drawn.nullable and drawn.base != "String" else self.single(drawn.base)

    def single(self, base: str) -> Optional[str]:
        """A value of a type of one part."""
        kind = self.kind_of(base)
        if kind == "enum":
            declaration = next(declaration for name, declaration in self.known if name == base)
            return f"{base}.{self.dice.choice(declaration.members).name}"
        if kind:
            return None
        if base == "boolean":
            return self.dice.choice(["true", "false"])
        if base == "char":
            return self.dice.choice(["'x'", "'0'", "' '"])
        if base == "String":
            return self.dice.choice(['""', '"x"', '"a b"', '"/*"', '"it\'s"'])
        return self.number_text(self.dice.choice([0, 0, 1, 7, -1, 100, -128, 127]), base)

    def number_text(self, value: int, base: str) -> str:
        """A number as it may be written."""
        forms = [str(value)] * 4
        forms += [f"{value - 1} + 1", f"({value})", f"{value} | 0"]
        if 0 <= value < 8:
            forms += [f"(1 << {value}) - {(1 << value) - value}", hex(value)]
        if base == "long":
            forms += [f"{value}L"]
        return self.dice.choice(forms)

    def constant(self) -> Constant:
        """A constant of a number or a text."""
        base = self.dice.choice(["int", "long", "byte", "String"])
        if self.has("const kinds", 0.4):
            base = self.dice.choice(["boolean", "char"])
        return Constant(Type(base), self.name("K"), self.single(base) or "0")


def draw_tree(seed: str, package: str, features: FrozenSet[str] = frozenset(), most: int = 4) -> Tree:
    """The tree of a seed."""
    dice = random.Random(seed)
    return Drawer(dice, package, features).tree(dice.randint(1, most))
