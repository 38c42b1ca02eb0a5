"""The copy of one file: what the profile reads stays to the byte, what it leaves out is replaced, and each line stays where it is."""

from __future__ import annotations

from typing import Optional

from .declarations import Annotation, Declaration, Expression, Member, Source, Span, Type
from .kinds import Kinds, StandIn, annotation_text
from .lexer import Token
from .table import NAMED, StandIns, hexadecimal, signed
from .tree import BUILT_IN_IMPORTS, PREFIX, Tree
from .values import Values

# Annotations that no byte and no rule of evolution depends on. Behind `const` they are left out.
OF_NO_BYTE = {
    "EnforcePermission",
    "Hide",
    "JavaDefault",
    "JavaDelegator",
    "JavaDerive",
    "JavaOnlyImmutable",
    "JavaPassthrough",
    "JavaSuppressLint",
    "PermissionManuallyEnforced",
    "PropagateAllowBlocking",
    "RequiresNoPermission",
    "RustDerive",
    "SensitiveData",
    "SuppressWarnings",
    "UnsupportedAppUsage",
}
OF_CONSTANTS = OF_NO_BYTE | {"nullable", "utf8InCpp"}
OF_UNSTRUCTURED = OF_NO_BYTE | {"JavaOnlyStableParcelable", "NdkOnlyStableParcelable", "RustOnlyStableParcelable", "VintfStability"}


class Edits:
    """Replacements of parts of a text, which keep the number of its lines."""

    def __init__(self, text: str):
        self.text = text
        self.made: list[tuple[int, int, str]] = []

    def replace(self, span: Span, new: str) -> None:
        self.made.append((span.start, span.end, new))

    def insert(self, at: int, new: str) -> None:
        self.made.append((at, at, new))

    def applied(self) -> str:
        parts, at = [], 0
        for start, end, new in sorted(self.made, key=lambda one: one[:2]):
            if start < at:
                raise ValueError(f"two edits of one place, {start}")
            parts += [self.text[at:start], new, "\n" * self.text.count("\n", start, end)]
            at = end
        return "".join([*parts, self.text[at:]])


class Copier:
    """Copies the files of one tree. `constants` are the full names of constants with their types in the other trees of the run, and `descriptors` says
    whether any interface of the run has a descriptor of its own."""

    def __init__(self, tree: Tree, made: StandIns, constants: set[tuple[str, str]], descriptors: bool):
        self.tree, self.made, self.constants, self.descriptors = tree, made, constants, descriptors
        self.values = Values(tree)
        self.kinds = Kinds(tree, made, self.values)

    def copied(self, source: Source) -> str:
        """The copy of a file whose declarations have bodies."""
        edits = Edits(source.text.text)
        for one in source.imports:
            if one.full in BUILT_IN_IMPORTS:
                self.made.count(f"import {one.full};", "left out, since the type is built in")
                edits.replace(one.span, "")
        for declaration in source.all():
            self.declaration(edits, declaration)
        return edits.applied()

    def declaration(self, edits: Edits, declaration: Declaration) -> None:
        text = declaration.source.text
        if not declaration.structured:
            text.refuse(declaration.start, "a declaration without a body inside or beside another one")
        if declaration.parameters:
            text.refuse(declaration.start, f"{declaration.full} is generic and has a body: what its arguments change isn't known")
        if declaration.kind == "interface" and self.descriptors:
            self.descriptor(edits, declaration)
        for member in declaration.members:
            if member.kind == "constant":
                self.constant(edits, declaration, member)
            elif member.kind == "method":
                self.method(edits, declaration, member)
            elif member.kind == "field":
                self.field(edits, declaration, member)

    def descriptor(self, edits: Edits, declaration: Declaration) -> None:
        """The descriptor of an interface as a constant, which is its full name where no annotation says another."""
        value = declaration.full
        for one in declaration.annotations:
            if one.name == "Descriptor":
                value = self.said(declaration, one)
                edits.replace(one.span, "")
        self.made.count("descriptor of an interface", f"a String {PREFIX}DESCRIPTOR")
        edits.insert(declaration.body, f' const String {PREFIX}DESCRIPTOR = "{value}";')

    @staticmethod
    def said(declaration: Declaration, annotation: Annotation) -> str:
        """The descriptor that an annotation says, of strings with `+` between them."""
        tokens = list(annotation.parameters)
        if [token.text for token in tokens[:2]] == ["value", "="]:
            tokens = tokens[2:]
        strings, signs = tokens[::2], tokens[1::2]
        plain = all(token.kind == "string" and "\\" not in token.text and token.text.isascii() for token in strings)
        if not strings or len(strings) != len(signs) + 1 or not plain or any(token.text != "+" for token in signs):
            declaration.source.text.refuse(annotation.span.start, "a descriptor that isn't understood")
        return "".join(token.text[1:-1] for token in strings)

    # Members

    def replace(self, edits: Edits, scope: Declaration, type_: Type, fixed_size: bool = False) -> Optional[StandIn]:
        """Writes the stand-in of a type in its place, if it has one."""
        found = self.kinds.stand_in(scope, type_, fixed_size)
        if found:
            edits.replace(type_.span, found.text)
            for one in type_.annotations if found.kind == "fixed" else ():
                if one.name == "utf8InCpp":
                    edits.replace(one.span, "")
        return found

    def method(self, edits: Edits, scope: Declaration, member: Member) -> None:
        moved = [one for one in member.behind if one.span.start >= member.span.start]
        for one in moved:
            self.made.count(f"@{one.name} behind oneway", "put in front of it")
            edits.replace(one.span, "")
        if moved:
            edits.insert(member.span.start, "".join(annotation_text(one) + " " for one in moved))
        if member.type:
            self.replace(edits, scope, member.type)
        for argument in member.arguments:
            found = self.replace(edits, scope, argument.type)
            if found and found.kind == "value" and not argument.direction:
                edits.insert(argument.start, "in ")

    def constant(self, edits: Edits, scope: Declaration, member: Member) -> None:
        """A constant of a fraction is a String of its bits. Where another tree has a String of that name it is a whole number, so that the two differ."""
        for one in member.behind:
            if one.name in OF_CONSTANTS:
                self.made.count(f"@{one.name} behind const", "left out")
                edits.replace(one.span, "")
        type_ = member.type
        if type_ is None or member.value is None or type_.base not in NAMED or type_.arguments or type_.lengths:
            return
        word, backing, width = type_.base, NAMED[type_.base][1], NAMED[type_.base][2]
        bits = self.values.bits(scope, member.value, word)
        full = f"{scope.full}.{member.name}"
        free = [one for one in ("String", backing) if (full, one) not in self.constants]
        if not free:
            scope.source.text.refuse(member.span.start, f"{full} is a {word} here, and both a String and {backing} in other trees")
        self.made.count(f"const {word}", f"a constant of its bits, {free[0]}")
        edits.replace(type_.span, free[0])
        edits.replace(member.value.span, f'"{word} {bits:x}"' if free[0] == "String" else signed(bits, width))

    def field(self, edits: Edits, scope: Declaration, member: Member) -> None:
        type_ = member.type
        if type_ is None:
            return
        found = self.replace(edits, scope, type_, scope.has("FixedSize"))
        if found is None:
            return
        if found.kind == "fixed":
            self.fixed_default(edits, scope, member, type_)
        elif member.value and found.kind == "number":
            edits.replace(member.value.span, self.numbers(scope, member.value, type_.base))
        elif member.value:
            scope.source.text.refuse(member.value.span.start, f"a value of a type that has none: {type_.base}")

    def numbers(self, scope: Declaration, value: Expression, word: str) -> str:
        """The enumerators of an initializer, of one fraction or of a list of them."""
        parts = elements(value)
        if parts is None:
            return self.made.value(word, self.values.bits(scope, value, word))
        return "{" + ", ".join(self.made.value(word, self.values.bits(scope, one, word)) for one in parts) + "}"

    # Arrays with lengths

    def fixed_default(self, edits: Edits, scope: Declaration, member: Member, type_: Type) -> None:
        """The default of an array with lengths as a constant beside the field, so that another one is a change."""
        default = "null" if member.is_nullable() else "default"
        if member.value and member.assigned:
            if scope.kind == "union" and scope.members.index(member) != next(at for at, one in enumerate(scope.members) if one.kind == "field"):
                scope.source.text.refuse(member.value.span.start, "a value of a union's member behind the first")
            edits.replace(member.assigned, "")
            plain: list[bool] = []
            default = self.array(scope, member.value, type_.base, plain)
            if all(plain) and not member.is_nullable():
                default = "default"
        edits.insert(member.span.end, f' const String {PREFIX}DEFAULT_{member.name} = "{default}";')

    def array(self, scope: Declaration, value: Expression, base: str, plain: list[bool]) -> str:
        """The text of an initializer; `plain` takes of each value whether it is a 0, false or an empty text."""
        parts = elements(value)
        if parts is not None:
            return "{" + ",".join(self.array(scope, one, base, plain) for one in parts) + "}"
        text = self.element(scope, value, base)
        plain.append(text in ("0", "false", "s"))
        return text

    def element(self, scope: Declaration, value: Expression, base: str) -> str:
        if base in NAMED:
            return f"{self.values.bits(scope, value, base):x}"
        first: Token = value.tokens[0]
        if len(value.tokens) == 1 and base == "boolean" and first.text in ("true", "false"):
            return first.text
        if len(value.tokens) == 1 and (first.kind, base) in (("string", "String"), ("character", "char")):
            return first.kind[0] + hexadecimal(scope.source.text, first.start + 1, first.end - 1)
        if base in ("boolean", "String", "char"):
            scope.source.text.refuse(first.start, "a value of an array that isn't understood")
        return str(self.values.whole(scope, value))


def elements(value: Expression) -> Optional[list[Expression]]:
    """The values of a brace list, or None where an expression isn't one."""
    if value.tokens[0].text != "{":
        return None
    found: list[tuple[Token, ...]] = []
    start, depth, last = 1, 0, len(value.tokens) - 1
    for at, token in enumerate(value.tokens):
        depth += (token.text in ("{", "(")) - (token.text in ("}", ")"))
        if depth == 0 and at < last:
            return None
        if at == last or depth == 1 and token.text == ",":
            found.append(value.tokens[start:at])
            start = at + 1
    if not found[-1]:
        found.pop()  # a comma may close the list
    return [Expression(one) for one in found] if depth == 0 and all(found) else None


def unstructured(source: Source, made: StandIns) -> dict[str, str]:
    """The copies of a file whose declarations have no body: one for each name, since `parcelable A.B;` stands inside `A`. Each begins at the line of the
    first declaration."""
    tops: dict[str, dict] = {}
    edits = Edits(source.text.text)
    for one in source.declarations:
        for annotation in one.annotations:
            if annotation.name not in OF_UNSTRUCTURED:
                source.text.refuse(annotation.span.start, f"an annotation that isn't known here: @{annotation.name}")
        if one.kind != "parcelable" or one.structured:
            source.text.refuse(one.start, "a declaration beside one without a body")
        node = tops
        for part in one.name.split("."):
            node = node.setdefault(part, {})
        node[""] = one.has("VintfStability"), made.body(f"parcelable {one.full};")
        edits.replace(Span(one.start, one.end + 1), "")
    folder = source.text.path.rpartition("/")[0]
    first = source.declarations[0].start
    copies = {}
    for name, node in tops.items():
        copy = Edits(edits.text)
        copy.made = [*edits.made, (first, first, nested(name, node))]
        copies[f"{folder}/{name}.aidl" if folder else f"{name}.aidl"] = copy.applied()
    return copies


def nested(name: str, node: dict) -> str:
    """The text of a parcelable that has others inside it."""
    stable, body = node.get("", (False, "{ }"))
    inside = "".join(" " + nested(part, below) for part, below in node.items() if part)
    return f"{'@VintfStability ' if stable else ''}parcelable {name} {body[:-1].rstrip()}{inside} }}"
