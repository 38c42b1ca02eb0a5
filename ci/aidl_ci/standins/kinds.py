"""What stands for a type: one stand-in for each resolved full text of a type that the profile leaves out."""

from __future__ import annotations

from dataclasses import dataclass
from typing import Optional

from .declarations import Annotation, Declaration, Expression, Type
from .table import NAMED, StandIns
from .tree import BUILT_IN, READ, Tree
from .values import Values

# Lists of these are read: of `String` as it is, of the others with the stand-in of an element.
LISTED = {"IBinder", "ParcelFileDescriptor"}


@dataclass(frozen=True)
class StandIn:
    """What is written in the place of a type. `kind` is what it stands for: "number", "value", "fixed" for an array with lengths, or "many" for another
    array or a `List`."""

    text: str
    kind: str


class Kinds:
    """The stand-ins of a tree's types."""

    def __init__(self, tree: Tree, made: StandIns, values: Values):
        self.tree, self.made, self.values = tree, made, values

    def stand_in(self, scope: Declaration, type_: Type, fixed_size: bool = False) -> Optional[StandIn]:
        """What stands for a type, or None where the profile reads it. `fixed_size`: it is a field's of a type with `@FixedSize`."""
        if type_.is_fixed():
            return self.fixed(scope, type_, fixed_size)
        if type_.base == "List":
            return self.of_list(scope, type_)
        brackets = "[]" * len(type_.lengths)
        if type_.base in NAMED and not type_.arguments:
            return StandIn(self.made.number(type_.base) + brackets, "number")
        text = self.left_out(scope, type_)
        if text is None:
            return None
        if text == "ParcelableHolder":
            whole = text + brackets
            return StandIn(self.made.parcelable(whole, array=True), "many")
        return StandIn(self.made.parcelable(text) + brackets, "many" if brackets else "value")

    def fixed(self, scope: Declaration, type_: Type, fixed_size: bool) -> StandIn:
        """An array with lengths, by its base and the values of the lengths."""
        text = ("@utf8InCpp " if type_.has("utf8InCpp") else "") + self.text(scope, type_)
        return StandIn(self.made.parcelable(text, not fixed_size, fixed_size), "fixed")

    def of_list(self, scope: Declaration, type_: Type) -> Optional[StandIn]:
        """A `List`: one of what the profile reads stays, and one of interfaces, binders or file descriptors has their stand-in."""
        element = type_.arguments[0] if len(type_.arguments) == 1 and not type_.lengths else None
        plain = element if element and not (element.arguments or element.lengths or element.annotations) else None
        if plain and (plain.base in LISTED or plain.base not in BUILT_IN):
            text = self.left_out(scope, plain)
            return StandIn(f"List<{self.made.parcelable(text)}>", "many") if text else None
        if plain and plain.base == "String":
            return None
        brackets = "[]" * len(type_.lengths)
        return StandIn(self.made.parcelable(self.text(scope, type_, brackets=False)) + brackets, "many" if brackets else "value")

    def left_out(self, scope: Declaration, type_: Type) -> Optional[str]:
        """The full text of a type without its brackets, if the profile leaves it out, where it is neither `float`, `double` nor a `List`."""
        if type_.base in BUILT_IN:
            return None if type_.base in READ and not type_.arguments else self.text(scope, type_, brackets=False)
        full = self.tree.checked_meaning(scope, type_.base, type_.span.start)
        declared = self.tree.declared[full]
        if type_.arguments:
            return self.text(scope, type_, brackets=False)
        return f"interface {full}" if declared.kind == "interface" else None

    def text(self, scope: Declaration, type_: Type, brackets: bool = True) -> str:
        """The full text of a type: names in full, values in place of lengths, and of the annotations inside it those that are part of a type."""
        base = type_.base
        if base not in BUILT_IN:
            base = self.tree.checked_meaning(scope, base, type_.span.start)
        arguments = ",".join(self.annotated(one) + self.text(scope, one) for one in type_.arguments)
        lengths = ["" if one is None else str(self.length(scope, one)) for one in type_.lengths if brackets]
        return base + (f"<{arguments}>" if type_.arguments else "") + "".join(f"[{one}]" for one in lengths)

    def length(self, scope: Declaration, expression: Expression) -> int:
        found = self.values.whole(scope, expression)
        if found < 0:
            scope.source.text.refuse(expression.span.start, "a length below 0")
        return found

    @staticmethod
    def annotated(type_: Type) -> str:
        """The annotations of a type argument."""
        return "".join(f"{one} " for one in sorted(map(annotation_text, type_.annotations)))


def annotation_text(annotation: Annotation) -> str:
    """An annotation on one line, without comments."""
    parameters = " ".join(token.text for token in annotation.parameters)
    return f"@{annotation.name}({parameters})" if parameters else f"@{annotation.name}"
