"""Changes of a tree, legal or breaking: from one version to the next."""
import random
from typing import Callable, Dict, List, Optional, Tuple

from .draw import PRIMITIVES, Drawer
from .trees import Argument, Constant, Declaration, Enumerator, Field, Method, Tree, Type

Edit = Callable[["Editor"], bool]
# annotations that no reader of bytes sees, and that Android 14's compiler takes at a parcelable and at a union
UNSEEN = ["@JavaDerive(toString=true)", "@JavaDerive(equals=true)", "@UnsupportedAppUsage"]


class Editor:
    """One tree that is being changed, with the names that are known in it."""

    def __init__(self, dice: random.Random, tree: Tree):
        self.dice, self.tree = dice, tree
        self.drawer = Drawer(dice, tree.package)
        self.drawer.number = 1000
        self.drawer.known = [(name, declaration) for name, declaration in tree.walk() if declaration.kind != "interface"]

    def some(self, *kinds: str, least: int = 0) -> Optional[Declaration]:
        """A declaration of one of the kinds with at least so many members."""
        fitting = [declaration for _, declaration in self.tree.walk() if declaration.kind in kinds and len(declaration.members) >= least]
        return self.dice.choice(fitting) if fitting else None

    def member(self, *kinds: str) -> Tuple[Optional[Declaration], int]:
        """A declaration and the place of one of its members; None where there is none."""
        owner = self.some(*kinds, least=1)
        return owner, self.dice.randrange(len(owner.members)) if owner else 0

    def field(self) -> Optional[Field]:
        """A field of a parcelable or a union."""
        owner, place = self.member("parcelable", "union")
        return owner.members[place] if owner else None

    def method(self, has_arguments: bool = False) -> Optional[Method]:
        """A method, one with arguments where that is asked for."""
        fitting = [method for _, owner in self.tree.walk() if owner.kind == "interface" for method in owner.members if method.arguments or not has_arguments]
        return self.dice.choice(fitting) if fitting else None

    def typed(self) -> Optional[Type]:
        """The type of a field, an argument or a result."""
        types = [kind for _, owner in self.tree.walk() for kind in owner.types()]
        return self.dice.choice(types) if types else None


def remove_type(edit: Editor) -> bool:
    """A declaration goes away."""
    owners = [edit.tree.declarations] + [declaration.nested for _, declaration in edit.tree.walk() if declaration.nested]
    fitting = [owner for owner in owners if owner]
    if not fitting:
        return False
    owner = edit.dice.choice(fitting)
    owner.pop(edit.dice.randrange(len(owner)))
    return True


def add_type(edit: Editor) -> bool:
    """A declaration comes."""
    edit.tree.declarations.append(edit.drawer.declaration(edit.tree.package, 0))
    return True


def change_kind(edit: Editor) -> bool:
    """A parcelable becomes a union, or the other way."""
    owner = edit.some("parcelable", "union", least=1)
    if owner is None:
        return False
    owner.kind = "union" if owner.kind == "parcelable" else "parcelable"
    for field in owner.members[1:] if owner.kind == "union" else []:
        field.default = None
    return True


def add_method(edit: Editor) -> bool:
    """A method comes behind the others."""
    owner = edit.some("interface")
    if owner is None:
        return False
    method = edit.drawer.method(owner.is_oneway)
    if owner.members and owner.members[0].id is not None:
        method.id = owner.members[-1].id + 1
    owner.members.append(method)
    return True


def remove_method(edit: Editor) -> bool:
    """A method goes away."""
    owner, place = edit.member("interface")
    if owner:
        owner.members.pop(place)
    return owner is not None


def move_method(edit: Editor) -> bool:
    """Two methods change places."""
    owner = edit.some("interface", least=2)
    if owner:
        owner.members.reverse()
    return owner is not None


def rename_method(edit: Editor) -> bool:
    """A method has another name."""
    method = edit.method()
    if method:
        method.name = edit.drawer.name("m")
    return method is not None


def change_id(edit: Editor) -> bool:
    """Ids are written, or are one more than before."""
    owner = edit.some("interface", least=1)
    if owner is None:
        return False
    step = edit.dice.choice([0, 1])
    for place, method in enumerate(owner.members):
        method.id = (place if method.id is None else method.id) + step
    return True


def change_result(edit: Editor) -> bool:
    """A method answers another type."""
    method = edit.method()
    if method is None or method.is_oneway or any(method in owner.members and owner.is_oneway for _, owner in edit.tree.walk()):
        return False
    method.result = edit.drawer.type() if edit.dice.random() < 0.8 else None
    return True


def add_argument(edit: Editor) -> bool:
    """A method takes one argument more."""
    method = edit.method()
    if method:
        method.arguments.append(edit.drawer.argument(True))
    return method is not None


def remove_argument(edit: Editor) -> bool:
    """A method takes one argument less."""
    method = edit.method(True)
    if method:
        method.arguments.pop()
    return method is not None


def change_argument(edit: Editor) -> bool:
    """An argument has another type."""
    method = edit.method(True)
    if method:
        place = edit.dice.randrange(len(method.arguments))
        method.arguments[place] = edit.drawer.argument(True)
    return method is not None


def rename_argument(edit: Editor) -> bool:
    """An argument has another name."""
    method = edit.method(True)
    if method:
        edit.dice.choice(method.arguments).name = edit.drawer.name("a")
    return method is not None


def change_direction(edit: Editor) -> bool:
    """An argument goes another way."""
    method = edit.method(True)
    if method is None:
        return False
    argument: Argument = edit.dice.choice(method.arguments)
    argument.direction = edit.dice.choice(["in", "out", "inout"])
    return True


def change_oneway(edit: Editor) -> bool:
    """A method becomes oneway, or isn't any more."""
    method = edit.method()
    if method is None or method.result or any(argument.direction not in ("", "in") for argument in method.arguments):
        return False
    method.is_oneway = not method.is_oneway
    return True


def add_field(edit: Editor) -> bool:
    """A field comes behind the others."""
    owner = edit.some("parcelable", "union")
    if owner is None:
        return False
    field = edit.drawer.field("@FixedSize" in owner.annotations)
    if field.type.base == f"{edit.tree.package}.{owner.name}":
        return False
    field.default = None if owner.kind == "union" else field.default
    owner.members.append(field)
    return True


def insert_field(edit: Editor) -> bool:
    """A field comes before the others."""
    owner = edit.some("parcelable", "union", least=1)
    if owner is None:
        return False
    owner.members.insert(0, Field(Type(edit.dice.choice(PRIMITIVES)), edit.drawer.name("f")))
    if owner.kind == "union":
        owner.members[1].default = None
    return True


def remove_field(edit: Editor) -> bool:
    """A field goes away."""
    owner = edit.some("parcelable", "union", least=2)
    if owner:
        owner.members.pop()
    return owner is not None


def swap_fields(edit: Editor) -> bool:
    """Two fields change places."""
    owner = edit.some("parcelable", "union", least=2)
    if owner is None:
        return False
    place = edit.dice.randrange(len(owner.members) - 1)
    members = owner.members
    members[place], members[place + 1] = members[place + 1], members[place]
    if owner.kind == "union":
        for field in members[1:]:
            field.default = None
    return True


def rename_field(edit: Editor) -> bool:
    """A field has another name."""
    field = edit.field()
    if field:
        field.name = edit.drawer.name("f")
    return field is not None


def change_field(edit: Editor) -> bool:
    """A field has another type."""
    owner, place = edit.member("parcelable", "union")
    if owner is None:
        return False
    other = edit.drawer.field("@FixedSize" in owner.annotations)
    other.default = None if owner.kind == "union" else other.default
    owner.members[place] = Field(other.type, owner.members[place].name, other.default)
    return True


def change_default(edit: Editor) -> bool:
    """A field has another initializer, or none."""
    owner, place = edit.member("parcelable")
    if owner is None:
        return False
    field = owner.members[place]
    field.default = edit.drawer.default(field.type) if edit.dice.random() < 0.6 else None
    return True


def write_default(edit: Editor) -> bool:
    """The plain default of a field is written, or isn't any more."""
    owner, place = edit.member("parcelable")
    if owner is None:
        return False
    field = owner.members[place]
    plain = {"boolean": "false", "byte": "0", "int": "0", "long": "0", "String": '""'}.get(field.type.base)
    plain = "{}" if field.type.shape == "array" and plain else plain if field.type.shape == "one" else None
    if plain is None or field.type.nullable:
        return False
    field.default = plain if field.default is None else None
    return True


def change_fixed(edit: Editor) -> bool:
    """@FixedSize comes or goes."""
    owner = edit.some("parcelable", "union")
    return owner is not None and toggled(owner.annotations, "@FixedSize")


def change_dropped(edit: Editor) -> bool:
    """An annotation that no reader of bytes sees comes or goes."""
    owner = edit.some("parcelable", "union")
    return owner is not None and toggled(owner.annotations, edit.dice.choice(UNSEEN))


def toggled(annotations: List[str], annotation: str) -> bool:
    """Takes the annotation away where it is, and puts it where it isn't."""
    if annotation in annotations:
        annotations.remove(annotation)
    else:
        annotations.append(annotation)
    return True


def change_backing(edit: Editor) -> bool:
    """An enum is backed by another type."""
    owner = edit.some("enum")
    if owner:
        owner.backing = edit.dice.choice([None, "byte", "int", "long"])
    return owner is not None


def add_enumerator(edit: Editor) -> bool:
    """An enumerator comes behind the others."""
    owner = edit.some("enum")
    if owner:
        owner.members.append(Enumerator(edit.drawer.name("E")))
    return owner is not None


def insert_enumerator(edit: Editor) -> bool:
    """An enumerator comes before the others."""
    owner = edit.some("enum")
    if owner:
        owner.members.insert(0, Enumerator(edit.drawer.name("E"), "0"))
    return owner is not None


def remove_enumerator(edit: Editor) -> bool:
    """An enumerator goes away."""
    owner = edit.some("enum", least=2)
    if owner:
        owner.members.pop(edit.dice.randrange(len(owner.members)))
    return owner is not None


def change_enumerator(edit: Editor) -> bool:
    """An enumerator has another value."""
    owner, place = edit.member("enum")
    if owner:
        owner.members[place].value = str(edit.dice.randint(0, 100))
    return owner is not None


def change_constant(edit: Editor) -> bool:
    """A constant comes, goes, or has another value."""
    owner = edit.some("parcelable", "union", "interface")
    if owner is None:
        return False
    if owner.constants and edit.dice.random() < 0.7:
        constant = owner.constants.pop()
        if edit.dice.random() < 0.7:
            owner.constants.append(Constant(constant.type, constant.name, edit.drawer.single(constant.type.base) or "0"))
    else:
        owner.constants.append(edit.drawer.constant())
    return True


def change_nullable(edit: Editor) -> bool:
    """A type may be null, or may not any more."""
    drawn = edit.typed()
    if drawn is None or (drawn.shape == "one" and (drawn.base in PRIMITIVES or edit.drawer.kind_of(drawn.base) == "enum")):
        return False
    drawn.nullable = not drawn.nullable
    return True


def change_heap(edit: Editor) -> bool:
    """A nullable parcelable is kept on the heap, or isn't any more."""
    fields = [field for _, owner in edit.tree.walk() if owner.kind in ("parcelable", "union") for field in owner.members]
    fitting = [field.type for field in fields if field.type.nullable and field.type.shape == "one" and field.type.base != "String"]
    if not fitting:
        return False
    drawn = edit.dice.choice(fitting)
    drawn.heap = not drawn.heap
    return True


def change_utf8(edit: Editor) -> bool:
    """A String is read as UTF-8 by C++, or isn't any more."""
    drawn = edit.typed()
    if drawn is None or drawn.base != "String":
        return False
    drawn.utf8 = not drawn.utf8
    return True


def move_declarations(edit: Editor) -> bool:
    """Constants and nested declarations have another order."""
    for _, declaration in edit.tree.walk():
        declaration.constants.reverse()
        declaration.nested.reverse()
    return True


EDITS: Dict[str, Edit] = {edit.__name__: edit for edit in (
    remove_type, add_type, change_kind, add_method, remove_method, move_method, rename_method, change_id, change_result, add_argument, remove_argument,
    change_argument, rename_argument, change_direction, change_oneway, add_field, insert_field, remove_field, swap_fields, rename_field, change_field,
    change_default, write_default, change_fixed, change_dropped, change_backing, add_enumerator, insert_enumerator, remove_enumerator,
    change_enumerator, change_constant, change_nullable, change_heap, change_utf8, move_declarations)}


def edited(dice: random.Random, tree: Tree, wanted: int) -> Tuple[Tree, List[str]]:
    """The next version: so many edits that could be made, with their names."""
    editor, names = Editor(dice, tree.copy()), []
    for _ in range(40):
        if len(names) == wanted:
            break
        name = dice.choice(list(EDITS))
        if EDITS[name](editor):
            names.append(name)
    return editor.tree, names
