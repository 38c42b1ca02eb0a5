"""One cause, one entry: which lines of the judge one edit gave. A field that is put in the middle breaks a rule at each later one, a method that is
taken out gives the later ones other codes. Each line belongs to exactly one cause."""

from __future__ import annotations

from dataclasses import dataclass, field
from typing import Any, Callable, Iterator, Optional

from ..dump import Declaration, Member
from ..guard import Fault
from .made import Wanted
from .shown import Entry
from .trees import Tree
from .values import big_number

OF_TYPE = ("C1", "C2", "C9", "C14", "C16")
OF_METHOD = ("C5", "C6", "C7", "C8", "C19")
WORDS = {"parcelable": "field", "union": "member", "enum": "enumerator", "interface": "method"}
AT_MOST = 4  # methods of one cause for which calls are made


@dataclass
class Group:
    """The lines of one cause: a sentence that says what was edited, and what a call that shows it has to hold."""

    head: str
    entries: list[Entry]
    wants: list[Wanted] = field(default_factory=list)
    ended: str = ""  # a type whose defaults changed, which a value without its fields shows


@dataclass(frozen=True)
class Edit:
    """What the members of a declaration are before and after: their names in the order that counts."""

    kind: str
    old: tuple[str, ...]
    new: tuple[str, ...]

    def renamed(self) -> Optional[list[tuple[str, str]]]:
        """The pairs of names that stand at one position, if that is all that changed of the positions of old."""
        pairs = [(one, other) for one, other in zip(self.old, self.new) if one != other]
        return pairs if pairs and all(one not in self.new and other not in self.old for one, other in pairs) else None

    def sentence(self) -> str:
        """What was done to the order, in words."""
        word = WORDS[self.kind]
        last = max((self.new.index(name) for name in self.old if name in self.new), default=-1)
        gone = [name for name in self.old if name not in self.new]
        put = [name for name in self.new[: last + 1] if name not in self.old]
        if put and not gone:
            return f"{word} {listed(put)} was put before {self.new[self.new.index(put[-1]) + 1]}"
        if gone and not put:
            return f"{word} {listed(gone)} was taken out"
        if gone:
            return f"{word} {listed(gone)} was taken out, and {listed(put)} was put in"
        moved = [name for name, other in zip((one for one in self.old), (one for one in self.new if one in self.old)) if name != other]
        return f"the {word}s {listed(moved)} were put in another order" if moved else f"the {word}s changed"


def listed(names: list[str]) -> str:
    return ", ".join(names[:6]) + (f" and {len(names) - 6} more" if len(names) > 6 else "")


def owner(entry: Entry, old: Tree) -> str:
    """The declaration that a line is about: of a new field (C13) it is the new one, which has the old one's name."""
    place = entry.rule.place.partition("/")[0]
    if entry.rule.code in OF_TYPE or (entry.rule.code in ("C15", "C19") and place in old.declarations):
        return place
    return place.rpartition(".")[0]


def member_of(entry: Entry) -> str:
    return entry.rule.place.partition("/")[0].rpartition(".")[2]


def groups(old: Tree, new: Tree, entries: list[Entry]) -> list[Group]:
    """All lines by their causes, in the order of their first lines."""
    left = list(entries)
    made = list(removed_types(old, new, left))
    by_owner: dict[str, list[Entry]] = {}
    for one in left:
        by_owner.setdefault(owner(one, old), []).append(one)
    for name, mine in by_owner.items():
        if name not in old.declarations:
            raise Fault(f"{mine[0].rule.line()}: the old tree has no {name}")
        made += of_declaration(old.declarations[name], new.declarations.get(name), mine)
    made = with_defaults_of_enums(old, made)
    order = {one.rule: number for number, one in enumerate(entries)}
    if sorted(order[one.rule] for group in made for one in group.entries) != list(range(len(entries))):
        raise Fault("the causes don't have each line once")
    for group in made:
        group.entries.sort(key=lambda one: order[one.rule])
    return sorted(made, key=lambda group: order[group.entries[0].rule])


def take(left: list[Entry], wanted: Callable[[Entry], bool]) -> list[Entry]:
    """Takes the entries out of a list for which something holds."""
    parts: tuple[list[Entry], list[Entry]] = ([], [])
    for one in left:
        parts[bool(wanted(one))].append(one)
    left[:] = parts[0]
    return parts[1]


# Types that are gone


def removed_types(old: Tree, new: Tree, left: list[Entry]) -> Iterator[Group]:
    """Types that are gone: with what is nested in them, those that moved to another package together, and what used a moved type with it."""
    gone = {one.rule.place: one for one in take(left, lambda one: one.rule.code == "C1")}
    outer = [name for name in gone if not any(name.startswith(other + ".") for other in gone if other != name)]
    moved: dict[tuple[str, str], list[str]] = {}
    for name in outer:
        package, target = package_of(old, name), moved_to(old, new, name)
        if target:
            moved.setdefault((package, target), []).append(name)
            continue
        mine = [gone[one] for one in gone if one == name or one.startswith(name + ".")]
        yield Group(f"{old.declarations[name].kind} {name} is gone", mine, first_method(old, name))
    for (package, target), names in moved.items():
        mine = [gone[one] for one in gone if any(one == name or one.startswith(name + ".") for name in names)]
        mine += take(left, lambda one: uses_moved(old, one, set(names)))
        yield Group(f"package {package} became {target}", mine, first_method(old, names[0]))


def first_method(tree: Tree, name: str) -> list[Wanted]:
    methods = tree.declarations[name].of_kind("method")
    return [of_method(tree.declarations[name], methods[0])] if methods else []


def package_of(tree: Tree, name: str) -> str:
    """The package of an outermost declaration."""
    while name.rpartition(".")[0] in tree.declarations:
        name = name.rpartition(".")[0]
    return name.rpartition(".")[0]


def moved_to(old: Tree, new: Tree, name: str) -> str:
    """The one package in which the new tree has a type of this name and kind that the old one hasn't, or the empty text."""
    package = package_of(old, name)
    tail = name[len(package) :].lstrip(".")
    found = [one for one in new.declarations if one not in old.declarations and one.endswith("." + tail) and new.kind(one) == old.kind(name)]
    targets = {one[: -len(tail) - 1] for one in found if package_of(new, one) == one[: -len(tail) - 1]}
    return targets.pop() if len(targets) == 1 and package else ""


def uses_moved(old: Tree, entry: Entry, names: set[str]) -> bool:
    """A field, an argument or a result whose type is a moved one."""
    place, _, number = entry.rule.place.partition("/")
    member = old.member(place)
    if member is None or entry.rule.code not in ("C5", "C6", "C11", "C15"):
        return False
    if member.kind == "method":
        kind = member.type if entry.rule.code == "C5" else member.arguments[int(number)].type if number else None
    else:
        kind = member.type
    return kind is not None and kind.base in names


# The members of a declaration


def of_declaration(old: Declaration, new: Optional[Declaration], mine: list[Entry]) -> Iterator[Group]:
    """The causes of the lines of one declaration."""
    left = list(mine)
    for entry in take(left, lambda one: one.rule.code in ("C2", "C14", "C16", "C18") or (one.rule.code == "C19" and one.rule.place == old.name)):
        yield alone(old, new, entry)
    if not left:
        return
    if new is None:
        raise Fault(f"{left[0].rule.line()}: the new tree has no {old.name}")
    ways = {"interface": of_interface, "enum": of_enum, "parcelable": of_fields, "union": of_fields}
    yield from ways[old.kind](old, new, left)


def alone(old: Declaration, new: Optional[Declaration], entry: Entry) -> Group:
    code, place = entry.rule.code, entry.rule.place
    wanted = [Wanted(frozenset([old.name]))]
    if code == "C2":
        return Group(f"{old.kind} {old.name} became {an(new.kind if new else 'nothing')}", [entry], wanted)
    if code == "C16":
        numbers = tuple((old.name, big_number(one)) for one in (old, new) if one)
        return Group(f"the backing type of {place} changed", [entry], [Wanted(frozenset([old.name]), None, numbers)])
    told = {"C14": f"{place}: {fixed_size(old, new)}", "C18": f"constant {place} {'changed' if new and member_of(entry) in new.members else 'is gone'}"}
    return Group(told.get(code, f"an annotation of {place} changed"), [entry])


def fixed_size(old: Declaration, new: Optional[Declaration]) -> str:
    """What broke the promise of `@FixedSize`."""
    had, has = (one is not None and "@FixedSize" in one.head for one in (old, new))
    return "fields were added under @FixedSize" if had and has else "@FixedSize was taken off" if had else "@FixedSize was added"


def an(word: str) -> str:
    return f"{'an' if word[0] in 'aeiou' else 'a'} {word}"


def edit_of(old: Declaration, new: Declaration, kind: str) -> Edit:
    """The names of the members in the order that counts: methods by their codes, enumerators by their values, fields as they stand."""
    keys: dict[str, Callable[[Member], Any]] = {"method": lambda one: one.id, "enumerator": lambda one: one.number(), "field": lambda one: 0}
    before, after = (tuple(member.name for member in sorted(one.of_kind(kind), key=keys[kind])) for one in (old, new))
    return Edit(old.kind, before, after)


def of_interface(old: Declaration, new: Declaration, left: list[Entry]) -> Iterator[Group]:
    """Codes that changed are one cause, with the methods that are gone; else each method is one."""
    if any(one.rule.code == "C4" for one in left):
        mine = take(left, lambda one: one.rule.code in ("C3", "C4"))
        wants = [of_method(old, old.members[member_of(one)]) for one in mine[:AT_MOST]]
        edit = edit_of(old, new, "method")
        sentence = "transaction codes changed" if edit.old == edit.new else edit.sentence()
        yield Group(f"{old.name}: {sentence}", mine, wants)
    for name in dict.fromkeys(member_of(one) for one in left):
        mine = [one for one in left if member_of(one) == name]
        codes = {one.rule.code for one in mine}
        told = f"method {name} is gone" if codes == {"C3"} else f"an annotation of method {name} changed" if codes == {"C19"} else f"method {name} changed"
        yield Group(f"{old.name}: {told}", mine, [] if codes == {"C19"} else [of_method(old, old.members[name])])


def of_method(one: Declaration, method: Member) -> Wanted:
    return Wanted(frozenset(argument.type.base for argument in method.arguments) | frozenset([method.type.base] if method.type else []), f"{one.name}.{method.name}")


def of_enum(old: Declaration, new: Declaration, left: list[Entry]) -> Iterator[Group]:
    """Enumerators that are gone are a cause each; where values changed all is one."""
    names = [member_of(one) for one in left]
    wants = [Wanted(frozenset([old.name]), None, ((old.name, name),)) for name in names]
    if not any(name in new.members for name in names):
        for one, wanted in zip(left, wants):
            yield Group(f"{old.name}: enumerator {member_of(one)} is gone", [one], [wanted])
        return
    edit = edit_of(old, new, "enumerator")
    kept = tuple(name for name in edit.old if name in edit.new)
    same = kept == tuple(name for name in edit.new if name in edit.old) and edit.sentence().endswith("changed")
    sentence = f"the values of {listed(names)} changed" if same else edit.sentence()
    yield Group(f"{old.name}: {sentence}", left, [Wanted(frozenset([old.name]), None, tuple((old.name, name) for name in names))])


def of_fields(old: Declaration, new: Declaration, left: list[Entry]) -> Iterator[Group]:
    """Fields of a parcelable, or members of a union: an order that changed is one cause, else each member is."""
    edit = edit_of(old, new, "field")
    changed = {one for one, other in zip(edit.old, edit.new) if one != other}
    renamed = edit.renamed()
    word = WORDS[old.kind]
    if changed and not renamed:
        mine = take(left, lambda one: one.rule.place == old.name or member_of(one) in changed)
        yield Group(f"{old.name}: {edit.sentence()}", mine, [shows(old, sorted(changed, key=edit.old.index))])
    for entry in take(left, lambda one: one.rule.place == old.name):
        gone = [name for name in edit.old if name not in edit.new]
        yield Group(f"{old.name}: {word} {listed(gone)} was taken out", [entry], [shows(old, gone)])
    for name in dict.fromkeys(member_of(one) for one in left):
        mine = [one for one in left if member_of(one) == name]
        codes = {one.rule.code for one in mine}
        became = dict(renamed or []).get(name)
        told = f"{word} {name} {f'became {became}' if became else 'was added' if codes == {'C13'} else 'has another default' if codes == {'C12'} else 'changed'}"
        told = f"an annotation of {word} {name} changed" if codes == {"C19"} else told
        wants = [] if codes <= {"C12", "C13", "C19"} else [shows(old, [name])]
        yield Group(f"{old.name}: {told}", mine, wants, old.name if "C12" in codes else "")


def shows(old: Declaration, names: list[str]) -> Wanted:
    """What shows a change of these members: of a union each of them in turn."""
    return Wanted(frozenset([old.name]), None, tuple((old.name, name) for name in names) if old.kind == "union" else ())


def with_defaults_of_enums(old: Tree, made: list[Group]) -> list[Group]:
    """A default that changed since its enum's values did (C12) belongs to the enum's cause."""
    enums = {owner(group.entries[0], old): group for group in made if group.entries[0].rule.code == "C17"}
    kept = []
    for group in made:
        place = group.entries[0].rule.place
        member = old.member(place)
        target = enums.get(member.type.base) if member and member.type and len(group.entries) == 1 and group.entries[0].rule.code == "C12" else None
        if target:
            target.entries += group.entries
        else:
            kept.append(group)
    return kept
