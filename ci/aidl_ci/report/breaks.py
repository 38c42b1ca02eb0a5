"""What breaks from one version to the next: each cause with its lines, the places and texts of both versions, whom it hurts, why, what to do instead,
and a call or a value that shows it."""

from __future__ import annotations

import re
from dataclasses import dataclass
from typing import Optional

from ..dump import Member
from ..places import Place
from ..rules import Rule, rules
from ..verdicts import RuleLine
from .causes import Group, groups
from .made import Ends, Wanted, requests
from .replies import ended_value, reply, value
from .shown import Entry, Shown, entries, witnessed
from .trees import Tree
from .values import reaching

MARKS = {"C14": ("FixedSize",), "C16": ("Backing",), "C19": ("utf8InCpp", "nullable", "VintfStability")}
AS_IN = re.compile(r", as in (C\d+)")
AT_MOST = 40  # causes for which calls are looked for
NOTHING = "no call or value that was tried shows it; that doesn't mean that calls are safe"
UNTOUCHED = "no byte changes, so no call shows it"
MANY = f"no call was looked for: only the first {AT_MOST} causes are tried"


@dataclass(frozen=True)
class Line:
    """A line of the judge: where its place stands in both versions, and what stands there."""

    rule: RuleLine
    about: Rule
    old: Optional[Place]
    new: Optional[Place]
    old_text: str
    new_text: str

    def at(self) -> Optional[Place]:
        """Where a review tool shows it: in the new version, or in the old one where nothing is left of it."""
        return self.new or self.old


@dataclass
class Cause:
    """What one edit broke."""

    head: str
    lines: list[Line]
    hurt: str
    shown: Optional[Shown]
    none: str

    @property
    def first(self) -> Line:
        return self.lines[0]

    def codes(self) -> list[str]:
        return list(dict.fromkeys(line.rule.code for line in self.lines))

    def harm(self) -> str:
        """What a user notices."""
        if self.shown is None:
            return self.none
        if self.shown.silent and self.shown.misses:
            return "silent: another method runs, and nothing fails"
        if self.shown.silent:
            return "silent: values are read as others, and nothing fails" if self.shown.rows else "silent: nothing fails"
        return {"call": "the call fails", "reply": "the reply can't be read", "value": "the value can't be read"}[self.shown.kind]


def instead(about: Rule) -> str:
    """What to do instead, with what another rule's row says written out."""
    return AS_IN.sub(lambda found: f": {rules()[found[1]].instead}", about.instead)


def causes(ends: Ends) -> list[Cause]:
    """The causes of all lines that `judge` prints, in the order of their first lines."""
    found = entries(ends.room, ends.old, ends.new)
    grouped = groups(ends.old, ends.new, found)
    shown = examples(ends, grouped[:AT_MOST])
    return [cause_of(ends, group, shown[number] if number < len(shown) else None, number < AT_MOST) for number, group in enumerate(grouped)]


def cause_of(ends: Ends, group: Group, shown: Optional[Shown], tried: bool) -> Cause:
    made = [line_of(ends, one) for one in group.entries]
    without = UNTOUCHED if all(line.about.hurt == "builds" for line in made) else NOTHING if tried else MANY
    return Cause(group.head, made, hurt(ends, group), shown, without)


def line_of(ends: Ends, entry: Entry) -> Line:
    code, place = entry.rule.code, entry.rule.place
    other = at_position(ends, code, place)
    where = placed(ends.old, code, place), placed(ends.new, code, other)
    return Line(entry.rule, rules()[code], *where, text_of(ends.old, ends.new, code, place), text_of(ends.new, ends.old, code, other))


def at_position(ends: Ends, code: str, place: str) -> str:
    """The place in the new version: of a field it is the one at its position, since the bytes have no names; else the same."""
    name, _, field = place.rpartition(".")
    if code in ("C10", "C11", "C12", "C15", "C19") and name in ends.old.declarations and name in ends.new.declarations:
        before, after = (tree.declarations[name].of_kind("field") for tree in (ends.old, ends.new))
        position = next((number for number, one in enumerate(before) if one.name == field), len(after))
        return f"{name}.{after[position].name}" if position < len(after) else place
    return place


def placed(tree: Tree, code: str, place: str) -> Optional[Place]:
    """Where a line's place stands: the annotation that it is about, or the name, or what is around it."""
    for mark in MARKS.get(code, ()):
        found = tree.places.annotation(place, mark)
        if found:
            return found
    return tree.places.nearest(place)


def text_of(tree: Tree, other: Tree, code: str, place: str) -> str:
    """What a version says at a place, as its dump has it, or the empty text."""
    method, _, number = place.partition("/")
    if number:
        found = tree.member(method)
        return argument_text(found, int(number)) if found else ""
    if place in tree.declarations and code in ("C1", "C2", "C9", "C14", "C15", "C16", "C19"):
        return declaration_text(tree, other, code, place)
    member = tree.member(place)
    return member.text if member else ""


def declaration_text(tree: Tree, other: Tree, code: str, place: str) -> str:
    """The head of a declaration; where fields are fewer those that the other version lacks."""
    one = tree.declarations[place]
    if code in ("C9", "C15") and place in other.declarations:
        return "; ".join(each.text for each in one.of_kind("field") if each.name not in other.declarations[place].members)
    return one.head


def argument_text(method: Member, number: int) -> str:
    if number >= len(method.arguments):
        return ""
    inside = method.text[method.text.index("(") + 1 : method.text.rindex(")")]
    return inside.split(", ")[number]


def hurt(ends: Ends, group: Group) -> str:
    """Whom the cause hurts, by its rules and by whether requests or replies carry the type."""
    kinds = {rules()[one.rule.code].hurt for one in group.entries}
    if kinds == {"builds"}:
        return "who builds against the new version"
    if "both" in kinds:
        return "old clients and new clients"
    if kinds <= {"old clients", "builds"}:
        return "old clients"
    names = {one.rule.place for one in group.entries if one.rule.place in ends.old.declarations} | {one.rule.place.rpartition(".")[0] for one in group.entries}
    asked, answered = carried(ends.old, names)
    return "old clients and new clients" if asked and answered else "old clients" if asked else "new clients" if answered else "who reads what an old version wrote; no method carries it"


def carried(tree: Tree, names: set[str]) -> tuple[bool, bool]:
    """Whether requests carry one of these types, and whether replies do."""
    towards = reaching(tree, names)
    methods = [method for one in tree.declarations.values() for method in one.of_kind("method")]
    asked = any(one.type.base in towards for method in methods for one in method.arguments if one.direction != "out")
    back = any(one.type.base in towards for method in methods for one in method.arguments if one.direction != "in")
    return asked, back or any(method.type.base in towards for method in methods if method.type)


def examples(ends: Ends, grouped: list[Group]) -> list[Optional[Shown]]:
    """Of each cause a call or a value: that of `witness`, or a request, a reply or a value made for it."""
    shown = []
    for number, group in enumerate(grouped, 1):
        ends.room.progress.say(f"calls for break {number} of {len(grouped)}")
        shown.append(of_witness(ends, group))
    wants = [(number, wanted) for number, group in enumerate(grouped) if shown[number] is None for wanted in group.wants]
    made = requests(ends, [wanted for _, wanted in wants])
    for (number, _), one in zip(wants, made):
        if one and (shown[number] is None or (one.silent and not shown[number].silent)):
            shown[number] = one
    return [one or otherwise(ends, group) for one, group in zip(shown, grouped)]


def of_witness(ends: Ends, group: Group) -> Optional[Shown]:
    """The first call of `witness` in which nothing fails, else the first."""
    with_call = [one for one in group.entries if not one.lines[0].startswith("none ")]
    silent = [one for one in with_call if one.lines[1].startswith(("read called ", "read returned "))]
    return witnessed(ends.room, (silent or with_call)[0], ends.old, ends.new) if with_call else None


def otherwise(ends: Ends, group: Group) -> Optional[Shown]:
    """A reply, or else a value."""
    for wanted in group.wants:
        found = reply(ends, wanted) or (value(ends, wanted, next(iter(wanted.names))) if not wanted.method else None)
        if found:
            return found
    if group.ended:
        wanted = group.wants[0] if group.wants else of_type(group.ended)
        return ended_value(ends, group.ended, wanted)
    return None


def of_type(name: str) -> Wanted:
    return Wanted(frozenset([name]))
