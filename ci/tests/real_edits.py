#!/usr/bin/env python3
"""Edits of real source, of which it is known by construction whether the new tree may follow the old one: each is judged over copies with stand-ins, and
beside Android's own `--checkapi` if its compiler is named. Prints what came of each kind; exit 1 where an answer is false, or where Android's tool
differs in another way than the kind says."""

from __future__ import annotations

import collections
import os
import random
import re
import subprocess
import sys
import tempfile
from concurrent.futures import ThreadPoolExecutor
from dataclasses import dataclass, field
from typing import Callable, Iterator, Optional

sys.dont_write_bytecode = True
from real_modules import Alone, questions, roots_of  # noqa: E402

from aidl_ci.guard import Fault, arguments, run  # noqa: E402
from aidl_ci.program import Program  # noqa: E402
from aidl_ci.standins import stage  # noqa: E402
from aidl_ci.standins.copier import Edits  # noqa: E402
from aidl_ci.standins.declarations import Argument, Declaration, Member, Source, Span, Type  # noqa: E402
from aidl_ci.standins.tree import LEFT_OUT  # noqa: E402

Files = dict[str, str]
NEW = "standInTest"  # a name that no source has
BASES = {"float": "int", "double": "long", "int": "float", "long": "double", "IBinder": "String", "ParcelFileDescriptor": "String", "CharSequence": "IBinder"}


@dataclass
class Case:
    """A real tree: its files with what they import, and the file that is edited."""

    tree: Alone
    path: str
    draw: random.Random

    @property
    def source(self) -> Source:
        return self.tree.sources[self.path]

    @property
    def text(self) -> str:
        return self.source.text.text

    def changed(self, *made: tuple[Span, str]) -> Files:
        edits = Edits(self.text)
        for span, new in made:
            edits.replace(span, new)
        return {self.path: edits.applied()}

    def members(self, kind: str, *above: str) -> list[tuple[Declaration, Member]]:
        return [(one, member) for one in self.source.all() if one.kind in above for member in one.members if member.kind == kind]

    def one(self, among: list):
        return self.draw.choice(among) if among else None

    def arguments(self) -> list[tuple[Declaration, Argument]]:
        return [(one, argument) for one, member in self.members("method", "interface") for argument in member.arguments]

    def kind(self, scope: Declaration, type_: Type) -> str:
        """The kind of declaration that a type means, or ""."""
        found = self.tree.declared.get(self.tree.meaning(scope, type_.base) or "")
        return found.kind if found else ""

    def numbered(self, declaration: Declaration) -> bool:
        """Whether the methods of an interface have numbers."""
        return any(re.search(r"\)\s*=", self.text[one.span.start : one.span.end]) for one in declaration.members if one.kind == "method")


def whole(member: Member) -> Span:
    """A member with the annotations in front of it."""
    return Span(min([member.span.start, *(one.span.start for one in member.annotations)]), member.span.end)


def at(place: int) -> Span:
    return Span(place, place)


# What breaks


def another_type(case: Case) -> Optional[Files]:
    fields = [(one, member.type) for one, member in case.members("field", "parcelable", "union") if not member.value]
    results = [(one, member.type) for one, member in case.members("method", "interface")]
    sent = [(one, argument.type) for one, argument in case.arguments() if argument.direction in ("", "in")]
    found = [(one, type_) for one, type_ in fields + results + sent if type_ and not (type_.annotations or type_.arguments or type_.lengths)]
    usable = [(type_, BASES.get(type_.base) or "IBinder") for one, type_ in found if type_.base in BASES or case.kind(one, type_) == "interface"]
    picked = case.one(usable)
    return case.changed((picked[0].span, picked[1])) if picked else None


def without_method(case: Case) -> Optional[Files]:
    picked = case.one(case.members("method", "interface"))
    return case.changed((whole(picked[1]), "")) if picked else None


def method_in_front(case: Case) -> Optional[Files]:
    picked = case.one([(one, member) for one, member in case.members("method", "interface") if not case.numbered(one)])
    return case.changed((at(whole(picked[1]).start), f"void {NEW}(IBinder a, float b); ")) if picked else None


def argument_more(case: Case) -> Optional[Files]:
    picked = case.one([member for _, member in case.members("method", "interface") if member.arguments])
    if not picked:
        return None
    last = picked.arguments[-1]
    end = case.text.index(last.name, last.type.span.end) + len(last.name)
    return case.changed((at(end), f", IBinder {NEW}"))


def may_be_null(case: Case) -> Optional[Files]:
    plain = [(one, argument.type) for one, argument in case.arguments() if not argument.type.annotations]
    found = [type_ for one, type_ in plain if type_.base in ("IBinder", "String") or case.kind(one, type_) in ("interface", "parcelable")]
    picked = case.one(found)
    return case.changed((at(picked.span.start), "@nullable ")) if picked else None


def without_field(case: Case) -> Optional[Files]:
    picked = case.one(case.members("field", "parcelable"))
    return case.changed((whole(picked[1]), "")) if picked else None


def fields_turned(case: Case) -> Optional[Files]:
    fields = [[each for each in one.members if each.kind == "field"] for one in case.source.all() if one.kind == "parcelable"]
    picked = case.one([pair for each in fields for pair in zip(each, each[1:])])
    if not picked:
        return None
    first, second = map(whole, picked)
    return case.changed((first, case.text[second.start : second.end]), (second, case.text[first.start : first.end]))


def another_package(case: Case) -> Optional[Files]:
    """What is imported is exchanged for the same text in another package."""
    used = {type_.base for one in case.source.all() for type_ in one.types()}
    found = [one for one in case.source.imports if one.last in used and one.full in case.tree.declared]
    found = [one for one in found if not case.tree.declared[one.full].structured and "." not in case.tree.declared[one.full].name]
    picked = case.one(found)
    if not picked:
        return None
    made = case.changed((picked.span, f"import other.{picked.full};"))
    package = picked.full.rpartition(".")[0]
    made[f"other/{picked.full.replace('.', '/')}.aidl"] = f"package other.{package};\nparcelable {picked.last};\n"
    return made


def oneway(case: Case) -> Optional[Files]:
    plain = [member for one, member in case.members("method", "interface") if member.type and member.type.base == "void" and "oneway interface" not in case.text]
    plain = [member for member in plain if not member.annotations and not any(argument.direction in ("out", "inout") for argument in member.arguments)]
    picked = case.one([member for member in plain if not case.text.startswith("oneway", member.span.start)])
    return case.changed((at(picked.span.start), "oneway ")) if picked else None


def with_body(case: Case) -> Optional[Files]:
    """A parcelable without a body is given an empty one."""
    found = [path for path, source in case.tree.sources.items() if path != case.path and len(source.declarations) == 1 and not source.declarations[0].structured]
    found = [path for path in found if "." not in case.tree.sources[path].declarations[0].name and not case.tree.sources[path].declarations[0].parameters]
    path = case.one(sorted(found))
    if not path:
        return None
    source = case.tree.sources[path]
    one = source.declarations[0]
    return {path: f"package {source.package};\nparcelable {one.name} {{ }}\n"}


def other_number(case: Case) -> Optional[Files]:
    found = [member.value for _, member in case.members("constant", "interface", "parcelable") if member.type and member.type.base in ("int", "float", "double") and member.value]
    picked = case.one([one for one in found if one and len(one.tokens) == 1 and one.tokens[0].kind == "number"])
    if not picked:
        return None
    fraction = "." in picked.tokens[0].text or picked.tokens[0].text.lower().endswith("f") and "x" not in picked.tokens[0].text.lower()
    return case.changed((picked.span, "77.25f" if fraction else "7725"))


def other_descriptor(case: Case) -> Optional[Files]:
    picked = case.one([one for one in case.source.declarations if one.kind == "interface" and not one.has("Descriptor")])
    return case.changed((at(picked.start), f'@Descriptor(value="other.{picked.full}") ')) if picked else None


def other_element(case: Case) -> Optional[Files]:
    types = [type_ for one in case.source.all() for type_ in one.types() if type_.base in ("List", "Map") and type_.arguments]
    picked = case.one(types)
    return case.changed((picked.arguments[-1].span, "IBinder" if picked.arguments[-1].base != "IBinder" else "String")) if picked else None


def without_enumerator(case: Case) -> Optional[Files]:
    picked = case.one([member for one, member in case.members("enumerator", "enum") if len(one.members) > 1])
    return case.changed((Span(picked.span.start, picked.span.start + len(picked.name)), NEW)) if picked else None


# What doesn't break


def unchanged(case: Case) -> Optional[Files]:
    return {}


def method_at_the_end(case: Case) -> Optional[Files]:
    picked = case.one([one for one in case.source.all() if one.kind == "interface" and not case.numbered(one) and "oneway interface" not in case.text])
    return case.changed((at(picked.end), f"IBinder {NEW}(IBinder a, float b, in ParcelFileDescriptor c, in Map<String, String> d);\n")) if picked else None


def field_at_the_end(case: Case) -> Optional[Files]:
    picked = case.one([one for one in case.source.all() if one.kind == "parcelable" and not one.has("FixedSize")])
    return case.changed((at(picked.end), f"@nullable IBinder {NEW}; float {NEW}2 = 1.5f; double {NEW}3;\n")) if picked else None


def argument_renamed(case: Case) -> Optional[Files]:
    picked = case.one([argument for _, argument in case.arguments()])
    if not picked:
        return None
    start = case.text.index(picked.name, picked.type.span.end)
    return case.changed((Span(start, start + len(picked.name)), NEW))


def blanks(case: Case) -> Optional[Files]:
    return case.changed(*((at(type_.span.start), " /* a\n comment */ ") for one in case.source.all() for type_ in one.types()))


def full_names(case: Case) -> Optional[Files]:
    made = []
    for one in case.source.all():
        for type_ in one.types():
            full = case.tree.meaning(one, type_.base)
            if full and full != type_.base and not type_.base.count("."):
                made.append((Span(type_.span.start, type_.span.start + len(type_.base)), full))
    return case.changed(*made) if made else None


def imports_turned(case: Case) -> Optional[Files]:
    spans = [one.span for one in case.source.imports]
    texts = [case.text[span.start : span.end] for span in reversed(spans)]
    return case.changed(*zip(spans, texts)) if len(spans) > 1 else None


def direction(case: Case) -> Optional[Files]:
    plain = [(one, argument) for one, argument in case.arguments() if not argument.direction and not argument.type.lengths]
    found = [argument for one, argument in plain if argument.type.base in ("IBinder", "CharSequence") or case.kind(one, argument.type) == "interface"]
    return case.changed(*((at(one.start), "in ") for one in found)) if found else None


def new_type(case: Case) -> Optional[Files]:
    folder, package = os.path.dirname(case.path), case.source.package
    head = f"package {package}; " if package else ""
    return {os.path.join(folder, f"{NEW}.aidl"): f"{head}parcelable {NEW} {{ float a = -0.5f; IBinder b; int[2] c = {{1, 2}}; }}\n"}


def constant_more(case: Case) -> Optional[Files]:
    picked = case.one([one for one in case.source.all() if one.kind in ("interface", "parcelable")])
    return case.changed((at(picked.body), f" const float {NEW} = 1.5f; const double {NEW}2 = -0.25;")) if picked else None


def own_descriptor(case: Case) -> Optional[Files]:
    picked = case.one([one for one in case.source.declarations if one.kind == "interface" and not one.has("Descriptor")])
    return case.changed((at(picked.start), f'@Descriptor(value="{picked.full}") ')) if picked else None


@dataclass
class Kind:
    """A kind of edit: what it is, whether the new tree may follow, and what Android's tool answers if that isn't the same, with its reason."""

    edit: Callable[[Case], Optional[Files]]
    follows: bool
    android: str = ""
    came: collections.Counter = field(default_factory=collections.Counter)

    @property
    def name(self) -> str:
        return self.edit.__name__


ACCEPTS, REFUSES = "accepts", "refuses"
KINDS = [
    *(Kind(edit, False) for edit in (another_type, without_method, method_in_front, argument_more, without_field, fields_turned, another_package)),
    *(Kind(edit, False) for edit in (oneway, with_body, other_number, other_descriptor, other_element, without_enumerator)),
    Kind(may_be_null, False, ACCEPTS),  # it doesn't compare whether an argument may be null
    *(Kind(edit, True) for edit in (unchanged, method_at_the_end, field_at_the_end, argument_renamed, blanks, full_names, imports_turned)),
    *(Kind(edit, True) for edit in (direction, new_type, constant_more)),
    Kind(own_descriptor, True, REFUSES),  # it compares the annotations
]


# What Android's tool says where it doesn't read a tree.
UNREAD = re.compile(r"Failed to (?:read|resolve|parse)|find import|syntax error|must have stability|does not have .*stability")


def write(folder: str, texts: Files) -> None:
    for path, text in texts.items():
        place = os.path.join(folder, path)
        os.makedirs(os.path.dirname(place), exist_ok=True)
        with open(place, "wb") as file:
            file.write(text.encode("latin-1"))


def android_says(compiler: str, room: str) -> str:
    """What Android's tool answers of the two trees as they lie."""
    ran = subprocess.run([compiler, "--checkapi=compatible", "old", "new"], cwd=room, capture_output=True, text=True, check=False)
    if ran.returncode == 0:
        return ACCEPTS
    return "reads neither" if UNREAD.search(ran.stderr) else REFUSES


def trial(kind: Kind, case: Case, program: Program, compiler: Optional[str]) -> Iterator[str]:
    """Runs one edit, and tells what is false."""
    made = kind.edit(case)
    old = {path: source.text.text for path, source in case.tree.sources.items()}
    if made is None or made and all(old.get(path) == text for path, text in made.items()):
        return
    with tempfile.TemporaryDirectory() as room:
        write(os.path.join(room, "old"), old)
        write(os.path.join(room, "new"), {**old, **made})
        try:
            staged = stage(os.path.join(room, "old"), os.path.join(room, "new"), [], os.path.join(room, "copies"))
        except Fault as why:
            kind.came["refused"] += 1
            yield f"refused: {str(why).replace(room, '')}"
            return
        judged = program.verdict("judge", staged.old, staged.new)
        if judged.status and not re.match(r"C\d", judged.lines[0]):
            kind.came["not read"] += 1
            yield f"not read: {judged.lines[0].replace(room, '')}"
            return
        kind.came["yes" if judged.status == 0 else "no"] += 1
        if (judged.status == 0) != kind.follows:
            kind.came["FALSE"] += 1
            yield f"FALSE {'yes' if judged.status == 0 else 'alarm'}: {judged.lines[:2]}"
        if compiler:
            says = android_says(compiler, room)
            kind.came[f"14 {says}"] += 1
            if says in (ACCEPTS, REFUSES) and says != (kind.android or (ACCEPTS if kind.follows else REFUSES)):
                kind.came["14 DIFFERS"] += 1
                yield f"14 {says}"


def is_structured(case: Case) -> bool:
    """Whether Android's tool reads the tree, and it has a type that the profile leaves out."""
    declared = case.tree.declared.values()
    return all(one.structured for one in declared) and any(
        type_.base in LEFT_OUT or case.kind(one, type_) == "interface" for one in declared for type_ in one.types()
    )


def cases(folder: str, draw: random.Random) -> list[Case]:
    """The trees of all files, in an order that is drawn: each second one, as long as there are some, is structured and has a type that is left out."""
    roots = sorted({os.path.join(folder, root) for root in roots_of(folder).values() if "aidl_api" not in root})
    found = []
    for root, path in questions(folder):
        try:
            found.append(Case(Alone(os.path.join(folder, root), path, roots), path, draw))
        except Fault:
            continue
    draw.shuffle(found)
    first, second = [one for one in found if is_structured(one)], [one for one in found if not is_structured(one)]
    mixed = [one for pair in zip(first, second) for one in pair]
    return mixed + first[len(second) :] + second[len(first) :]


def main(words: list[str]) -> int:
    reader = arguments("real_edits.py", __doc__ or "")
    reader.add_argument("--android", metavar="AIDL", help="Android's own compiler")
    reader.add_argument("--seed", type=int, default=1)
    reader.add_argument("--each", type=int, default=20, help="how many edits of each kind")
    reader.add_argument("sources", metavar="SOURCES", help="the folder of Android's sources")
    options = reader.parse_args(words)
    program, draw = Program(), random.Random(options.seed)
    trees = cases(options.sources, draw)

    def of_kind(kind: Kind) -> list[str]:
        told = []
        for case in trees:
            if kind.came["yes"] + kind.came["no"] >= options.each or kind.came["refused"] + kind.came["not read"] > options.each:
                break
            drawn = Case(case.tree, case.path, random.Random(f"{options.seed}{kind.name}{case.path}"))
            told += [f"{case.path}: {line}" for line in trial(kind, drawn, program, options.android)]
        return told

    with ThreadPoolExecutor(2) as workers:
        for kind, told in zip(KINDS, workers.map(of_kind, KINDS)):
            print(f"{kind.name}: {', '.join(f'{count} {what}' for what, count in sorted(kind.came.items()))}", flush=True)
            for line in told:
                print(f"    {line}")
    total = sum((kind.came for kind in KINDS), collections.Counter())
    refused = total["refused"] + total["not read"]
    print(f"{total['yes'] + total['no']} edits, {total['FALSE']} false, {refused} refused; Android's tool differs otherwise in {total['14 DIFFERS']}")
    return 1 if total["FALSE"] or total["14 DIFFERS"] else 0


if __name__ == "__main__":
    run(main)
