"""`stage`: copies of trees in which each type that the profile leaves out has a stand-in of its own, so that `judge` can compare them. Nothing is
proved of what was replaced."""

from __future__ import annotations

import os
from dataclasses import dataclass
from typing import Sequence

from ..guard import Fault
from .copier import Copier, unstructured
from .table import Replaced, StandIns
from .tree import Tree

FROZEN = "aidl_api"  # the folder of a module's frozen versions, beside its sources
__all__ = ["FROZEN", "Replaced", "Staged", "Tree", "stage", "stage_trees"]


@dataclass(frozen=True)
class Staged:
    """The copies of two trees, and what was replaced in them."""

    old: str
    new: str
    replaced: list[Replaced]


def stage(old: str, new: str, imports: Sequence[str], out: str) -> Staged:
    """Copies two trees to `OUT/old` and `OUT/new`, each beside what it imports. Frozen versions inside a tree are no part of it."""
    folders = [os.path.join(out, "old"), os.path.join(out, "new")]
    replaced = stage_trees([Tree(one, imports, outside=[FROZEN]) for one in (old, new)], folders)
    return Staged(folders[0], folders[1], replaced)


def stage_trees(trees: Sequence[Tree], folders: Sequence[str]) -> list[Replaced]:
    """Copies trees into folders that are empty or not there, all with the same stand-ins, and answers what was replaced."""
    for folder in folders:
        if os.path.lexists(folder) and not (os.path.isdir(folder) and not os.listdir(folder)):
            raise Fault(f"{folder} isn't empty: a copy is written into a new folder")
    imported = {path: shown for tree in trees for path, shown in tree.imported.items()}
    for tree in trees:
        tree.bring_also(imported)
    made = StandIns(len(trees))
    copies = [copies_of(tree, number, trees, made) for number, tree in enumerate(trees)]
    check_names(trees)
    for folder, texts in zip(folders, copies):
        for path, text in {**texts, **made.files()}.items():
            write(os.path.join(folder, path), text)
    return made.replaced()


def copies_of(tree: Tree, number: int, trees: Sequence[Tree], made: StandIns) -> dict[str, str]:
    """The copies of a tree's files, by their paths."""
    made.tree = number
    descriptors = any(one.kind == "interface" and one.has("Descriptor") for each in trees for one in each.declared.values())
    constants = {one for other in trees if other is not tree for one in constants_of(other)}
    copier = Copier(tree, made, constants, descriptors)
    copies: dict[str, str] = {}
    for path, source in sorted(tree.sources.items()):
        bare = any(not one.structured for one in source.declarations)
        for copied, text in (unstructured(source, made) if bare else {path: copier.copied(source)}).items():
            if copied in copies:
                source.text.refuse(0, f"a second copy of {copied}")
            copies[copied] = text
    return copies


def constants_of(tree: Tree) -> set[tuple[str, str]]:
    """The full names of a tree's constants, with their types."""
    members = ((one, member) for one in tree.declared.values() for member in one.members if member.kind == "constant")
    return {(f"{one.full}.{member.name}", member.type.base) for one, member in members if member.type}


def check_names(trees: Sequence[Tree]) -> None:
    """Refuses a name that one tree has only in front of another, as the `A` of `parcelable A.B;`, and another tree declares."""
    for tree in trees:
        for name, source in tree.surroundings.items():
            if any(name in other.declared for other in trees):
                source.text.refuse(0, f"{name} is declared in one tree, and only what is inside it in this one")


def write(path: str, text: str) -> None:
    os.makedirs(os.path.dirname(path), exist_ok=True)
    with open(path, "xb") as file:
        file.write(text.encode("latin-1"))
