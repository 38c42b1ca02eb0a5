"""Trees that are near to good ones: one thing of a good tree is made wrong, or its tokens are changed."""
import random
import re
from typing import Callable, Dict, List, Tuple

from .base import HERE
from .draw import FEATURES, draw_tree
from .edits import Editor
from .readings import Case
from .trees import Field, Type

TOKEN = re.compile(r"[A-Za-z_]\w*|\d\w*|\"[^\"\n]*\"|'[^'\n]*'|<<|>>|[^\s\w]")


def add(edit: Editor, line: str, *kinds: str) -> bool:
    """Puts a line of source into a declaration of one of the kinds."""
    owner = edit.some(*kinds)
    if owner is None:
        return False

    class Line:
        """A line of source as a member."""
        name = "line"

        @staticmethod
        def text() -> str:
            """The line."""
            return line
    owner.members.insert(0 if edit.dice.random() < 0.3 and owner.kind != "enum" else len(owner.members), Line())
    return True


def lines() -> List[Tuple[List[str], str]]:
    """The lines of `classes/misses.txt`, each with the kinds of declaration that take it."""
    text = (HERE / "classes/misses.txt").read_text(encoding="utf-8")
    parts = [line.split(": ", 1) for line in text.split("\n") if line and not line.startswith("#")]
    return [(kinds.split(" "), line) for kinds, line in parts]


LINES = lines()


def wrong_line(edit: Editor) -> str:
    """Puts one of the lines above into the tree."""
    kinds, line = edit.dice.choice(LINES)
    return line if add(edit, line, *kinds) else ""


def wrong_shape(edit: Editor) -> str:
    """Makes a declaration wrong as a whole."""
    dice = edit.dice
    owner = edit.some("parcelable", "union", "enum", "interface")
    if owner is None:
        return ""
    what = dice.choice(["keyword", "empty", "fixed", "backing", "kind", "self", "parent", "builtin"])
    if what == "keyword":
        owner.name = dice.choice(["out", "void", "interface", "in"])
    elif what == "empty":
        owner.members = []
    elif what == "fixed":
        owner.annotations.append("@FixedSize")
    elif what == "backing":
        owner.annotations.append(dice.choice(['@Backing(type="short")', "@Backing", "@Backing(type=int)", '@Backing(type=("int"))']))
    elif what == "kind":
        owner.kind = dice.choice(["parcelable", "union", "enum", "interface"])
    elif what == "self" and owner.kind in ("parcelable", "union"):
        owner.members.append(Field(Type(owner.name), edit.drawer.name("f")))
    elif what == "parent" and owner.nested:
        owner.nested[0].name = owner.name
    elif what == "builtin":
        owner.name = dice.choice(["int", "String", "Map", "IBinder", "List"])
    return what


def near_miss(seed: str, package: str) -> Case:
    """A good tree in which one thing is wrong."""
    dice = random.Random(seed)
    tree = draw_tree(seed + "/tree", package, most=2)
    edit = Editor(dice, tree)
    name = ""
    for _ in range(8):
        name = name or (wrong_line(edit) if dice.random() < 0.8 else wrong_shape(edit))
    return Case(name or "unchanged", tree.files())


def mutated(seed: str, package: str) -> Case:
    """A good tree in one of whose files a token or two are left out, doubled, exchanged or replaced."""
    dice = random.Random(seed)
    files = draw_tree(seed + "/tree", package, most=2).files()
    path = dice.choice(sorted(files))
    text = files[path]
    for _ in range(dice.choice([1, 1, 2])):
        tokens = list(TOKEN.finditer(text))
        token, other = dice.choice(tokens), dice.choice(tokens)
        new = {"leave out": "", "double": f"{token[0]} {token[0]}", "replace": other[0], "put before": f"{other[0]} {token[0]}"}
        text = text[:token.start()] + new[dice.choice(sorted(new))] + text[token.end():]
    files[path] = text
    return Case("mutated", files)


def featured(seed: str, package: str) -> Case:
    """A tree with things that Android 14's compiler refuses."""
    dice = random.Random(seed)
    features = frozenset(dice.sample(FEATURES, dice.randint(1, 3)))
    return Case("with " + ", ".join(sorted(features)), draw_tree(seed + "/tree", package, features).files())


def good(seed: str, package: str) -> Case:
    """A tree that both read."""
    return Case("good", draw_tree(seed, package).files())


KINDS: Dict[str, Callable[[str, str], Case]] = {"good": good, "featured": featured, "near miss": near_miss, "mutated": mutated}
