"""Reads a canonical dump of the program: the members of each declaration, in order."""
import pathlib
import re
from typing import Dict, List, NamedTuple

KEPT = r"(?:@nullable\(heap=true\) |@nullable |@utf8InCpp )*"
FIELD = re.compile(rf"({KEPT})([\w.]+(?:<[\w.]+>)?(?:\[\])?) (\w+)(?: = (.*))?;")
OPENING = re.compile(r"(?:@\w+(?:\([^)]*\))? )*(parcelable|union|enum|interface) (\w+) \{")


class Member(NamedTuple):
    """A field: its annotations with a blank behind each, its type, its name and its initializer, which is empty where there is none."""
    annotations: str
    type: str
    name: str
    default: str


def fields(folder: pathlib.Path) -> Dict[str, List[Member]]:
    """The fields of each parcelable and union below the folder, by its canonical name."""
    found: Dict[str, List[Member]] = {}
    for path in sorted(folder.rglob("*.aidl")):
        package, around = "", []
        for line in path.read_text(encoding="ascii").split("\n"):
            opening, field = OPENING.fullmatch(line.strip()), FIELD.fullmatch(line.strip())
            if line.startswith("package "):
                package = line[len("package "):-1] + "."
            elif opening:
                around.append(opening[2])
                if opening[1] in ("parcelable", "union"):
                    found[package + ".".join(around)] = []
            elif line.strip() == "}":
                around.pop()
            elif field and package + ".".join(around) in found:
                found[package + ".".join(around)].append(Member(field[1], field[2], field[3], field[4] or ""))
    return found


def without_nullable(text: str) -> str:
    """The text of a dump in which nothing may be null."""
    return re.sub(r"@nullable(?:\(heap=true\))? ", "", text)


def without_heap(text: str) -> str:
    """The text of a dump in which nothing is kept on the heap."""
    return text.replace("@nullable(heap=true) ", "@nullable ")
