"""Why one of the two compilers reads a tree and the other doesn't: the classes of `classes/language.json`."""
import re
from typing import Dict, List, Sequence, Set, Tuple

from .base import Options
from .classes import Class, classes

FAULT = re.compile(r"(?:old/|new/|t/)?(\S+\.aidl):(\d+): (.*)")
# a line of Android's compiler that follows another one, which says why
FOLLOWS = re.compile(r"error while importing|Logging an internal location| - \S*$|^Did you mean")


def refused_by_theirs(options: Options, messages: Sequence[str]) -> Tuple[Set[str], List[str]]:
    """The classes of the messages of Android's compiler, and those that no class explains."""
    known, found, rest = classes(options, "language"), set(), []
    for message in messages:
        names = [name for name, row in known.items() if "message" in row and re.search(row["message"], message)]
        if names:
            found.add(names[0])
        elif not FOLLOWS.search(message):
            rest.append(message)
    return found, rest


def refused_by_ours(options: Options, files: Dict[str, str], lines: Sequence[str]) -> Tuple[Set[str], List[str]]:
    """The classes of the fault lines of the program, and those that no class explains."""
    known, found, rest = classes(options, "language"), set(), []
    for line in lines:
        fault = FAULT.fullmatch(line)
        text = files.get(fault[1], "").encode("utf-8", "surrogateescape").decode("latin-1") if fault else ""
        names = [name for name, row in known.items() if fault and is_of(row, text, int(fault[2]), fault[3])]
        if names:
            found.add(names[0])
        else:
            rest.append(line)
    return found, rest


def is_of(row: Class, text: str, offset: int, code: str) -> bool:
    """Whether a fault at this place of a text is of the class: its code, what comes at the place, and what comes before it."""
    front, back = text[:offset], text[offset:]
    for fault in row.get("faults", []):
        if re.fullmatch(fault["code"], code) and re.match(fault.get("at", ""), back) and re.search(f"(?:{fault.get('before', '')})$", front):
            return True
    return False


def explained_pair(options: Options, verdict: "Verdict") -> Tuple[Set[str], List[str]]:
    """The classes of a pair of which one tool alone reads both trees, and what is left."""
    if verdict.ours.is_read:
        return refused_by_theirs(options, verdict.theirs.lines)
    side = verdict.pair.old if any(line.startswith("old/") for line in verdict.ours.lines) else verdict.pair.new
    return refused_by_ours(options, side, verdict.ours.lines)
