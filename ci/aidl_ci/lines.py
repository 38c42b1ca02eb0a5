"""`lines`: makes what `aidl` prints easier to read in a log. PATH:OFFSET: at the head of a fault's line becomes PATH:LINE:COLUMN:, for editors and
review tools; every other line stays as it is. Lines and columns are counted from 1. A column counts characters of UTF-8, and a byte that is part of none
counts as one. A file that can't be read leaves its lines as they are."""

from __future__ import annotations

import os
import signal
import sys
from dataclasses import dataclass
from typing import Iterator, Optional

from .guard import arguments
from .printing import annotation, plain, use_utf8
from .rules import phrase
from .verdicts import FaultLine, fault_line, rule_line

WIDTH = 160  # characters of a source line that are shown


@dataclass(frozen=True)
class Shown:
    """Where a fault is, and the line of the source."""

    path: str
    line: int
    column: int
    source: str

    def excerpt(self) -> str:
        """The source line without the blanks around it, or the part of a long one in which the place is."""
        start = max(0, self.column - 1 - WIDTH // 2) if len(self.source) > WIDTH else 0
        return plain(self.source[start : start + WIDTH]).strip()


def shown(fault: FaultLine) -> Optional[Shown]:
    """The place of a fault, if its file can be read."""
    try:
        if not os.path.isfile(fault.path):
            return None
        with open(fault.path, "rb") as file:
            text = file.read()
    except (OSError, ValueError):
        return None
    before = text[: fault.offset].split(b"\n")
    source = text.split(b"\n")[len(before) - 1].decode(errors="surrogateescape")
    return Shown(fault.path, len(before), len(before[-1].decode(errors="surrogateescape")) + 1, source)


def with_phrase(what: str, code: str) -> str:
    """What a line says, with the phrase of its rule behind it."""
    return f"{what} ({phrase(code)})" if phrase(code) else what


def of_fault(fault: FaultLine, place: Shown, words: bool, github: bool) -> Iterator[str]:
    """The lines that stand for a fault's line."""
    said = with_phrase(fault.what, fault.code)
    yield f"{place.path}:{place.line}:{place.column}: {said if words else fault.what}"
    if words:
        yield f"    | {place.excerpt()}"
    if github:
        yield annotation(said, place.path, place.line, place.column)


def of_line(line: str, words: bool = False, github: bool = False) -> Iterator[str]:
    """The lines that stand for one line that `aidl` printed."""
    fault = fault_line(line)
    place = shown(fault) if fault else None
    if fault and place:
        yield from of_fault(fault, place, words, github)
        return
    rule = rule_line(line)
    code = fault.code if fault else rule.code if rule else ""
    said = with_phrase(line, code) if code else line
    yield said if words else line
    if github and code:
        yield annotation(said)


def main(words: list[str]) -> int:
    reader = arguments("lines", "Prints what aidl printed, with lines and columns in place of byte offsets. Reads standard input.")
    reader.add_argument("--words", action="store_true", help="a phrase behind each E and C line, and the line of the source below each fault")
    reader.add_argument("--github", action="store_true", help="an annotation of a GitHub workflow below each fault and each C line")
    options = reader.parse_args(words)
    signal.signal(signal.SIGPIPE, signal.SIG_DFL)
    use_utf8()
    for line in sys.stdin:
        end = "\n" if line.endswith("\n") else ""
        sys.stdout.write("\n".join(of_line(line[: len(line) - len(end)], options.words, options.github)) + end)
    return 0
