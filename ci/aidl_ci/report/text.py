"""The report as text for a terminal."""

from __future__ import annotations

import textwrap
from typing import Iterator, Optional

from ..places import Place
from ..printing import plain
from ..rules import phrase
from .breaks import Cause, Line, instead
from .model import Report, Step, counted
from .shown import Shown
from .trees import Tree

CUT = 100  # characters of a cell
UNPROVED = (
    "Lines and readings are printed by aidl, whose verdict is proved. Causes, places and the calls that were made for a break are this script's own, and"
    " aren't proved. That no call is shown doesn't mean that calls are safe."
)


def text(report: Report) -> str:
    """The whole report, each line free of what could control a terminal."""
    return "".join(f"{plain(line).rstrip()}\n" for line in whole(report))


def whole(report: Report) -> Iterator[str]:
    yield f"{report.title}: {report.verdict()}"
    yield from report.notes
    yield from (f"verify: {line}" for line in report.torn)
    for tree in report.faulty:
        yield from faults(tree)
    if len(report.steps) > 1:
        yield from ("", *chain(report))
    for step in report.steps:
        yield from of_step(step)
    if report.steps:
        yield from ("", *textwrap.wrap(UNPROVED, CUT))


def faults(tree: Tree) -> Iterator[str]:
    """The faults of a tree that isn't checked, with the lines of their sources."""
    for fault, place in tree.located():
        at = f"{place.path}:{place.line}:{place.column}" if place else f"{fault.path}:{fault.offset}"
        yield f"{at}: {fault.what} ({phrase(fault.code)})"
        if place:
            yield f"    | {place.excerpt()}"


def chain(report: Report) -> Iterator[str]:
    """The versions, a line each."""
    for step in report.steps:
        broken = f"{counted(len(step.causes), 'breaking change')}" if step.causes else "yes"
        yield f"{step.old.title} to {step.new.title}: {broken}, {len(step.added)} added"


def of_step(step: Step) -> Iterator[str]:
    if step.causes:
        yield from ("", f"What breaks from {step.old.title} to {step.new.title}")
        for number, cause in enumerate(step.causes, 1):
            yield from ("", *of_cause(number, cause))
    if step.added:
        yield from ("", f"What is new in {step.new.title}")
        for one in step.added:
            yield f"  {one.kind} {one.place}: {one.text}"
            yield f"      {'; '.join(part for part in (one.means, f'at {one.at.at()}' if one.at else '') if part)}"
    if step.warned:
        yield from ("", "Warnings, which are no rule of the judge")
        yield from (f"  {place_text(one.at)}{one.says()}" for one in step.warned)


def place_text(place: Optional[Place]) -> str:
    return f"{place.at()}: " if place else ""


def of_cause(number: int, cause: Cause) -> Iterator[str]:
    yield f"{number}. {cause.head}"
    for line in cause.lines:
        yield from of_line(line)
    yield f"   hurts    {cause.hurt}"
    told = list(dict.fromkeys(line.about.code for line in cause.lines))
    rules = {line.about.code: line.about for line in cause.lines}
    for code in told:
        yield f"   why      {code}: {rules[code].reason}"
        yield f"   instead  {code}: {instead(rules[code])}"
    yield f"   harm     {cause.harm()}"
    if cause.shown:
        yield from of_shown(cause.shown)


def of_line(line: Line) -> Iterator[str]:
    yield f"   {line.rule.line()} ({line.about.phrase})"
    for title, place, said in (("old", line.old, line.old_text), ("new", line.new, line.new_text)):
        yield f"      {title}  {place.at() if place else 'gone'}{'  ' + said if said else ''}"


def of_shown(shown: Shown) -> Iterator[str]:
    """A call or a value as a table, in which a mark stands before each row that is read otherwise."""
    yield f"   {shown.head()} ({origin(shown)}):"
    yield from (f"     {line}" for line in table(shown))
    yield from (f"     ! {one}" for one in shown.differences)
    yield f"     what came of it: {cut(shown.read, 300)}"
    yield f"     what was meant:  {cut(shown.meant, 300)}"


def origin(shown: Shown) -> str:
    return "printed by witness" if shown.by == "witness" else "made for this break"


def table(shown: Shown) -> list[str]:
    """The rows of a table with columns of equal width."""
    cells = [("at", "bytes", f"{shown.writer} wrote", f"{shown.reader} reads")]
    marks = [" "]
    if shown.misses:
        cells.append(("code", str(shown.code), shown.name.rpartition(".")[2], shown.reaches or "no method"))
        marks.append("!")
    for row in shown.rows:
        cells.append((str(row.at), row.hex(), row.wrote.text if row.wrote else "-", row.reads.text if row.reads else "-"))
        marks.append("!" if row.differs else " ")
    if len(cells) == 1:
        return []
    cells = [tuple(cut(plain(one), CUT) for one in row) for row in cells]
    wide = [max(len(row[column]) for row in cells) for column in range(4)]
    return [f"{mark} " + "  ".join(one.ljust(size) for one, size in zip(row, wide)).rstrip() for mark, row in zip(marks, cells)]


def cut(said: str, most: int) -> str:
    return said if len(said) <= most else said[: most - 3] + "..."
