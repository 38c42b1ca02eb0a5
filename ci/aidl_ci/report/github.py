"""The report as annotations of a GitHub workflow, each at its line."""

from __future__ import annotations

from typing import Iterator

from ..printing import annotation, plain
from ..rules import phrase
from .breaks import Cause, Line, instead
from .model import Report


def github(report: Report) -> str:
    """The annotations: the first line of each cause, then the others, since GitHub shows only the first of a step; then the warnings."""
    return "".join(f"{line}\n" for line in annotations(report))


def annotations(report: Report) -> Iterator[str]:
    for tree in report.faulty:
        for fault, place in tree.located():
            told = plain(f"{fault.what} ({phrase(fault.code)})")
            yield annotation(told, place.path, place.line, place.column) if place else annotation(told)
    yield from (annotation(plain(f"verify: {line}")) for line in report.torn)
    yield from (of_line(cause, cause.first) for cause in report.causes)
    yield from (of_line(cause, line) for cause in report.causes for line in cause.lines[1:])
    for step in report.steps:
        for one in step.warned:
            where = (one.at.path, one.at.line, one.at.column) if one.at else ()
            yield annotation(plain(one.says()), *where, level="warning", title="no default in Java")


def of_line(cause: Cause, line: Line) -> str:
    place = line.at()
    told = plain(f"{line.about.phrase}. {cause.head}. {cause.harm()}. Instead: {instead(line.about)}")
    where = (place.path, place.line, place.column) if place else ()
    return annotation(told, *where, title=line.rule.line())
