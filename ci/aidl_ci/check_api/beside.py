"""The report that the job leaves beside its verdict, for a reviewer: a page and Markdown in a folder, and a few lines of it behind the job's own."""

from __future__ import annotations

import importlib.util
import os
from typing import TYPE_CHECKING, Iterator, Optional

from ..guard import Fault
from ..places import Place
from .judging import Judge

if TYPE_CHECKING:
    from ..report.model import Report

NAME = "report"


def at(place: Optional[Place]) -> str:
    return f", at {place.at()}" if place else ""


def lines_of(made: Report) -> Iterator[str]:
    """The causes of what breaks, or else what is new."""
    for step in made.steps:
        if step.causes:
            yield f"report: {made.verdict()}"
            yield from (f"report: {cause.head}{at(cause.first.at())}; {cause.harm()}" for cause in step.causes)
        elif step.added:
            yield f"report: new since {step.old.title}:"
            yield from (f"report: {one.kind} {one.place}{at(one.at)}: {one.text}" for one in step.added)
        else:
            yield f"report: nothing is new since {step.old.title}"


def leave(judge: Judge, folder: str, old: str, new: str, red: bool) -> None:
    """Writes the report. A verdict that is red stays so where the report can't be made; beside a green one that is a fault."""
    try:
        write(judge, folder, old, new)
    except Exception as why:  # pylint: disable=broad-except
        if not red:
            raise
        judge.log.note(f"no report could be made, {type(why).__name__}: {why}")


def write(judge: Judge, folder: str, old: str, new: str) -> None:
    from .. import report  # pylint: disable=import-outside-toplevel  # a third of a second, which a job without a report needn't wait

    try:
        os.makedirs(folder, exist_ok=True)
    except OSError as why:
        raise Fault(f"there can't be a folder {folder}: {why}") from why
    page = os.path.join(folder, f"{NAME}.html") if importlib.util.find_spec("jinja2") else None
    text = os.path.join(folder, f"{NAME}.md")
    made = report.write(judge.program, old, new, markdown=text, html=page)
    for line in lines_of(made):
        judge.log.show(line)
    judge.log.show(f"report: {text}" + (f" and {page}" if page else ""))
    if page is None:
        judge.log.note("no page was written, since it wants jinja2 (Debian's python3-jinja2)")
