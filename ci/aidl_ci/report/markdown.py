"""The report as Markdown, for a comment of a pull request or the summary of a job."""

from __future__ import annotations

import re
from typing import Iterator, Optional

from ..places import Place
from ..printing import plain
from ..rules import phrase
from .breaks import Cause, instead
from .model import Report, Step
from .shown import Shown
from .text import UNPROVED, cut, origin, table

MOST = 60000  # characters of a comment; GitHub takes 65,536
CAUSES = 100  # causes that a shortened report lists
SPECIAL = re.compile(r"([\\`*_{}\[\]#|<>~&@])")


def markdown(report: Report) -> str:
    """The report, without its tables, and then without most of its causes, where it would be too long for a comment."""
    for tables, most in ((True, None), (False, None), (False, CAUSES), (False, 20)):
        made = "".join(f"{line}\n" for line in whole(report, tables, most))
        if len(made) <= MOST:
            break
    return made[:MOST]


def words(text: str) -> str:
    """Text as it is, without any meaning in Markdown."""
    return SPECIAL.sub(r"\\\1", plain(text)).replace("\\<", "&lt;").replace("\\&", "&amp;").replace("\\@", "&#64;")


def code(text: str, cell: bool = False) -> str:
    """Text as a code span, in a cell of a table or elsewhere."""
    said = plain(text).strip() or " "
    marks = "`" * (1 + max((len(run) for run in re.findall("`+", said)), default=0))
    pad = " " if "`" in said else ""
    made = f"{marks}{pad}{said}{pad}{marks}"
    return made.replace("|", "\\|") if cell else made


def ticks(text: str) -> str:
    """Text of this repository's table of rules, in which code stands between backticks."""
    return plain(text)


def at(place: Optional[Place]) -> str:
    return code(place.at(), cell=True) if place else "gone"


def whole(report: Report, tables: bool, most: Optional[int]) -> Iterator[str]:
    yield f"## {'✅' if report.good else '❌'} {words(report.title)}: {words(report.verdict())}"
    yield ""
    yield from (f"> {words(note)}" for note in report.notes)
    yield from (f"- {code('verify: ' + line)}" for line in report.torn)
    yield from faults(report)
    for step in report.steps:
        yield from of_step(step, tables, most, last=step is report.steps[-1])
    if report.steps:
        yield from ("", f"<sub>{words(UNPROVED)}</sub>")


def faults(report: Report) -> Iterator[str]:
    for tree in report.faulty:
        for fault, place in tree.located():
            where = f"{place.path}:{place.line}:{place.column}" if place else f"{fault.path}:{fault.offset}"
            yield f"- {code(where)}: {code(fault.what)} {words(phrase(fault.code))}"


def of_step(step: Step, tables: bool, most: Optional[int], last: bool) -> Iterator[str]:
    name = f"{words(step.old.title)} to {words(step.new.title)}"
    if step.causes:
        yield from (f"### What breaks: {name}", "")
        for number, cause in enumerate(step.causes[:most], 1):
            yield from of_cause(number, cause, tables)
        if most and len(step.causes) > most:
            yield from ("", f"{len(step.causes) - most} more breaking changes are left out here.")
    if step.added:
        yield from ("", f"<details{' open' if last and not step.causes else ''}><summary>What is new: {name}, {len(step.added)}</summary>", "", "| New | What the other version makes of it | At |", "|---|---|---|")
        kept = step.added if most is None else step.added[:most]
        yield from (f"| {one.kind} {code(one.place)}: {code(one.text, cell=True)} | {words(one.means)} | {at(one.at)} |" for one in kept)
        yield from ("", "</details>")
    if step.warned:
        yield from ("", *(f"- ⚠ {words(one.says())} ({at(one.at)})" for one in step.warned))


def of_cause(number: int, cause: Cause, tables: bool) -> Iterator[str]:
    yield from (f"**{number}. {words(cause.head)}** (hurts {words(cause.hurt)})", "")
    yield from ("| Line | | Old | New |", "|---|---|---|---|")
    for line in cause.lines:
        sides = (f"{code(said, cell=True) if said else ''} {at(place)}".strip() for place, said in ((line.old, line.old_text), (line.new, line.new_text)))
        yield f"| {code(line.rule.line())} | {words(line.about.phrase)} | {' | '.join(sides)} |"
    yield ""
    for about in {line.about.code: line.about for line in cause.lines}.values():
        yield f"- **{about.code}**: {ticks(about.reason)}. *Instead:* {ticks(instead(about))}."
    yield from (f"- {words(cause.harm())}.", "")
    if cause.shown and tables:
        yield from of_shown(cause.shown)


def of_shown(shown: Shown) -> Iterator[str]:
    """A call or a value, folded, as a block in which `!` stands before each row that is read otherwise."""
    block = [plain(line) for line in (*table(shown), "", *(f"! {one}" for one in shown.differences))]
    fence = "`" * max(3, 1 + max((len(run) for line in block for run in re.findall("`+", line)), default=0))
    yield from (f"<details><summary>{words(shown.head())} ({origin(shown)})</summary>", "", fence, *block, fence, "")
    yield from (f"What came of it: {code(cut(shown.read, 300))}. What was meant: {code(cut(shown.meant, 300))}.", "", "</details>", "")
