"""The report as one HTML page: no script, nothing from outside, light and dark, and printable. All text is escaped by jinja2."""

from __future__ import annotations

import pathlib
from typing import Any, Iterator

from ..guard import Fault
from ..places import Place
from ..printing import plain
from ..rules import phrase
from .breaks import instead
from .model import Report
from .parcels import Row
from .shown import Shown
from .text import UNPROVED, cut, origin

HERE = pathlib.Path(__file__).resolve().parent
TINTS = 6
BOXES = 512  # bytes that are drawn


def page(report: Report) -> str:
    """The page."""
    try:
        import jinja2
    except ImportError as why:
        raise Fault("the page wants jinja2, which isn't there (Debian's python3-jinja2 is it)") from why
    room = jinja2.Environment(autoescape=True, undefined=jinja2.StrictUndefined, loader=jinja2.FileSystemLoader(str(HERE)), trim_blocks=True, lstrip_blocks=True, finalize=shown)
    room.globals.update(source=source, ticks=ticks, instead=instead, phrase=phrase, origin=origin, cells=cells, same=same, rows=table, tints=tints, cut=cut, UNPROVED=UNPROVED)
    style = (HERE / "page.css").read_text(encoding="utf-8")
    return room.get_template("page.html").render(report=report, style=jinja2.utils.markupsafe.Markup(style))


def shown(value: Any) -> Any:
    """What is put into the page: text without what controls or turns round; markup, which only the template makes, as it is."""
    return plain(value) if type(value) is str else value  # pylint: disable=unidiomatic-typecheck


def ticks(text: str) -> list[tuple[bool, str]]:
    """The parts of a text of the table of rules, each with whether it is code."""
    return [(bool(number % 2), part) for number, part in enumerate(text.split("`")) if part]


def source(place: Place) -> tuple[str, str, str]:
    """The line of a source, cut around the name."""
    text = plain(place.text)
    start, end = place.column - 1, place.end - 1
    before, behind = text[:start].lstrip(), text[end:].rstrip()
    return ("…" + before[-80:] if len(before) > 80 else before), text[start:end], (behind[:80] + "…" if len(behind) > 80 else behind)


def tints(example: Shown) -> dict[str, str]:
    """A tint for each part that the writer wrote."""
    names = dict.fromkeys(row.wrote.name for row in example.rows if row.wrote and row.wrote.key[-1] != "token")
    return {name: f"p{1 + number % TINTS}" for number, name in enumerate(names)}


def tint(row: Row, of: dict[str, str]) -> str:
    return of.get(row.wrote.name, "p0") if row.wrote else "p0"


def cells(example: Shown) -> list[list[tuple[str, str]]]:
    """The bytes behind the token word by word, each with the classes of its box."""
    of = tints(example)
    boxes = [
        (f"{byte:02x}", tint(row, of) + (" x" if row.differs else ""))
        for row in example.rows
        if row.wrote is None or row.wrote.key != ("token",)
        for byte in row.data
    ]
    return [boxes[start : start + 4] for start in range(0, min(len(boxes), BOXES), 4)]


def same(source_text: str, said: str) -> bool:
    """A line of a source says just this."""
    return plain(source_text).strip().rstrip(";,") == said


def table(example: Shown) -> Iterator[dict[str, Any]]:
    """The rows of the table of both readings."""
    of = tints(example)
    if example.misses:
        called = example.name.rpartition(".")[2]
        yield {"at": "code", "bytes": str(example.code), "tint": "p0", "wrote": called, "reads": example.reaches or "no method", "differs": True}
    for row in example.rows:
        sides = (one.text if one else None for one in (row.wrote, row.reads))
        yield {"at": str(row.at), "bytes": row.hex(), "tint": tint(row, of), "differs": row.differs, **dict(zip(("wrote", "reads"), sides))}
