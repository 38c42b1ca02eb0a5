"""The first call or value that the report shows as a picture, for a page that explains a break: what was written, the bytes, and what is read."""

from __future__ import annotations

from typing import Iterator, Optional
from xml.sax.saxutils import escape

from ..printing import plain
from .model import Report
from .parcels import Cell, Row
from .shown import Shown

WIDTH = 760
CHARACTER = 8.43  # pixels of a character at 14 px
LEFT, TOP, HIGH = 12, 52, 118
MOST = 24  # boxes
STYLE = (
    'svg{font:14px ui-monospace,SFMono-Regular,Menlo,Consolas,"DejaVu Sans Mono",monospace}.t,.x{fill:#1c2128}.d{fill:#59636e}.b{fill:#b42318;font-weight:700}'
    ".o{fill:#cfe3ff}.r{fill:#fdecea;stroke:#b42318;stroke-width:1.5}"
    "@media(prefers-color-scheme:dark){.t{fill:#e4e8ed}.x{fill:#1c2128}.d{fill:#9aa5b1}.b{fill:#ff8f83}}"
)


def picture(report: Report) -> str:
    """The picture, as SVG, of the first break that some bytes show; of a report without one it is the verdict."""
    example = next((cause.shown for cause in report.causes if cause.shown and any(row.differs for row in cause.shown.rows)), None)
    boxes = [row for row in example.rows if not (row.wrote and row.wrote.key == ("token",))][:MOST] if example else []
    lines = list(broken(boxes))
    title = f"{example.head()}; {harm(example)}" if example else report.verdict()
    parts = [said(LEFT, 24, title, "d")]
    for number, line in enumerate(lines):
        parts += of_line(line, TOP + HIGH * number, example) if example else []
    return drawing(TOP + HIGH * len(lines) + 8, title, parts)


def drawing(high: int, title: str, parts: list[str]) -> str:
    label = escape(plain(title), {'"': "&quot;"})
    head = f'<svg xmlns="http://www.w3.org/2000/svg" width="{WIDTH}" height="{high}" viewBox="0 0 {WIDTH} {high}" role="img" aria-label="{label}">'
    return f"{head}<style>{STYLE}</style>{''.join(parts)}</svg>\n"


def harm(example: Shown) -> str:
    return "nothing fails" if example.silent else "it fails"


def said(left: float, top: float, text: str, kind: str) -> str:
    return f'<text x="{left:.0f}" y="{top:.0f}" class="{kind}">{escape(plain(text))}</text>'


def text_of(cell: Optional[Cell]) -> str:
    return cell.text if cell else "–"


def size(row: Row) -> float:
    """The width of a box: that of the longest of its three texts."""
    return max(len(text_of(row.wrote)), len(text_of(row.reads)), len(row.hex())) * CHARACTER + 26


def broken(boxes: list[Row]) -> Iterator[list[Row]]:
    """The boxes in lines that aren't wider than the picture."""
    line: list[Row] = []
    for row in boxes:
        if line and LEFT + sum(size(one) for one in line) + size(row) > WIDTH:
            yield line
            line = []
        line.append(row)
    if line:
        yield line


def of_line(line: list[Row], top: float, example: Shown) -> list[str]:
    """A line of boxes, with what was written above them and what is read below."""
    parts = [said(LEFT, top, f"{example.writer} wrote", "d"), said(LEFT, top + 100, f"{example.reader} reads", "d")]
    left: float = LEFT
    for row in line:
        parts.append(said(left, top + 24, text_of(row.wrote), "t"))
        parts.append(f'<rect x="{left - 4:.0f}" y="{top + 32:.0f}" width="{len(row.hex()) * CHARACTER + 8:.0f}" height="26" rx="4" class="{"r" if row.differs else "o"}"/>')
        parts.append(said(left, top + 50, row.hex(), "x"))
        parts.append(said(left, top + 78, text_of(row.reads), "b" if row.differs else "t"))
        left += size(row)
    return parts
