"""Trees for the tests: pairs of the worked rows, and how files are put below a folder."""

from __future__ import annotations

import pathlib
import re

TOP = pathlib.Path(__file__).resolve().parents[2]
CELL = re.compile(r"([on]/[^ :]+\.aidl): (.*)")


def worked() -> list[tuple[str, list[tuple[str, str]]]]:
    """Each pair of `o/` and `n/` that the rows of judge and witness have, once, with the place of its row."""
    found: dict[str, tuple[str, list[tuple[str, str]]]] = {}
    for name in ("judge.rows", "witness.rows"):
        lines = (TOP / "crates/worked_rows/data" / name).read_text(encoding="utf-8").splitlines()
        for number, line in enumerate(lines, 1):
            cells = [CELL.fullmatch(cell) for cell in line.split(" => ")[0].split(" || ")] if " => " in line else [None]
            if all(cells):
                files = [(cell[1], cell[2]) for cell in cells if cell]
                found.setdefault(str(files), (f"{name}:{number}", files))
    return list(found.values())


def put(folder: pathlib.Path, files: list[tuple[str, str]]) -> None:
    """Writes the files of `o/` and `n/` below a folder, which both are there."""
    for name in ("o", "n"):
        (folder / name).mkdir(exist_ok=True)
    for path, text in files:
        (folder / path).parent.mkdir(parents=True, exist_ok=True)
        (folder / path).write_bytes(text.encode("utf-8", "surrogateescape"))
