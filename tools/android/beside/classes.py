"""The tables of what is known to differ: `classes/*.json`, each class with a reason, the row of a page that tells it, and a smallest example."""
import json
import re
from typing import Any, Dict

from .base import HERE, TOP, Counts, Options, Trial

Class = Dict[str, Any]


def repeated(text: str) -> str:
    """The text with `{{COUNT*PART}}` as the part so many times; each # in it is the number of the time, from 0 on."""
    return re.sub(r"\{\{(\d+)\*(.*?)\}\}", lambda part: "".join(part[2].replace("#", str(number)) for number in range(int(part[1]))), text)


def classes(options: Options, table: str) -> Dict[str, Class]:
    """The classes of a table by their names; under sabotage of one, without it."""
    text = (HERE / "classes" / f"{table}.json").read_text(encoding="utf-8")
    rows = {name: row for name, row in json.loads(text).items() if options.has_row(name)}
    for row in rows.values():
        if "files" in row:
            row["files"] = {path: repeated(source) for path, source in row["files"].items()}
    return rows


def heading_of(line: str) -> str:
    """The anchor of a heading: what a link to it says behind #."""
    return re.sub(r"[^\w -]", "", line.lstrip("# ").lower()).replace(" ", "-")


def compare_page(options: Options, table: str, counts: Counts) -> None:
    """Each class stands on its page, below the heading that the table names; the classes of the page are those of the table."""
    for name, row in classes(Options(options.program, options.home), table).items():
        page, _, anchor = row["page"].partition("#")
        part, told = "", False
        for line in (TOP / page).read_text(encoding="utf-8").split("\n"):
            part = heading_of(line) if line.startswith("#") else part
            told = told or (part == anchor and f"`{name}`" in line)
        told = options.turn("page", "told" if told else "not told") == "told"
        counts.add("classes that a page tells", int(told))
        if not told:
            counts.differ("no row of", row["page"], "tells", name)


def page_trial(options: Options, table: str) -> Trial:
    """One row of the page is taken for gone."""
    def compare() -> Counts:
        counts = Counts()
        compare_page(options.sabotaged("page"), table, counts)
        return counts
    return Trial("one row of the page gone", compare)
