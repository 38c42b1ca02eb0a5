"""`report`: what changed between versions, what breaks, where, and which bytes are read otherwise, as text, Markdown, HTML, SARIF and annotations."""

from __future__ import annotations

import sys
import tempfile
from typing import Callable, Optional, Sequence

from ..guard import Fault, arguments
from ..printing import use_utf8
from ..program import Program
from .github import github
from .markdown import markdown
from .model import Report, of_api, of_pair
from .page import page
from .picture import picture
from .sarif import sarif
from .text import text
from .trees import Room

FORMS: dict[str, Callable[[Report], str]] = {"text": text, "markdown": markdown, "html": page, "sarif": sarif, "github": github}
WITH_PICTURE = {**FORMS, "svg": picture}


def made(program: Program, old: str, new: Optional[str], *, api: bool = False, titles: tuple[str, str] = ("", ""), notes: Sequence[str] = ()) -> Report:
    """The report from a tree to another; with `api` of the frozen versions below the first path, and of the tree that follows them."""
    with tempfile.TemporaryDirectory() as folder:
        room = Room(program, folder)
        if api:
            return of_api(room, old, new, notes)
        if new is None:
            raise Fault("the new tree isn't named")
        return of_pair(room, old, new, titles, notes)


def written(report: Report, paths: dict[str, Optional[str]]) -> None:
    """Writes each form that has a path, `-` for standard output. All are made before the first is written, so a fault leaves no file."""
    texts = [(path, WITH_PICTURE[form](report)) for form, path in paths.items() if path is not None]
    for path, told in texts:
        if path == "-":
            sys.stdout.write(told)
            continue
        with open(path, "w", encoding="utf-8", errors="backslashreplace", newline="\n") as file:
            file.write(told)


def write(
    program: Program,
    old: str,
    new: Optional[str],
    *,
    api: bool = False,
    text: Optional[str] = None,
    markdown: Optional[str] = None,
    html: Optional[str] = None,
    sarif: Optional[str] = None,
    github: Optional[str] = None,
    svg: Optional[str] = None,
    titles: tuple[str, str] = ("", ""),
    notes: Sequence[str] = (),
) -> Report:
    """Makes a report and writes the forms that are named, each to a path or to `-`. The report's `status` is 0 where nothing breaks, else 1."""
    report = made(program, old, new, api=api, titles=titles, notes=notes)
    written(report, {"text": text, "markdown": markdown, "html": html, "sarif": sarif, "github": github, "svg": svg})
    return report


def main(words: list[str]) -> int:
    reader = arguments("report", "Says what changed from one tree of .aidl files to another: what is new, what breaks, where, and which bytes are read otherwise.")
    reader.add_argument("--api", metavar="API", help="the folder of the frozen versions: the chain of all of them, and TREE behind it")
    reader.add_argument("--text", action="store_const", const="-", help="text for a terminal; this is the default")
    reader.add_argument("--markdown", action="store_const", const="-", help="Markdown for a comment of a pull request")
    reader.add_argument("--html", metavar="FILE", help="one page that needs nothing else; wants jinja2")
    reader.add_argument("--sarif", metavar="FILE", help="SARIF 2.1.0")
    reader.add_argument("--svg", metavar="FILE", help="a picture of the first call that goes wrong")
    reader.add_argument("--github", action="store_const", const="-", help="annotations of a GitHub workflow")
    reader.add_argument("trees", nargs="+", metavar="TREE", help="OLD NEW; with --api the one tree that follows the versions")
    reader.epilog = "Ends with 0 where nothing breaks, 1 where something does, a version isn't intact or a tree has faults, 2 where that isn't known."
    options = reader.parse_args(words)
    if len(options.trees) != (1 if options.api else 2):
        reader.error("OLD NEW, or --api API TREE")
    use_utf8()
    forms = {form: getattr(options, form) for form in WITH_PICTURE}
    if not any(forms.values()):
        forms["text"] = "-"
    program = Program()
    old, new = (options.api, options.trees[0]) if options.api else options.trees
    return write(program, old, new, api=bool(options.api), **forms).status
