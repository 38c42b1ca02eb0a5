"""Prints, with page and line, what a page says and isn't so; exit 1 if anything.

- A block that isn't one of the closed list of tags, an indented one, and text before the first command of one (page_blocks.py).
- A file, crate, function, type, clause, word, option, rule or section that a page names and that isn't there, and a piece of a block fenced as `antt`
  that stands nowhere in the code (page_names.py).
- A limit, exit, status, offset or count that the code doesn't have (page_figures.py), and the count of lines to believe, which
  tools/check/definitions.py prints; what that script and tools/check/layers.py refuse.
- A command or a case that a page shows and of which the program prints something else, a command that fails and doesn't say so (page_commands.py), and
  a row of a table of which something else comes (page_tables.py).

python3 tools/check/pages.py [PROGRAM]      PROGRAM is crates/aidl/out/aidl if none is named
"""

import pathlib
import subprocess
import sys
from concurrent.futures import ThreadPoolExecutor
from typing import Iterator, List

import page_blocks
import page_commands
import page_figures
import page_names
import page_tables

TOP = pathlib.Path(__file__).resolve().parents[2]
WHERE = ("README.md", "examples/README.md", "docs/**/*.md", "ci/*.md", "vectors/README*", "tools/**/README.md", "crates/*/data/README*")
PAGES = sorted({path for where in WHERE for path in TOP.glob(where)})


def name_of(page: pathlib.Path) -> str:
    return str(page.relative_to(TOP))


def wrong_texts() -> Iterator[str]:
    """What is otherwise in the texts alone, without a program."""
    names = page_names.Names()
    for page in PAGES:
        text, name = page.read_text(), name_of(page)
        found = [*page_blocks.wrong(text, page.name, name.split("/")[0]), *page_figures.wrong(name, text)]
        found += page_names.wrong(name, text, names) if page.suffix == ".md" else []
        yield from (f"{name}:{line}: {what}" for line, what in found)


def run_script(name: str) -> subprocess.CompletedProcess:
    return subprocess.run([sys.executable, TOP / "tools/check" / name], capture_output=True, text=True, check=False)


def wrong_counts() -> Iterator[str]:
    counted = run_script("definitions.py")
    yield from counted.stderr.splitlines()
    yield from run_script("layers.py").stderr.splitlines()
    maps = [page.read_text() for page in PAGES if page.name == "ARCHITECTURE.md"]
    if not any("".join(counted.stdout.splitlines()[-1:]) in text for text in maps):
        yield "ARCHITECTURE.md: its count of lines isn't what tools/check/definitions.py prints"


def wrong_runs(program: pathlib.Path) -> Iterator[str]:
    """What commands and rows of pages come to otherwise. Each page has a folder of its own, so two are run at a time."""

    def of_page(page: pathlib.Path) -> List[str]:
        text, name = page.read_text(), name_of(page)
        found = [*page_commands.wrong(text, program), *page_tables.wrong(name, text, program)]
        return [f"{name}:{line}: {what}" for line, what in found]

    with ThreadPoolExecutor(2) as runs:
        for found in runs.map(of_page, PAGES):
            yield from found
    yield from (f"{name} isn't there, whose tables are run" for name in page_tables.TABLES if TOP / name not in PAGES)


def main() -> None:
    program = pathlib.Path(sys.argv[1] if sys.argv[1:] else TOP / "crates/aidl/out/aidl").resolve()
    wrong = [*wrong_texts(), *wrong_counts()]
    wrong += wrong_runs(program) if program.is_file() else [f"{program} isn't built, so no command was tried"]
    commands = sum(page_commands.shown(page.read_text()) for page in PAGES)
    rows = sum(page_tables.shown(name_of(page), page.read_text()) for page in PAGES)
    well = f"{len(PAGES)} pages name nothing that isn't there, and {commands} commands and cases and {rows} rows of tables come to what is shown"
    print("\n".join(wrong) if wrong else well)
    sys.exit(bool(wrong))


if __name__ == "__main__":
    main()
