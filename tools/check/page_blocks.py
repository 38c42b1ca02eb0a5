"""The fenced blocks of a page: which there may be, and what their first lines are.

Each block has a tag of a closed list, so that none holds commands or rows that nothing compares. Outside lists no block is indented, since nothing would
look into it.
"""

import re
from typing import Iterator, Tuple

# what page_commands.py runs, what pages.py looks for in the code, and what layers.py draws
TAGS = {"console", "rows", "trees", "antt", "mermaid"}
# pages with commands that nobody runs here, since they take hours, and those with files of other programs
MORE = {"sh": {"PERFORMANCE.md", "PROVING.md", "tools"}, "yaml": {"CI.md", "REVIEWING.md"}, "make": {"CI.md"}}

Finding = Tuple[int, str]


def blocks(text: str, kind: str) -> Iterator[Tuple[int, str]]:
    """The blocks of this kind, each with the number of its first line."""
    for block in re.finditer(rf"^```(?:{kind})\n(.*?)^```", text, re.M | re.S):
        yield text[: block.start(1)].count("\n") + 1, block[1]


def is_known(tag: str, page: str, folder: str) -> bool:
    return tag in TAGS or bool({page, folder} & MORE.get(tag, set()))


def wrong_fences(text: str, page: str, folder: str = "") -> Iterator[Finding]:
    """A line for each fence that isn't one of the closed list, or is never closed."""
    is_open = 0
    for number, line in enumerate(text.splitlines(), 1):
        fence = re.match(r"(\s*(?:[-*+>]\s+|\d+\.\s+)*)(```+|~~~+)(.*)$", line)
        if fence and is_open:
            is_open = 0
            if line != "```":
                yield number, f"`{line.strip()}` doesn't close a block: only ``` alone on its line does"
        elif fence:
            is_open = number
            if fence[1] or fence[2] != "```" or not is_known(fence[3], page, folder):
                yield number, f"`{line}` begins a block that nothing compares; there may be {', '.join(sorted(TAGS))}"
    if is_open:
        yield is_open, "a block that isn't closed"


def wrong_indents(text: str) -> Iterator[Finding]:
    """A line for each indented block outside a list, which would be shown as a block and which nothing compares."""
    is_inside = is_list = False
    before = ""
    for number, line in enumerate(text.splitlines(), 1):
        if line.startswith("```"):
            is_inside = not is_inside
        elif not is_inside:
            if line and not line[0].isspace():
                is_list = bool(re.match(r"(?:[-*+]|\d+\.)\s", line))
            if re.match(r"(?: {4}|\t)\s*\S", line) and not before.strip() and not is_list:
                yield number, "an indented block, which nothing compares"
        before = line
    yield from ((text[: tag.start()].count("\n") + 1, f"{tag[0]}, which nothing compares") for tag in re.finditer(r"<(?:pre|code)\b", text))


def wrong_beginnings(text: str) -> Iterator[Finding]:
    """A line for each console block whose first line is no command: what stands there would be compared with nothing."""
    for number, block in blocks(text, "console"):
        if not re.match(r"\$ \S", block):
            yield number, f"`{block.splitlines()[0] if block else ''}` stands before the first command of its block"


def wrong(text: str, page: str, folder: str = "") -> Iterator[Finding]:
    """What is otherwise in the blocks of a page, each with its line."""
    yield from wrong_fences(text, page, folder)
    yield from wrong_indents(text)
    yield from wrong_beginnings(text)
