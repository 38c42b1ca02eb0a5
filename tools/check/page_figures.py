"""The figures of pages: limits, exits, statuses, offsets of bytes and counts of what the repository has, each compared with the code."""

import pathlib
import re
from typing import Dict, Iterator, List, Tuple

import page_blocks
import page_names

TOP = pathlib.Path(__file__).resolve().parents[2]
NUMBERS = "no one two three four five six seven eight nine ten eleven twelve thirteen fourteen fifteen".split()
# what a row of a table of exits has to say of each
EXITS = {"0": r"^done", "1": "negative verdict", "2": "not a valid command line", "3": "file system failed", "4": "printing failed", "5": "out of memory",
         "6": "couldn't be carried", "7": "limit was passed", "8": "couldn't be read", "9": "couldn't build or run"}
# numbers below zero that pages name and that are no status or exception's code: ends of types
ENDS = {-128, -2147483648, -9223372036854775808, -1073741824}
# libutils' NO_MEMORY, which only Android's readers answer
ENDS |= {-12}

Finding = Tuple[int, str]


def plain(number: str) -> int:
    return int(number.replace(",", ""))


def limits() -> Dict[str, int]:
    """The number of each limit, by the name that is printed."""
    text = (TOP / "crates/aidl_base/specs/Limits.antt").read_text()
    numbers = dict(re.findall(r"^limit_number (\w+) = (\d+)", text, re.M))
    return {name: int(numbers[variant]) for variant, name in re.findall(r"^limit_name (\w+) = codes \"([\w-]+)\"", text, re.M)}


def statuses() -> Dict[str, int]:
    """The number of each status and exception's code, by its name."""
    text = "".join((TOP / f"crates/{path}").read_text() for path in ("parcel_words/src/fault.rt", "stub_dispatch/src/status.rt"))
    found = {name: int(number.replace("_", "")) for name, number in re.findall(r"const (\w+): i32 = (-[\d_]+);", text)}
    readings = dict(re.findall(r"^(\w+) = negsuc (\d+)", (TOP / "crates/aidl_base/specs/Readings.antt").read_text(), re.M))
    return {**found, **{name: -1 - int(readings[key]) for name, key in (("NOT_ENOUGH_DATA", "not_enough"), ("UNEXPECTED_NULL", "unexpected_null"))}}


def tables(text: str) -> Iterator[Tuple[int, List[str], List[Tuple[int, List[str]]]]]:
    """The tables of a page: the line and the cells of the head, and the rows, each with its line."""
    head, rows, first = None, [], 0
    for number, line in enumerate([*text.splitlines(), ""], 1):
        cells = [cell.strip() for cell in re.split(r"(?<!\\)\|", line)[1:-1]] if line.startswith("|") else []
        if not cells:
            if head:
                yield first, head, rows
            head, rows = None, []
        elif head is None:
            head, first = cells, number
        elif not re.fullmatch(r"[|\s:-]+", line):
            rows.append((number, cells))


def wrong_limits(text: str, known: Dict[str, int]) -> Iterator[Finding]:
    """Numbers of limits that the code doesn't have, in what is printed, beside it, and in tables."""
    names = "|".join(known)
    for number, line in page_names.prose(text):
        for name, figure in re.findall(r"\blimit ([a-z-]+) (\d+)", line):
            if known.get(name) != int(figure):
                yield number, f"`limit {name} {figure}` is none"
        beside = re.findall(rf"(?:more than|above) ([\d,]+)[^`;.]{{0,30}}`limit ({names}) ", line)
        beside += [(figure, name) for name, figure in re.findall(rf"`({names})`, [^;.:]*?(?:above|more than) ([\d,]*\d)", line)]
        yield from ((number, f"{figure} isn't the limit `{name}`") for figure, name in beside if plain(figure) != known[name])
        yield from ((number, f"a limit ends with 7, not with {it}") for it in re.findall(rf"`limit (?:{names}) \d+`, exit (\d)", line) if it != "7")
    for _, _, rows in tables(text):
        for number, cells in rows:
            name = re.fullmatch(rf"`({names})`", cells[0])
            yield from ((number, f"{cell} isn't the limit {name[1]}") for cell in cells[1:] if name and re.fullmatch(r"[\d,]+", cell) and plain(cell) != known[name[1]])


def wrong_exits(text: str) -> Iterator[Finding]:
    """Rows of tables of exits that say another exit's meaning."""
    for first, head, rows in tables(text):
        if head[0] != "Exit" or len(head) < 2:
            continue
        seen = []
        for number, cells in rows:
            told = cells[0].split(", ")
            seen += told
            meant = [exit_ for exit_, word in EXITS.items() if re.search(word, cells[1])]
            if sorted(told) != meant:
                yield number, f"exit {cells[0]}: the row says what {', '.join(meant) or 'none'} means"
        if not {str(it) for it in range(9)} <= set(seen) or len(seen) != len(set(seen)):
            yield first, f"a table of exits has {', '.join(sorted(seen))}"


def wrong_statuses(text: str, known: Dict[str, int]) -> Iterator[Finding]:
    """Numbers below zero that are no status, and names with another number."""
    numbers = ENDS | set(known.values())
    words = "|".join(known)
    for number, line in page_names.prose(text):
        for it in re.findall(r"(?<![\w.+\]-])-\d{2,}\b(?![.,]?\d)", line):
            if int(it) not in numbers:
                yield number, f"{it} is no status"
        for name in re.finditer(rf"\b(?:{words})\b", line):
            beside = re.findall(r"(-\d+)(?:, | is | )`?$", line[: name.start()]) + re.findall(r"^`?(?: \| |, | \(| is )(-\d+)", line[name.end() :])
            if beside and known[name[0]] not in map(int, beside):
                yield number, f"{name[0]} is {known[name[0]]}, not {', '.join(beside)}"


def wrong_offsets(text: str) -> Iterator[Finding]:
    """Items of bytes, in tables and pictures, whose offset isn't the end of the item before."""
    runs = [[(number, cells[0], cells[1]) for number, cells in rows] for _, head, rows in tables(text) if re.match(r"(?i)offset$", head[0])]
    for first, block in page_blocks.blocks(text, "mermaid"):
        nodes = re.finditer(r'\["(\d+)<br>([^"<]*)', block)
        runs.append([(first + block[: node.start()].count("\n"), node[1], node[2]) for node in nodes])
    for run in runs:
        due = None
        for number, offset, data in run:
            offset = offset.strip("`")
            if due is not None and offset.isdigit() and int(offset) != due:
                yield number, f"offset {offset}: the item before ends at {due}"
            digits = re.sub(r"[^0-9a-f]", "", "".join(re.findall(r"`([^`]*)`", data)) or data)
            is_whole = offset.isdigit() and ".." not in data and "so on" not in data and re.fullmatch(r"[0-9a-f ,`.]*|-", data.strip())
            due = int(offset) + len(digits) // 2 if is_whole and len(digits) % 2 == 0 else None


def wrong_counts(page: str, text: str) -> Iterator[Finding]:
    """Counts of things of this repository that it doesn't have."""
    edits = [path.parts[-3] for path in TOP.glob("crates/*/must-fail/*.edit")]
    fields = len(re.findall(r"^  pub \w+ :", (TOP / "crates/aidl_tool/specs/Headline.antt").read_text(), re.M))
    for number, line in page_names.prose(text):
        for crates, count in re.findall(r"now (\d+) crates have (\d+)", line):
            if (int(crates), int(count)) != (len(set(edits)), len(edits)):
                yield number, f"{len(set(edits))} crates have {len(edits)} edits in must-fail/"
        for word in re.findall(r"\bIts (\w+) fields bind a run", line):
            if page.endswith("HEADLINE.md") and word != NUMBERS[fields]:
                yield number, f"the headline has {fields} fields"


def wrong(page: str, text: str) -> Iterator[Finding]:
    """What is otherwise of the figures of a page of this path, each with its line."""
    yield from wrong_limits(text, limits())
    yield from wrong_exits(text)
    yield from wrong_statuses(text, statuses())
    yield from wrong_offsets(text)
    yield from wrong_counts(page, text)
