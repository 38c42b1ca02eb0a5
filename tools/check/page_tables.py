"""Runs the rows of tables of pages that name their input and what comes of it: pairs of trees, values with their bytes, and bytes with what is read."""

import pathlib
import re
import subprocess
import tempfile
from typing import Any, Iterator, List, Tuple

import page_figures

TYPES = {"R": 'parcelable R { int a; String s = "x"; }', "U": "union U { int a; String b; }", "B": "enum B { A }",
         "L": '@Backing(type="long") enum L { A }', "S": "parcelable S { int a; }", "Node": "parcelable Node { int key; Node[] below; }",
         "Empty": "parcelable Empty {}", "FixedUnion": "@FixedSize union FixedUnion { int a; long b; }"}
WAITS = 300

Case = Tuple[int, str, Any, Any]


def run(program: pathlib.Path, room: pathlib.Path, *words: str) -> Tuple[int, str]:
    done = subprocess.run([program, *words], cwd=room, capture_output=True, text=True, timeout=WAITS, check=False)
    return done.returncode, done.stdout


def rows(text: str, *heads: str) -> Iterator[Tuple[int, List[str]]]:
    """The rows of the tables whose head has these cells first."""
    for _, head, found in page_figures.tables(text):
        if head[: len(heads)] == list(heads):
            yield from found


def put(folder: pathlib.Path, text: str) -> None:
    """A file of package j with this declaration."""
    name = re.search(r"(?:parcelable|union|enum|interface) (\w+)", text)[1]
    (folder / "j").mkdir(parents=True, exist_ok=True)
    (folder / "j" / f"{name}.aidl").write_text(f"package j; {text}")


def side(folder: pathlib.Path, text: str, reached: bool = False) -> None:
    """The declaration or method of one side of a pair; `Q` and `P` are parcelables, where they are named and not declared."""
    (folder / "j").mkdir(parents=True)
    if text.startswith("no "):
        return
    if not re.match(r"@\w|parcelable|union|enum|interface", text):
        text = f"interface I {{ {text} }}"
    put(folder, text)
    for name in re.findall(r"\b([PQ]) \w+[;)]", text):
        if not re.search(rf"parcelable {name} ", text):
            put(folder, f"parcelable {name} {{ int z; }}")
    if reached:
        name = re.search(r"(?:parcelable|union|enum) (\w+)", text)[1]
        put(folder, f"interface I {{ void f({'' if 'enum' in text else 'in '}{name} x); }}")


def judged_pairs(text: str, program: pathlib.Path) -> Iterator[Case]:
    """Pairs of trees with the one line that `judge` prints."""
    for number, (old, new, line, *_) in rows(text, "Old", "New", "Line"):
        with tempfile.TemporaryDirectory() as name:
            room = pathlib.Path(name)
            side(room / "old", old.strip("`"))
            side(room / "new", new.strip("`"))
            if "Q q" in new:
                put(room / "old", "parcelable Q { int z; }")
            yield number, f"{old} to {new}", (1, line.strip("`") + "\n"), run(program, room, "judge", "old", "new")


def witnessed_pairs(text: str, program: pathlib.Path) -> Iterator[Case]:
    """Pairs of trees with what `witness` prints below the judge's line."""
    for number, (rule, old, new, shown, *_) in rows(text, "Rule", "OLD", "NEW", "Shown"):
        with tempfile.TemporaryDirectory() as name:
            room = pathlib.Path(name)
            for folder, cell in ("old", old), ("new", new):
                side(room / folder, re.search("`(.*)`", cell)[1], "reached" in old)
            lines = run(program, room, "witness", "old", "new")[1].splitlines()
            spans = re.findall("`([^`]*)`", shown)
            wanted = [rule.split()[0], *(part.split()[0:2] for part in spans[:1]), *(part for part in spans if part.startswith(("read", "projected")))]
            came = [lines[0].split()[0], *(line.split()[:2] for line in lines[1:2]), *(line for line in lines[2:4])] if lines else []
            yield number, f"{old} to {new}", wanted, came


def type_of(cell: str) -> str:
    """The word for the types that a cell names."""
    cell = cell.replace("an enum backed by byte", "`B`" if cell.startswith("an ") else "").replace("an enum backed by long", "`L`")
    names = [word.replace("@nullable ", "") + "?" * ("@nullable" in word) for word in re.findall("`([^`]*)`", cell)]
    return "S,int" if "without" in cell else ",".join(names)


def furnished(name: str) -> pathlib.Path:
    """A room with a tree of the types that tables name."""
    room = pathlib.Path(name)
    (room / "t").mkdir()
    for key, text in TYPES.items():
        (room / "t" / f"{key}.aidl").write_text(text)
    return room


def encodings(text: str, program: pathlib.Path) -> Iterator[Case]:
    """Values with the bytes that `encode` writes, which `decode` has to read too."""
    with tempfile.TemporaryDirectory() as name:
        room = furnished(name)
        for number, (kind, value, given, *_) in rows(text, "Type", "Value", "Bytes"):
            value = '"\\ud800\\udc00"' if value.startswith("U+") else re.sub(r"^65.*|`", lambda m: "65" if m[0] != "`" else "", value)
            (room / "v").write_text(f"[{value}]")
            given = given.strip("`").replace(" ", "")
            yield number, f"{kind} {value}", (0, given + "\n"), run(program, room, "encode", "--tree", "t", type_of(kind), "v")


def read_of(cell: str) -> str:
    """The lines that a cell says are printed of bytes."""
    known = page_figures.statuses()
    parts = [part.strip("`") for part in re.split(r", (?![^{]*\})", cell)]
    return "".join(f"status {known[part.split()[0]]}\n" if part.split()[0] in known else f"{part}\n" for part in parts)


def readings(text: str, program: pathlib.Path) -> Iterator[Case]:
    """Bytes with what `decode` reads, by the strict profile in the first table of a page and by the lenient one in the second, and beside libbinder."""
    with tempfile.TemporaryDirectory() as name:
        room = furnished(name)
        found = [table for _, head, table in page_figures.tables(text) if head[:3] == ["Type", "Bytes", "Read"]]
        cases = [(number, kind, given, wanted, option) for table, option in zip(found, ([], ["--lenient"])) for number, (kind, given, wanted, *_) in table]
        for _, head, table in page_figures.tables(text):
            if head[2:4] == ["Type", "Bytes"] and head[5:] == ["`--lenient`"]:
                cases += [(number, cells[2], cells[3], cells[5], ["--lenient"]) for number, cells in table if cells[3].startswith("`")]
        for number, kind, given, wanted, option in cases:
            for data in re.findall("`([0-9a-f ]+)`", given)[:1]:
                (room / "h").write_text(data)
                types = type_of(kind.replace("?`", "`").replace("`", "`@nullable ", 1) if "?" in kind else kind)
                yield number, f"{kind} {given}", read_of(wanted), run(program, room, "decode", *option, "--tree", "t", types, "h")[1]


def explained(text: str, program: pathlib.Path) -> Iterator[Case]:
    """The lines of `explain` that a table goes through: each is one that a command of the page prints, whatever stands above it."""
    for first, head, table in page_figures.tables(text):
        if head[0] == "Printed" and head[1:] == ["What it is"]:
            lines = {line for _, line in printed_lines(text)}
            shown = [(number, span) for number, cells in table for span in re.findall(r"`(\d+ (?:[0-9a-f]+|-) /\S+ \w+)`", cells[0])]
            given = run_request(program)
            yield from ((number, span, True, span in lines or span in given) for number, span in shown)
            yield first, "the lines of the table", True, bool(shown)


def printed_lines(text: str) -> Iterator[Tuple[int, str]]:
    """The lines of the console blocks of a page."""
    for block in re.finditer(r"^```console\n(.*?)^```", text, re.M | re.S):
        yield from enumerate(block[1].splitlines())


def run_request(program: pathlib.Path) -> str:
    """What `explain` prints of the first request of lights, which pages go through."""
    top = pathlib.Path(__file__).resolve().parents[2]
    with tempfile.TemporaryDirectory() as name:
        room = pathlib.Path(name)
        lights = str(top / "examples/lights/1")
        trace = run(program, room, "run", "--trace", lights, str(top / "examples/lights/3"), str(top / "examples/calls/lights_old_to_new.calls"))[1]
        requests = [line.split()[3] for line in trace.splitlines() if line.startswith("request 1 ")]
        (room / "h").write_text(requests[0])
        return run(program, room, "explain", "--tree", lights, "int,int,int,String,int,lights.LightState", "h")[1]


# the pages whose tables have to be there, and which
TABLES = {"docs/EVOLUTION.md": (judged_pairs,), "docs/WITNESS.md": (witnessed_pairs,), "docs/BYTES.md": (encodings, readings), "docs/EXPLAIN.md": (explained,)}


def wrong(page: str, text: str, program: pathlib.Path) -> Iterator[Tuple[int, str]]:
    """A line for each row of which something else comes, and for a table that isn't there any more."""
    for cases in TABLES.get(page, ()):
        count = 0
        for number, what, wanted, came in cases(text, program):
            count += 1
            if wanted != came:
                yield number, f"{what}: {wanted!r} is shown, and it is {came!r}"
        if count < 4:
            yield 1, f"only {count} rows for {cases.__name__} of page_tables.py: its table has another head"


def shown(page: str, text: str) -> int:
    """How many rows of a page are run, but for those that others compare too."""
    heads = {"Old", "Rule", "Type"}
    return sum(len(found) for _, head, found in page_figures.tables(text) if page in TABLES and head[0] in heads)
