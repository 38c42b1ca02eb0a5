"""`check` beside Android 14's `aidl --structured --dumpapi`: which trees each of them reads.

Trees: those of the program's rows, a smallest one of each class, random good ones, ones with what Android 14 refuses, near misses, mutated ones,
and the real files of Android's sources. Each tree that one of the two alone reads has to belong to classes of `classes/language.json`."""
import functools
import pathlib
import re
import sys
from typing import Dict, Iterator, List, Tuple

from . import constants
from .base import TOP, Counts, Options, Trial
from .classes import Class, classes, compare_page, page_trial
from .misses import KINDS
from .pairs import below, with_imports
from .reading import refused_by_ours, refused_by_theirs
from .readings import Case, Reading, alone, in_batches, one_by_one
from .tools import aosp, program, scratch, source, write_tree

TREES = 5200
# of a hundred random trees so many of each kind
SHARES = {"good": 45, "featured": 20, "near miss": 25, "mutated": 10}


def word(reading: Reading) -> str:
    """Who reads the tree."""
    ours, theirs = reading.ours.is_read, reading.theirs.is_read
    return "both" if ours and theirs else "the program alone" if ours else "Android 14 alone" if theirs else "neither"


def weigh(options: Options, reading: Reading, counts: Counts, of: str) -> None:
    """Counts one tree, and explains it where one of the two alone reads it, or Android's compiler aborts."""
    if any(line.startswith("limit ") for line in reading.ours.lines):
        counts.detail(f"{of}: above a limit of the program")
        return
    who, found, rest = word(reading), set(), []
    counts.detail(f"{of}: {who} read{'' if who in ('both', 'neither') else 's'} it")
    if who == "the program alone" or reading.has_aborted:
        counts.add("Android 14's compiler aborts", int(reading.has_aborted))
        found, rest = refused_by_theirs(options, reading.theirs.lines)
    elif who == "Android 14 alone":
        found, rest = refused_by_ours(options, reading.case.files, reading.ours.lines)
    elif options.turn("check", who) != who:
        rest = ["turned"]
    for name in sorted(found):
        counts.detail(f"of the class {name}")
    if rest or (who.endswith("alone") and not found):
        counts.differ(of, repr(reading.case.name), who, reading.case.files, reading.ours.lines[:5], reading.theirs.lines[:5], "left:", rest[:5])


def compare_examples(options: Options) -> Counts:
    """The smallest example of each class is what its table says."""
    counts = Counts()
    for name, row in classes(Options(options.program, options.home), "language").items():
        reading = alone(options, Case(name, row["files"]))
        weigh(options, reading, counts, "examples")
        expected = {"here": "the program alone", "Android 14": "Android 14 alone", "both": "both"}.get(row["reads"])
        if row["reads"] == "aborts" and not reading.has_aborted or expected not in (None, word(reading)):
            counts.differ("example", name, row["reads"], reading.ours.lines, reading.theirs.lines)
        if row["reads"] == "both":
            compare_meanings(options, name, row, counts)
    return counts


def compare_meanings(options: Options, name: str, row: Class, counts: Counts) -> None:
    """Both dumps have the line that the table says: the two mean different things."""
    with scratch() as room:
        write_tree(room / "t", row["files"])
        program(options, "dump", "t", "ours", cwd=room)
        aosp(options, "--structured", "--dumpapi", "-I", ".", "-o", "../theirs", *sorted(row["files"]), cwd=room / "t")
        for side in ("ours", "theirs"):
            text = "".join(path.read_text() for path in sorted((room / side).rglob("*.aidl")))
            line = options.turn(f"meaning of {name}", row[side] if f"  {row[side]}\n" in text else "no such line")
            counts.add("lines of a dump that mean something else")
            if line != row[side]:
                counts.differ("meaning of", name, side, text, "the table:", row[side])


def row_cases() -> Iterator[Case]:
    """The trees of the rows: what stands below each folder that a run names, and the files of each case of a table of trees."""
    sys.path.insert(0, str(TOP / "tools/check"))
    rows, seen = __import__("rows"), set()
    for name, files in [*trees_of_runs(rows), *trees_of_tables(rows)]:
        key = repr(sorted(files.items()))
        if files and key not in seen and all(re.fullmatch(r"\w+", part) for path in files for part in path[:-5].split("/")):
            seen.add(key)
            yield Case(name[:80], with_imports(files))


def trees_of_runs(rows: "module") -> Iterator[Tuple[str, Dict[str, str]]]:
    """What stands below each folder that a run names, without the frozen versions of an API."""
    for name, run in rows.runs():
        for folder in {word.decode("utf-8", "replace") for word in run.words} if not run.fails and run.can_be_laid() else ():
            files = below(run.files, folder)
            yield name, {path: text for path, text in files.items() if not path.split("/")[0].isdigit()}


def trees_of_tables(rows: "module") -> Iterator[Tuple[str, Dict[str, str]]]:
    """The files of each case of a table of names, constants or types."""
    for path in sorted(TOP.glob("crates/worked_rows/data/*.rows")):
        for block in path.read_text().split("\n\n"):
            lines = block.split("\n")
            kind = next((line.split(" ")[0] for line in lines if line and not line.startswith("#")), "")
            for case in filter(None, map(rows.case_of, lines)) if kind in ("names", "constants", "types") else ():
                files = [file.split(": ", 1) for file in case[0].split(" || ")]
                texts = {rows.plain(file[0]).decode(): rows.plain(file[1]).decode("utf-8", "surrogateescape") for file in files if len(file) == 2}
                yield f"{path.name}: {case[0]}", {name: text for name, text in texts.items() if name.endswith(".aidl")}


def random_cases(seed: int, count: int) -> Dict[str, List[Case]]:
    """The random trees of each kind, each with a package of its own."""
    made, number = {}, 0
    for kind, share in SHARES.items():
        made[kind] = []
        for _ in range(count * share // 100):
            made[kind].append(KINDS[kind](f"{seed}/{kind}/{number}", f"p{number}"))
            number += 1
    return made


def real_cases(options: Options) -> Iterator[Case]:
    """The real files of Android 14's sources, each alone, at the place that its package says."""
    for folder in (source(options, "base"), source(options, "tools")):
        for path in sorted(folder.rglob("*.aidl")):
            text = path.read_bytes().decode("utf-8", "surrogateescape")
            yield Case(str(path.relative_to(folder)), {placed(path, text): text})


def placed(path: pathlib.Path, text: str) -> str:
    """The path from the root of its tree on: the folders of its package and its name."""
    package = next((line.strip()[8:].split(";")[0].strip() for line in text.split("\n") if line.strip().startswith("package ")), "")
    return "/".join([*[part for part in package.split(".") if part], path.name])


def run(options: Options) -> Counts:
    """All trees."""
    counts = Counts()
    for words in ("random trees", "trees of rows", "real files", "Android 14's compiler aborts"):
        counts.add(words, 0)
    compare_page(options, "language", counts)
    counts.join(compare_examples(options))
    for kind, cases in random_cases(options.seed, options.amount(TREES)).items():
        for reading in in_batches(options, cases) if kind == "good" else one_by_one(options, cases):
            counts.add("random trees")
            weigh(options, reading, counts, kind)
    counts.join(constants.compare(options, options.seed, options.amount(constants.EXPRESSIONS), weigh))
    for words, cases in (("trees of rows", list(row_cases())), ("real files", list(real_cases(options)))):
        for reading in one_by_one(options, cases):
            counts.add(words)
            weigh(options, reading, counts, words)
            if words == "real files" and reading.ours.lines:
                counts.detail("real files: the first line of check is " + (reading.ours.lines[0].split(": ") + [""])[1])
    return counts


def trials(options: Options) -> Iterator[Trial]:
    """Each class left out, and each answer turned once."""
    for name, row in classes(options, "language").items():
        if row["reads"] == "both":
            yield Trial(f"one answer turned, meaning of {name}", functools.partial(compare_examples, options.sabotaged(f"meaning of {name}")))
        else:
            yield Trial(f"without the class {name}", functools.partial(compare_examples, options.sabotaged(name)))
    yield page_trial(options, "language")
    yield from constants.trials(options, weigh)
    yield Trial("one answer turned, check", functools.partial(compare_examples, options.sabotaged("check")))
