"""Pairs of trees, an old and a new one, and what either tool answers about them."""
import concurrent.futures
import os
import pathlib
import random
import re
import sys
from typing import Dict, Iterator, List, NamedTuple, Optional, Sequence, Set, Tuple

from .base import TOP, Options
from .draw import draw_tree
from .edits import edited
from .tools import aosp, program, scratch, write_tree

BATCH = 40
JOBS = int(os.environ.get("COMPARE_JOBS") or os.cpu_count() or 1)


class Pair(NamedTuple):
    """Two versions of a tree, each file with its path."""
    name: str
    old: Dict[str, str]
    new: Dict[str, str]


class Answer(NamedTuple):
    """What one tool answers: `is_read` is false where it refuses one of the two trees, and the lines say why then, or else what is broken."""
    is_read: bool
    lines: Tuple[str, ...]

    @property
    def is_yes(self) -> bool:
        """Whether it says that the new version may follow the old one."""
        return self.is_read and not self.lines


class Verdict(NamedTuple):
    """What both answer about a pair."""
    pair: Pair
    ours: Answer
    theirs: Answer


def paths(folder: pathlib.Path) -> List[str]:
    """The files of a tree, from its folder on."""
    return sorted(str(path.relative_to(folder)) for path in folder.rglob("*.aidl"))


def errors(text: str) -> Tuple[str, ...]:
    """The lines of Android's compiler that refuse something."""
    return tuple(line for line in text.split("\n") if line and not line.startswith("WARNING"))


def dumped(options: Options, folder: pathlib.Path, into: pathlib.Path) -> Answer:
    """Writes the dump of Android's compiler; whether it reads the tree."""
    done = aosp(options, "--structured", "--dumpapi", "-I", ".", "-o", into, *paths(folder), cwd=folder)
    return Answer(done.exit == 0, () if done.exit == 0 else errors(done.err) or (f"ended with {done.exit}",))


def theirs_of(options: Options, room: pathlib.Path) -> Answer:
    """`--checkapi=compatible` over the dumps of both trees, as Android's build does it."""
    for side in ("old", "new"):
        dump = dumped(options, room / side, room / f"their.{side}")
        if not dump.is_read:
            return dump
    done = aosp(options, "--structured", "--checkapi=compatible", "their.old", "their.new", cwd=room)
    return Answer(True, () if done.exit == 0 else errors(done.err) or (f"ended with {done.exit}",))


def ours_of(options: Options, room: pathlib.Path) -> Answer:
    """`judge OLD NEW`."""
    lines = tuple(program(options, "judge", "old", "new", cwd=room).lines)
    if lines == ("yes",):
        return Answer(True, ())
    return Answer(all(re.fullmatch(r"C\d+ \S+", line) for line in lines), lines)


def laid(room: pathlib.Path, pair: Pair) -> None:
    """Writes both trees of a pair."""
    write_tree(room / "old", pair.old)
    write_tree(room / "new", pair.new)


def alone(options: Options, pair: Pair) -> Verdict:
    """What both answer about one pair, in a run of its own."""
    with scratch() as room:
        laid(room, pair)
        return Verdict(pair, ours_of(options, room), theirs_of(options, room))


def package_of(pair: Pair) -> str:
    """The package of a random pair, which no other pair has."""
    return next(iter({**pair.old, **pair.new})).split("/")[0]


def mentioned(lines: Sequence[str]) -> Set[str]:
    """The packages of random pairs that the lines name."""
    return {name for line in lines for name in re.findall(r"\bp\d+\b", line)}


def together(options: Options, pairs: Sequence[Pair]) -> List[Verdict]:
    """What both answer about pairs of packages of their own, in one run of many: of each pair that a tool doesn't read it is asked alone."""
    left, verdicts = {package_of(pair): pair for pair in pairs}, {}
    while left:
        with scratch() as room:
            for pair in left.values():
                laid(room, pair)
            ours, theirs = ours_of(options, room), theirs_of(options, room)
        if ours.is_read and theirs.is_read:
            for name, pair in left.items():
                verdicts[name] = Verdict(pair, part_of(ours, name), part_of(theirs, name))
            break
        unread = mentioned([*(() if ours.is_read else ours.lines), *(() if theirs.is_read else theirs.lines)]) & set(left) or set(left)
        for name in unread:
            verdicts[name] = alone(options, left.pop(name))
    return [verdicts[package_of(pair)] for pair in pairs]


def part_of(answer: Answer, name: str) -> Answer:
    """The lines of an answer that speak of one package."""
    return Answer(True, tuple(line for line in answer.lines if name in mentioned([line])))


def in_batches(options: Options, pairs: Sequence[Pair]) -> Iterator[Verdict]:
    """What both answer about random pairs, in their order."""
    batches = [pairs[first:first + BATCH] for first in range(0, len(pairs), BATCH)]
    with concurrent.futures.ThreadPoolExecutor(JOBS) as pool:
        for verdicts in pool.map(lambda batch: together(options, batch), batches):
            yield from verdicts


def one_by_one(options: Options, pairs: Sequence[Pair]) -> Iterator[Verdict]:
    """What both answer about any pairs, each in a run of its own."""
    with concurrent.futures.ThreadPoolExecutor(JOBS) as pool:
        yield from pool.map(lambda pair: alone(options, pair), pairs)


def random_pairs(seed: int, count: int) -> List[Pair]:
    """A tree and one that came of it by one, two or three edits, as often as asked for."""
    made = []
    for number in range(count):
        tree = draw_tree(f"{seed}/pair/{number}", f"p{number}")
        dice = random.Random(f"{seed}/edit/{number}")
        after, names = edited(dice, tree, dice.choice([1, 1, 1, 2, 3]))
        made.append(Pair(" ".join(names) or "unchanged", tree.files(), after.files()))
    return made


def with_imports(files: Dict[str, str]) -> Dict[str, str]:
    """The same files, each with an import of its neighbours of one package, which Android 14's compiler wants."""
    made = {}
    for path, text in files.items():
        package = re.match(r"\s*package ([\w.]+);", text)
        if package:
            names = [other.rsplit("/", 1)[-1][:-5] for other in files if other != path and other.rsplit("/", 1)[0] == path.rsplit("/", 1)[0]]
            lines = "".join(f" import {package[1]}.{name};" for name in names if f"import {package[1]}.{name};" not in text and name in text)
            text = text[:package.end()] + lines + text[package.end():]
        made[path] = text
    return made


def row_pairs() -> Iterator[Pair]:
    """The pairs of trees that the rows of the program speak of: those of `judge`, `witness` and `run`, in both orders."""
    sys.path.insert(0, str(TOP / "tools/check"))
    rows = __import__("rows")
    seen = set()
    for name, run in rows.runs():
        words = [word.decode("utf-8", "replace") for word in run.words if not word.startswith(b"--")]
        if run.fails or not run.can_be_laid() or not words or words[0] not in ("judge", "witness", "run") or len(words) < 3:
            continue
        old, new = below(run.files, words[1]), below(run.files, words[2])
        for first, second in ((old, new), (new, old)):
            key = repr((sorted(first.items()), sorted(second.items())))
            if first and second and key not in seen:
                seen.add(key)
                yield Pair(name[:80], with_imports(first), with_imports(second))


def below(files: Sequence[Tuple[bytes, bytes]], folder: str) -> Dict[str, str]:
    """The `.aidl` files below a folder of a row; of two with one path the first counts."""
    made: Dict[str, str] = {}
    for path, text in files:
        name = path.decode("utf-8", "surrogateescape")
        if name.startswith(folder + "/") and name.endswith(".aidl"):
            made.setdefault(name[len(folder) + 1:], text.decode("utf-8", "surrogateescape"))
    return made
