"""Trees, and what either compiler answers about each: whether it reads it."""
import concurrent.futures
import pathlib
import re
from typing import Dict, Iterator, List, NamedTuple, Sequence, Tuple

from .base import Options
from .pairs import JOBS, Answer, errors, mentioned, paths
from .tools import aosp, program, scratch, write_tree

BATCH = 40


class Case(NamedTuple):
    """A tree, each file with its path."""
    name: str
    files: Dict[str, str]


class Reading(NamedTuple):
    """What both answer about a tree; `has_aborted` where a signal ended Android's compiler."""
    case: Case
    ours: Answer
    theirs: Answer
    has_aborted: bool = False


def ours_of(options: Options, folder: pathlib.Path) -> Answer:
    """`check TREE`; its lines where it refuses."""
    done = program(options, "check", "t", cwd=folder)
    return Answer(done.exit == 0, () if done.exit == 0 else tuple(done.lines))


def theirs_of(options: Options, folder: pathlib.Path) -> Tuple[Answer, bool]:
    """The dump of the tree by Android's compiler, into `their` beside it; its messages where it refuses, and whether it aborted."""
    done = aosp(options, "--structured", "--dumpapi", "-I", ".", "-o", "../their", *paths(folder / "t"), cwd=folder / "t")
    has_aborted = done.exit < 0 or done.exit >= 128
    return Answer(done.exit == 0, () if done.exit == 0 else errors(done.err) or (f"ended with {done.exit}",)), has_aborted


def alone(options: Options, case: Case) -> Reading:
    """What both answer about one tree."""
    with scratch() as room:
        write_tree(room / "t", case.files)
        return Reading(case, ours_of(options, room), *theirs_of(options, room))


def package_of(case: Case) -> str:
    """The package of a random tree, which no other tree has."""
    return next(iter(case.files)).split("/")[0]


def together(options: Options, cases: Sequence[Case]) -> List[Reading]:
    """What both answer about trees of packages of their own, many in one run; a tree that one of them refuses is asked alone."""
    left, readings = {package_of(case): case for case in cases}, {}
    while left:
        with scratch() as room:
            for case in left.values():
                write_tree(room / "t", case.files)
            ours = ours_of(options, room)
            theirs, _ = theirs_of(options, room) if ours.is_read else (Answer(False, ()), False)
        if ours.is_read and theirs.is_read:
            readings.update({name: Reading(case, ours, theirs) for name, case in left.items()})
            break
        unread = mentioned([*(() if ours.is_read else ours.lines), *theirs.lines]) & set(left) or set(left)
        for name in unread:
            readings[name] = alone(options, left.pop(name))
    return [readings[package_of(case)] for case in cases]


def in_batches(options: Options, cases: Sequence[Case], size: int = BATCH) -> Iterator[Reading]:
    """What both answer about trees of packages of their own, in their order."""
    batches = [cases[first:first + size] for first in range(0, len(cases), size)]
    with concurrent.futures.ThreadPoolExecutor(JOBS) as pool:
        for readings in pool.map(lambda batch: together(options, batch) if size > 1 else [alone(options, batch[0])], batches):
            yield from readings


def one_by_one(options: Options, cases: Sequence[Case]) -> Iterator[Reading]:
    """What both answer about any trees, each in a run of its own."""
    return in_batches(options, cases, 1)
