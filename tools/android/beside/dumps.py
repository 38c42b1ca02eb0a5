"""`dump` beside Android 14's `--dumpapi`: each file of the one is that of the other, rewritten by the sixteen rules of `classes/dumps.json`.

Each dump is also read by the other tool, and means the same there. The last lines speak of the frozen version and of the hash that Android's
sources have, and of the code that is generated from both dumps."""
import concurrent.futures
import functools
import hashlib
import pathlib
import random
import re
from typing import Dict, Iterator, List, Sequence, Set

from .base import Counts, Options, Trial
from .classes import classes, compare_page, page_trial
from .draw import draw_tree
from .language import real_cases, row_cases
from .pairs import JOBS, errors, paths
from .reading import refused_by_ours
from .readings import BATCH, Case, Reading, one_by_one
from .stubs import compare_permission, compare_stubs
from .tools import aosp, program, scratch, source, write_tree
from .translate import Translator

TREES = 3000
# what `--checkapi` says of a pair of dumps of one source: an annotation, or a default by another enumerator
ALLOWED = r"Changed annotations: |Changed default value: [{}\w., ]*\.\w+[{}\w., ]* to [{}\w., ]*\.\w+[{}\w., ]*\."


def texts(folder: pathlib.Path) -> Dict[str, str]:
    """The files of a dump."""
    return {name: (folder / name).read_bytes().decode("utf-8", "surrogateescape") for name in paths(folder)}


def dumped_by_aosp(options: Options, tree: pathlib.Path, into: pathlib.Path) -> List[str]:
    """Writes the dump of Android's compiler; its messages where it refuses."""
    done = aosp(options, "--structured", "--dumpapi", "-I", ".", "-o", into, *paths(tree), cwd=tree)
    return list(errors(done.err)) or [f"ended with {done.exit}"] if done.exit else []


class Batch:
    """Trees that both read, with the dumps of both; `owner` says to which tree a file belongs."""

    def __init__(self, options: Options, cases: Sequence[Case], room: pathlib.Path):
        self.options, self.cases, self.room = options, cases, room
        for case in cases:
            write_tree(room / "t", case.files)
        self.trouble = dumped_by_aosp(options, room / "t", room / "theirs") + \
            [line for line in program(options, "dump", "t", "ours", cwd=room).lines if not line.startswith("wrote ")]
        self.ours, self.theirs = (texts(room / "ours"), texts(room / "theirs")) if not self.trouble else ({}, {})
        self.other_meaning: Set[str] = set()

    def owner(self, path: str) -> str:
        """The tree of a file: its package, where there are many trees."""
        return path.split("/")[0] if len(self.cases) > 1 else ""


def compare_texts(options: Options, batch: Batch, counts: Counts, of: str) -> None:
    """Each file of the program's dump is that of Android's, rewritten; and which rules each tree needs."""
    rewritten = Translator(batch.theirs, options.has_row).texts()
    for path, text in batch.ours.items():
        other = options.turn("dump", rewritten.get(path, "no file"))
        counts.add("files of dumps compared")
        counts.add("files that are the other's by the rules", int(other == text))
        if other != text and has_other_names(text, other) and options.has_row("full-name-of-type"):
            batch.other_meaning.add(path)
            counts.detail("files of the class full-name-of-type")
        elif other != text and has_other_shifts(text, other, batch.theirs[path]) and options.has_row("width-of-name"):
            batch.other_meaning.add(path)
            counts.detail("files of the class width-of-name")
        elif other != text:
            counts.differ("dump of", of, path, repr(text), "rewritten:", repr(other))
    if set(batch.theirs) != set(batch.ours):
        counts.differ("files of", of, sorted(set(batch.theirs) ^ set(batch.ours)))
    for rule in classes(Options(options.program, options.home), "dumps"):
        less = Translator(batch.theirs, lambda name, rule=rule: name != rule).texts()
        needing = {batch.owner(path) for path in batch.ours if less.get(path) != rewritten.get(path)}
        counts.detail(f"trees that need the rule {rule}", len(needing))


def has_other_names(text: str, other: str) -> bool:
    """Whether the lines differ in names alone, each of which has more parts in front in the other text: two meanings of one name."""
    lines, others = text.split("\n"), other.split("\n")
    return len(lines) == len(others) and all(len(one.split()) == len(two.split()) and all(
        word == longer or longer.endswith("." + word) for word, longer in zip(one.split(), two.split())) for one, two in zip(lines, others))


def has_other_shifts(text: str, other: str, source: str) -> bool:
    """Whether the lines differ in values alone, each of a shift of a name or by a long: two widths of one expression."""
    lines, others = text.split("\n"), other.split("\n")
    differing = [(one, two) for one, two in zip(lines, others) if one != two]
    shifts = {line.split(" = ")[0].strip() for line in source.split("\n") if re.search(r" = .*(<<|>>).*/\*", line) and re.search(r" = .*([A-Za-z_]\w*|\d[lL])", line)}
    return len(lines) == len(others) and all(one.split(" = ")[0] == two.split(" = ")[0] and one.split(" = ")[0].strip() in shifts for one, two in differing)


def compare_read_here(options: Options, batch: Batch, counts: Counts, of: str) -> None:
    """The program reads Android's dump, and its own dump of that is its dump of the source; where it doesn't read it, a class says why."""
    left = {path: text for path, text in batch.theirs.items() if not batch.other_meaning}
    while left:
        with scratch() as room:
            write_tree(room / "t", left)
            done = program(options, "dump", "t", "again", cwd=room)
            again = texts(room / "again") if done.exit == 0 else {}
        if done.exit == 0:
            break
        found, rest = refused_by_ours(options, left, done.lines)
        bad = {batch.owner(line.split(":")[0][2:]) for line in done.lines if line.startswith("t/")}
        counts.add("trees whose Android dump the program doesn't read", len(bad))
        for name in found:
            counts.detail(f"Android dumps not read, of the class {name}")
        if rest or not bad:
            counts.differ("Android's dump isn't read:", of, done.lines[:3])
            return
        left = {path: text for path, text in left.items() if batch.owner(path) not in bad}
    counts.add("trees whose Android dump the program reads as the source", len({batch.owner(path) for path in left}))
    for path in left:
        if options.turn("read here", again[path]) != batch.ours[path]:
            counts.differ("Android's dump read here:", of, path, repr(again[path]), "the source's:", repr(batch.ours[path]))


def compare_read_there(options: Options, batch: Batch, counts: Counts, of: str) -> None:
    """Android's compiler reads the program's dump, and its dump of that is the same by the rules; and what `--checkapi` says of both."""
    if batch.other_meaning:
        return
    trouble = dumped_by_aosp(options, batch.room / "ours", batch.room / "back")
    if trouble:
        counts.differ("the program's dump isn't read:", of, trouble[:3])
        return
    back = Translator(texts(batch.room / "back"), options.has_row).texts()
    counts.add("trees whose dump Android's compiler reads as it is", len({batch.owner(path) for path in back}))
    for path, text in back.items():
        if options.turn("read there", text) != batch.ours[path]:
            counts.differ("the program's dump read there:", of, path, repr(text), repr(batch.ours[path]))
    refused = set()
    for old, new in (("theirs", "back"), ("back", "theirs")):
        done = aosp(options, "--structured", "--checkapi=compatible", old, new, cwd=batch.room)
        for message in errors(done.err) if done.exit else ():
            where = re.search(r"(?:theirs|back)/(\S+?\.aidl)", message)
            refused.add(batch.owner(where[1]) if where else "")
            if not re.search(ALLOWED, message):
                counts.differ("--checkapi of both dumps:", of, message)
    counts.add("trees whose two dumps --checkapi=compatible accepts, both ways", len({batch.owner(path) for path in back} - refused))


def compare(options: Options, cases: Sequence[Case], of: str) -> Counts:
    """All comparisons of trees that both read."""
    counts = Counts()
    with scratch() as room:
        batch = Batch(options, cases, room)
        if batch.trouble:
            counts.differ("not dumped:", of, batch.trouble[:3])
            return counts
        counts.add("trees that both dump", len(cases))
        compare_texts(options, batch, counts, of)
        compare_read_here(options, batch, counts, of)
        compare_read_there(options, batch, counts, of)
    return counts


def random_cases(seed: int, count: int) -> List[Case]:
    """Trees with annotations and comments that Android's dump keeps, each with a package of its own."""
    return [Case("random", draw_tree(f"{seed}/dump/{number}", f"p{number}", frozenset(["dressed"])).files()) for number in range(count)]


def compare_examples(options: Options) -> Counts:
    """The smallest example of each rule; it is equal by all rules, and isn't without its own."""
    counts = Counts()
    for name, row in classes(Options(options.program, options.home), "dumps").items():
        counts.join(compare(options, [Case(name, row["files"])], f"the example {name}"))
        if options.sabotage is None and not compare(options.sabotaged(name), [Case(name, row["files"])], name).unexplained:
            counts.differ("the rule", name, "isn't needed by its example")
    return counts


def compare_meaning(options: Options) -> Counts:
    """The trees in which a full name means another type in either dump, or a shift has another width; and the one in which the least long is written."""
    counts, known = Counts(), classes(Options(options.program, options.home), "language")
    for name in ("full-name-of-type", "width-of-name"):
        counts.join(compare(options, [Case(name, known[name]["files"])], name))
    counts.join(compare(options, [Case("least long", {"R.aidl": "parcelable R { long a = 0x8000000000000000; }"})], "least long"))
    return counts


def soong_hash(folder: pathlib.Path, last: str) -> str:
    """The digits that Android's build writes: over the sorted lines of sha1sum and one line more."""
    lines = [f"{hashlib.sha1((folder / name).read_bytes()).hexdigest()}  ./{name}\n" for name in paths(folder)]
    return hashlib.sha1(("".join(lines) + last + "\n").encode()).hexdigest()


def compare_frozen(options: Options) -> Counts:
    """The one frozen version in Android's sources: its files are the dump of its sources, and its hash is by the formula; `verify` says kept."""
    counts = Counts()
    module = source(options, "base", "omapi", "aidl")
    api = module / "aidl_api/android.se.omapi"
    kept = (api / "1/.hash").read_text().split("\n")[-2]
    with scratch() as room:
        files = [name for name in paths(module) if not name.startswith("aidl_api/")]
        done = aosp(options, "--structured", "--dumpapi", "--stability=vintf", "-I", ".", "-o", room / "dump", *files, cwd=module)
        same = [name for name in paths(api / "1") if done.exit == 0 and (room / "dump" / name).exists()
                and (room / "dump" / name).read_bytes() == (api / "1" / name).read_bytes()]
        counts.add("files of android.se.omapi 1 that are Android's dump of its sources", len(same))
        if same != paths(api / "1"):
            counts.differ("android.se.omapi 1:", errors(done.err)[:3], same, paths(api / "1"))
    if options.turn("hash", soong_hash(api / "1", "latest-version")) != kept:
        counts.differ("the hash of android.se.omapi 1 isn't by the formula:", kept)
    answer = program(options, "verify", api).lines
    if not answer or options.turn("verify", " ".join(answer[0].split(" ")[:2])) != "1 kept":
        counts.differ("verify of android.se.omapi:", answer)
    counts.add("frozen versions whose hash is by the formula of Android's build, of which verify says kept")
    return counts


def both_read(readings: Iterator[Reading]) -> List[Case]:
    """The trees that both read."""
    return [reading.case for reading in readings if reading.ours.is_read and reading.theirs.is_read]


def run(options: Options) -> Counts:
    """All trees."""
    counts = Counts()
    compare_page(options, "dumps", counts)
    counts.join(compare_examples(options))
    cases = random_cases(options.seed, options.amount(TREES))
    work = [(cases[first:first + BATCH], "random trees") for first in range(0, len(cases), BATCH)]
    for of, some in (("trees of rows", row_cases()), ("real files", real_cases(options))):
        work += [([case], f"{of}: {case.name}") for case in both_read(one_by_one(options, list(some)))]
    with concurrent.futures.ThreadPoolExecutor(JOBS) as pool:
        for part in pool.map(lambda item: compare(options, *item), work):
            counts.join(part)
    counts.join(compare_meaning(options))
    counts.join(compare_frozen(options))
    counts.join(compare_permission(options))
    counts.join(compare_stubs(options, random.Random(options.seed).sample(cases, min(len(cases), 120))))
    return counts


def trials(options: Options) -> Iterator[Trial]:
    """Each rule left out, and each answer turned once."""
    yield page_trial(options, "dumps")
    for name in classes(options, "dumps"):
        yield Trial(f"without the rule {name}", functools.partial(compare_examples, options.sabotaged(name)))
    for name in ("dump", "read here", "read there"):
        yield Trial(f"one answer turned, {name}", functools.partial(compare_examples, options.sabotaged(name)))
    for name in ("hash", "verify"):
        yield Trial(f"one answer turned, {name}", functools.partial(compare_frozen, options.sabotaged(name)))
    for name in ("full-name-of-type", "width-of-name"):
        yield Trial(f"without the class {name}", functools.partial(compare_meaning, options.sabotaged(name)))
    yield Trial("one answer turned, permission", functools.partial(compare_permission, options.sabotaged("permission")))
    cases = random_cases(options.seed, 1)
    yield Trial("one answer turned, stubs", functools.partial(compare_stubs, options.sabotaged("stubs"), cases))
