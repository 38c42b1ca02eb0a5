"""`judge` beside `--checkapi=compatible` of Android 14, over the dumps of both trees, as Android's build does it.

Pairs: those of the program's rows, those of the tables, and random ones. Each pair in which the two differ has to belong to classes of
`classes/judge.json`; where Android's tool alone says yes, `witness` or the bytes of the class show what is misread."""
import functools
import json
import pathlib
import re
from typing import Iterator, List, Set, Tuple

from .base import Counts, Options, Trial
from .classes import classes, compare_page, page_trial
from .dumped import fields, without_heap, without_nullable
from .pairs import Answer, Pair, Verdict, alone, in_batches, laid, one_by_one, random_pairs, row_pairs
from .reading import explained_pair
from .tools import program, scratch, write_tree

PAIRS = 5200
# the figures in the order in which they are printed
FIGURES = ("random pairs", "pairs of rows", "pairs: both say no", "pairs: both say yes", "pairs: Android 14 alone says yes",
           "of these, witness or the bytes of a default show it", "pairs: the program alone says yes")


def word(answer: Answer) -> str:
    """What a tool says of a pair, in a word."""
    return "yes" if answer.is_yes else "no" if answer.is_read else "unread"


def judged(options: Options, old: pathlib.Path, new: pathlib.Path) -> List[str]:
    """What `judge` prints; no line where it says yes."""
    lines = program(options, "judge", old, new).lines
    return [] if list(lines) == ["yes"] else list(lines)


def rewritten(folder: pathlib.Path, into: pathlib.Path, change: "function") -> pathlib.Path:
    """A dump with each of its texts changed."""
    for path in folder.rglob("*.aidl"):
        target = into / path.relative_to(folder)
        target.parent.mkdir(parents=True, exist_ok=True)
        target.write_text(change(path.read_text(encoding="ascii")), encoding="ascii")
    into.mkdir(parents=True, exist_ok=True)
    return into


def is_renamed(line: str, old: pathlib.Path, new: pathlib.Path) -> bool:
    """Whether the line speaks of a member that has a new name in its old place, and nothing else that is new."""
    before, after = fields(old), fields(new)
    owner, _, name = line.split(" ")[1].rpartition(".")
    names = [member.name for member in before.get(owner, [])]
    if name not in names or names.index(name) >= len(after.get(owner, [])):
        return False
    was, now = before[owner][names.index(name)], after[owner][names.index(name)]
    return now.name not in names and was.type == now.type


def refused_here(options: Options, verdict: Verdict) -> Tuple[Set[str], List[str]]:
    """The classes of the lines that `judge` alone prints, and the lines that no class explains."""
    known, found, rest = classes(options, "judge"), set(), []
    with scratch() as room:
        laid(room, verdict.pair)
        old, new = room / "old.dump", room / "new.dump"
        for side, dump in (("old", old), ("new", new)):
            program(options, "dump", side, dump, cwd=room)
        kept = {change: judged(options, rewritten(old, room / f"old.{change.__name__}", change), rewritten(new, room / f"new.{change.__name__}", change))
                for change in (without_nullable, without_heap)}
        for line in verdict.ours.lines:
            code = line.split(" ")[0]
            if code == "C19" and line not in kept[without_heap]:
                name = "heap"
            elif code in ("C5", "C6", "C11", "C15") and line not in kept[without_nullable]:
                name = "nullable"
            elif code in ("C10", "C15") and is_renamed(line, old, new):
                name = "field-renamed" if code == "C10" else "member-renamed"
            else:
                name = "none"
            (found.add if name in known else rest.append)(name if name in known else line)
    return found, rest


def refused_there(options: Options, verdict: Verdict) -> Tuple[Set[str], List[str]]:
    """The classes of the messages of Android's compiler alone, and those that no class explains."""
    known, found, rest = classes(options, "judge"), set(), []
    for message in verdict.theirs.lines:
        names = [name for name, row in known.items() if "message" in row and re.search(row["message"], changed(message))]
        if names:
            found.add(names[0])
        else:
            rest.append(message)
    return found, rest


def changed(message: str) -> str:
    """A message on annotations without those that both versions have."""
    parts = re.fullmatch(r"(.*Changed annotations: )(.*) to (.*)", message)
    if not parts:
        return message
    before, after = (re.findall(r"@\w+(?:\([^)]*\))?", part) for part in parts.groups()[1:])
    lost, new = ([one for one in some if one not in others] for some, others in ((before, after), (after, before)))
    return parts[1] + (" ".join(lost) or "(empty)") + " to " + (" ".join(new) or "(empty)")


def shown(options: Options, verdict: Verdict) -> bool:
    """Whether `witness` prints a call that goes wrong, or the bytes of a default are read otherwise. For `witness` an interface that carries each type
    of both versions is put into both trees."""
    with scratch() as room:
        laid(room, verdict.pair)
        for side in ("old", "new"):
            program(options, "dump", side, f"{side}.dump", cwd=room)
        names = sorted(set(fields(room / "old.dump")) & set(fields(room / "new.dump")))
        places = [line.split(" ")[1] for line in verdict.ours.lines]
        if any(read_otherwise(options, room, place) for place in places if place.rpartition(".")[0] in names):
            return True
        methods = " ".join(f"void carry{number}(in {name} value);" for number, name in enumerate(names))
        for side in ("old", "new"):
            write_tree(room / side, {"carrying/ICarry.aidl": f"package carrying; interface ICarry {{ {methods} }}"})
        return any(line.startswith("call ") for line in program(options, "witness", "old", "new", cwd=room).lines)


def read_otherwise(options: Options, room: pathlib.Path, place: str) -> bool:
    """Whether the two versions read other values of the same bytes: those of a parcelable's default, or of a union's member, as one of them writes it."""
    owner, _, member = place.rpartition(".")
    for value in [{}, *({member: sample} for sample in (0, "", "x", False, [], None, {}))]:
        (room / "value").write_text(json.dumps([value]))
        for writer in ("old", "new"):
            written = program(options, "encode", "--tree", writer, owner, "value", cwd=room)
            if written.exit == 0:
                (room / "bytes").write_text(written.out)
                read = [program(options, "decode", "--tree", reader, owner, "bytes", cwd=room).lines for reader in ("old", "new")]
                if read[0] != read[1]:
                    return True
    return False


def weigh(options: Options, verdict: Verdict, counts: Counts, of: str) -> None:
    """Counts one pair, and explains it where the two differ."""
    ours, theirs = options.turn("judge", word(verdict.ours)), options.turn("--checkapi", word(verdict.theirs))
    where = f"pair of {verdict.pair.name!r}"
    if ours == theirs:
        counts.add({"yes": "pairs: both say yes", "no": "pairs: both say no", "unread": "pairs: neither reads both trees"}.get(ours, ours))
        by_rule(verdict, counts, "by both")
    elif (ours, theirs) == ("no", "yes"):
        found, rest = refused_here(options, verdict)
        counts.add("pairs: Android 14 alone says yes")
        counts.add("of these, witness or the bytes of a default show it", int(shown(options, verdict)))
        by_rule(verdict, counts, "by the program alone")
        tell(counts, found, rest, where, verdict)
    elif (ours, theirs) == ("yes", "no"):
        found, rest = refused_there(options, verdict)
        counts.add("pairs: the program alone says yes")
        tell(counts, found, rest, where, verdict)
    elif "unread" in (ours, theirs):
        counts.add("pairs: one of the two doesn't read a tree, " + ("the program" if ours == "unread" else "Android 14"))
        found, rest = explained_pair(options, verdict)
        tell(counts, found, rest, where, verdict)
    else:
        counts.differ(of, where, "the program:", ours, "Android 14:", theirs)


def by_rule(verdict: Verdict, counts: Counts, who: str) -> None:
    """Counts the rules that are broken, each once a pair."""
    if verdict.ours.is_read and verdict.theirs.is_read:
        for code in sorted({line.split(" ")[0] for line in verdict.ours.lines}, key=lambda code: int(code[1:])):
            counts.detail(f"pairs with {code}, refused {who}")


def tell(counts: Counts, found: Set[str], rest: List[str], where: str, verdict: Verdict) -> None:
    """Counts the classes of a pair, or notes what none explains."""
    for name in sorted(found):
        counts.detail(f"of the class {name}")
    if rest or not found:
        counts.differ(where, verdict.pair.old, verdict.pair.new, "the program:", verdict.ours.lines[:6], "Android 14:", verdict.theirs.lines[:6],
                      "left:", rest[:6])


def compare_examples(options: Options) -> Counts:
    """The smallest example of each class: it is what the table says, and its bytes are read so."""
    counts = Counts()
    from_table = Options(options.program, options.home)
    for name, row in classes(from_table, "judge").items():
        verdict = alone(options, Pair(name, row["old"], row["new"]))
        weigh(options, verdict, counts, "examples")
        expected = ("no", "yes") if row["yes"] == "Android 14" else ("yes", "no")
        lines = list(verdict.ours.lines) or ["yes"]
        if (word(verdict.ours), word(verdict.theirs)) != expected or lines != row["lines"]:
            counts.differ("example", name, lines, verdict.theirs.lines)
        for show in row["shows"]:
            compare_bytes(options, name, row, show, counts)
    return counts


def compare_bytes(options: Options, name: str, row: dict, show: dict, counts: Counts) -> None:
    """The bytes that one version wrote, as each reads them."""
    with scratch() as room:
        laid(room, Pair(name, row["old"], row["new"]))
        (room / "hex").write_text(show["bytes"])
        for side in ("old", "new"):
            printed = options.turn("decode", " ".join(program(options, "decode", "--tree", side, show["type"], "hex", cwd=room).lines))
            counts.add("readings of the bytes of an example")
            if printed != show[side]:
                counts.differ("bytes of", name, side, printed, "the table:", show[side])


def run(options: Options) -> Counts:
    """All pairs."""
    counts = Counts()
    for words in FIGURES:
        counts.add(words, 0)
    compare_page(options, "judge", counts)
    counts.join(compare_examples(options))
    for verdict in one_by_one(options, list(row_pairs())):
        counts.add("pairs of rows")
        weigh(options, verdict, counts, "rows")
    for verdict in in_batches(options, random_pairs(options.seed, options.amount(PAIRS))):
        counts.add("random pairs")
        weigh(options, verdict, counts, "random")
    return counts


def trials(options: Options) -> Iterator[Trial]:
    """Each class left out, and each answer turned once."""
    yield page_trial(options, "judge")
    for name in [*classes(options, "judge"), "judge", "--checkapi", "decode"]:
        kind = "one answer turned, " if name in ("judge", "--checkapi", "decode") else "without the class "
        yield Trial(kind + name, functools.partial(compare_examples, options.sabotaged(name)))
