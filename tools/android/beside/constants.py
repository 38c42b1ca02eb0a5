"""Random constant expressions: which compiler takes them, and which value each gives them. Names of constants and enumerators stand in them."""
import functools
import random
import re
from typing import Callable, Iterator, List, Tuple

from .base import Counts, Options, Trial
from .pairs import paths
from .readings import BATCH, Case, Reading, in_batches
from .tools import aosp, program, scratch, write_tree
from .translate import Translator

EXPRESSIONS = 2000
Weigh = Callable[[Options, Reading, Counts, str], None]
NUMBERS = ["0", "1", "2", "7", "31", "100", "2147483647", "2147483648", "5000000000", "0x10", "0xffffffff", "0x80000000", "3L", "1L", "0xffL"]
NAMES = ["A", "B", "C", "F.Y", "F.Z"]
FRAME = """package {package};
parcelable R {{
  {type} value = {text};
  const int A = {small};
  const long B = {other};
  const long C = 5000000000;
  @Backing(type="long") enum F {{ Y = 1, Z = 3 }}
}}
"""


def number(dice: random.Random, depth: int) -> str:
    """An expression that stands for a number, mostly."""
    kind = dice.random()
    if depth == 0 or kind < 0.25:
        return dice.choice(NUMBERS if dice.random() < 0.7 else NAMES)
    if kind < 0.35:
        return f"({number(dice, depth - 1)})"
    if kind < 0.5:
        return dice.choice("-~+") + number(dice, 0)
    operator = dice.choice(["+", "-", "*", "/", "%", "<<", ">>", "&", "|", "^"])
    right = dice.choice(["1", "3", "31", "31L", "5L", "B"]) if operator in ("<<", ">>") else number(dice, depth - 1)
    return f"{number(dice, depth - 1)} {operator} {right}"


def truth(dice: random.Random, depth: int) -> str:
    """An expression that stands for a truth value, mostly."""
    kind = dice.random()
    if depth == 0 or kind < 0.2:
        return dice.choice(["true", "false"])
    if kind < 0.4:
        return "!" + dice.choice(["true", "false", f"({truth(dice, depth - 1)})"])
    if kind < 0.6:
        return f"({truth(dice, depth - 1)}) {dice.choice(['&&', '||', '=='])} ({truth(dice, depth - 1)})"
    return f"({number(dice, depth - 1)}) {dice.choice(['<', '<=', '==', '!='])} ({number(dice, depth - 1)})"


def case(seed: str, package: str) -> Case:
    """A tree with one expression."""
    dice = random.Random(seed)
    wanted = dice.choice(["int", "int", "long", "long", "byte", "boolean", "String"])
    made = truth if wanted == "boolean" else number
    text = " + ".join(dice.choice(['"x"', '"a b"', '""']) for _ in range(dice.randint(1, 3))) if wanted == "String" else made(dice, 3)
    return framed(package, wanted, text, dice.choice([0, 1, 5, -3]), dice.choice([1, 2, 3, 30]))


def framed(package: str, wanted: str, text: str, small: int, other: int) -> Case:
    """A tree with this expression, and constants that it may name."""
    return Case(text, {f"{package}/R.aidl": FRAME.format(package=package, type=wanted, text=text, small=small, other=other)})


def values(options: Options, readings: List[Reading]) -> Iterator[Tuple[Reading, str, str]]:
    """The value that either dump has of each expression that both take."""
    both = [reading for reading in readings if reading.ours.is_read and reading.theirs.is_read]
    for first in range(0, len(both), BATCH):
        with scratch() as room:
            for reading in both[first:first + BATCH]:
                write_tree(room / "t", reading.case.files)
            program(options, "dump", "t", "ours", cwd=room)
            aosp(options, "--structured", "--dumpapi", "-I", ".", "-o", "../theirs", *paths(room / "t"), cwd=room / "t")
            theirs = Translator({name: (room / "theirs" / name).read_text() for name in paths(room / "theirs")}, lambda rule: True).texts()
            for reading in both[first:first + BATCH]:
                name = next(iter(reading.case.files))
                yield reading, value_of((room / "ours" / name).read_text()), value_of(theirs[name])


def value_of(text: str) -> str:
    """What stands behind the field's name in a dump."""
    found = re.search(r"^  \w+ value = (.*);$", text, re.M)
    return found[1] if found else "no value"


def class_of(text: str) -> str:
    """Why the two may give an expression another value: a shift has another width; or nothing."""
    if not re.search(r"<<|>>", text):
        return ""
    return "width-of-name" if re.search(r"\b[BC]\b|F\.", text) else "width-of-shift" if re.search(r"\d[lL]\b|5000000000|2147483648", text) else ""


def compare(options: Options, seed: int, count: int, weigh: Weigh) -> Counts:
    """The random expressions; `weigh` counts who takes each."""
    counts, readings = Counts(), []
    cases = [case(f"{seed}/constant/{place}", f"p{place}") for place in range(count)]
    if options.sabotage:  # one of each class at least
        cases += [framed(f"p{count}", "long", "1 << 31L", 1, 3), framed(f"p{count + 1}", "long", "B << 30", 1, 3)]
    for reading in in_batches(options, cases):
        readings.append(reading)
        weigh(options, reading, counts, "constant expressions")
    for reading, ours, theirs in values(options, readings):
        name = class_of(reading.case.name)
        ours = ours if name else options.turn("value", ours)
        counts.add("constant expressions with one value", int(ours == theirs))
        if ours != theirs and name and options.has_row(name):
            counts.detail(f"constant expressions with two values, of the class {name}")
        elif ours != theirs:
            counts.differ("the value of", reading.case.files, ours, theirs)
    return counts


def trials(options: Options, weigh: Weigh) -> Iterator[Trial]:
    """One value turned, and either class left out."""
    for name in ("value", "width-of-name", "width-of-shift"):
        yield Trial(f"constant expressions, {name}", functools.partial(compare, options.sabotaged(name), options.seed, 60, weigh))
