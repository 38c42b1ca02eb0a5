"""What a part of `compare` is: a module with

    def run(options: Options) -> Counts            compares, and counts what is equal and what isn't explained
    def trials(options: Options) -> Iterator[Trial]    what `--sabotage` tries: each has to find a difference

A part raises CouldNotRun where something that it needs isn't there; the driver ends with 2 then."""
import collections
import dataclasses
import os
import pathlib
import re
from typing import Callable, Iterator, List, NamedTuple, Optional, Tuple

HERE = pathlib.Path(__file__).resolve().parent.parent
TOP = HERE.parent.parent
HOSTS = ("v10", "v29", "v34", "ndk")  # the libbinders that `build` compiles; backends.py says what each is


class CouldNotRun(Exception):
    """Something that the part needs isn't there, or answered what it never answers."""


def home() -> pathlib.Path:
    """Where `fetch` keeps what it fetched."""
    cache = os.environ.get("XDG_CACHE_HOME") or os.path.join(os.path.expanduser("~"), ".cache")
    return pathlib.Path(os.environ.get("LEYOMUVAIN_ANDROID") or os.path.join(cache, "leyomuvain-android"))


class Sabotage:
    """Turns the first answer of one comparison, or leaves out one row of a table, and remembers whether it did."""

    def __init__(self, name: str):
        self.name, self.is_done = name, False

    def turn(self, comparison: str, answer: str) -> str:
        """The answer, or once another one: its last digit is the next one, or a text without digits has an x more."""
        if comparison != self.name or self.is_done:
            return answer
        self.is_done = True
        turned = re.sub(r"\d(?=\D*$)", lambda digit: str((int(digit[0]) + 1) % 10), answer, count=1)
        return turned if turned != answer else answer + "x"


@dataclasses.dataclass(frozen=True)
class Options:
    """What the command line says. `count` is None where each part takes its own number."""
    program: pathlib.Path
    home: pathlib.Path
    seed: int = 1
    count: Optional[int] = None
    sabotage: Optional[Sabotage] = None
    hosts: Tuple[str, ...] = HOSTS

    def amount(self, default: int) -> int:
        """How many random things are compared."""
        return default if self.count is None else self.count

    def turn(self, comparison: str, answer: str) -> str:
        """The answer as it is compared: under sabotage of this comparison, another one."""
        return self.sabotage.turn(comparison, answer) if self.sabotage else answer

    def has_row(self, name: str) -> bool:
        """Whether the row of a table is there: under sabotage of this row it isn't."""
        return not self.sabotage or self.sabotage.name != name

    def sabotaged(self, name: str, count: Optional[int] = None) -> "Options":
        """The same with one comparison turned or one row left out, over fewer things."""
        return dataclasses.replace(self, sabotage=Sabotage(name), count=self.count if count is None else count)


class Counts:
    """What a part found: figures with their words, in the order in which they came, details of them, and the differences that no row explains."""

    def __init__(self) -> None:
        self.figures: "collections.Counter[str]" = collections.Counter()
        self.details: "collections.Counter[str]" = collections.Counter()
        self.unexplained: List[str] = []

    def add(self, words: str, number: int = 1) -> None:
        """Counts `number` more of what the words say."""
        self.figures[words] += number

    def detail(self, words: str, number: int = 1) -> None:
        """Counts a detail; they are printed behind the figures, sorted."""
        self.details[words] += number

    def differ(self, *words: object) -> None:
        """Notes a difference that no row explains."""
        self.unexplained.append(" ".join(map(str, words)))

    def join(self, other: "Counts") -> None:
        """Adds what another count found."""
        self.figures.update(other.figures)
        self.details.update(other.details)
        self.unexplained += other.unexplained

    def lines(self) -> Iterator[str]:
        """The figures as they are printed, the details, then at most ten differences without control characters."""
        details = sorted(self.details.items(), key=lambda item: [int(part) if part.isdigit() else part for part in re.split(r"(\d+)", item[0])])
        for words, number in [*self.figures.items(), *details]:
            yield f"{number:9,} {words}"
        for difference in self.unexplained[:10]:
            shown = difference[:900].encode("ascii", "backslashreplace").decode()
            yield "unexplained: " + re.sub(r"[\x00-\x1f\x7f]", " ", shown)


class Trial(NamedTuple):
    """One thing that is made wrong on purpose, and the comparison that has to see it."""
    name: str
    compare: Callable[[], Counts]
