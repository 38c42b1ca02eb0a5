"""What pages name: files, crates, functions, types, clauses, words, options, rules and sections, each of which has to be there."""

import json
import pathlib
import posixpath
import re
from typing import Dict, Iterator, List, Set, Tuple

import page_blocks

TOP = pathlib.Path(__file__).resolve().parents[2]
ENDINGS = "rt|antt|py|md|rows|edit|txt|calls|hex|aidl|json|sh|cpp|h"
FILE = rf"[\w./-]+\.(?:{ENDINGS})\b|(?:crates|docs|examples|proofs|specs|src|tools|\.?ci|vectors)/[\w./-]+"
# named, and neither a file that git keeps nor of a crate here: files that commands make, of a reader's own tree, and of others
ELSEWHERE = {"crates/aidl/out/aidl", "state.hex", "ci/aidl-verified"}
# words of others: of Android's build and of compilers
ELSEWHERE |= {"aidl_interface", "aidl_api", "versions_with_info", "cpp_header", "structured_parcelable", "new_api", "decode_utf16", "json_lines", "full", "fsync", "genrule"}
# names that the page about forms makes up, or that were there before
ELSEWHERE |= {"IsAlwaysCallable", "SplitsAtFirstByte", "EndsAlike", "ExtraK", "Equivalent"}
# of libbinder
ELSEWHERE |= {"get_sched_policy", "set_sched_policy", "BBinder", "AParcel_readData", "AParcel_writeData"}
ELSEWHERE |= {"get_sched_policy", "set_sched_policy", "BBinder", "Parcel.cpp", "Parcel.h", "Status.cpp", "Status.h", "Binder.cpp", "IPCThreadState.cpp", "ProcessState.cpp"}
# options of the kit's commands, and of git's and the system's
OPTIONS = {"--only", "--lib", "--start", "--allow-holes", "--no-patch", "--format", "--tool"}
CLAUSES = r"(?:ensures|requires|law) (\w+) \{"


def prose(text: str) -> Iterator[Tuple[int, str]]:
    """What a page says outside fenced blocks, each paragraph, item and row of a table in one line, with the number of its first."""
    text = re.sub(r"^```.*?^```", lambda block: re.sub(r"[^\n]", "", block[0]), text, flags=re.M | re.S)
    for part in re.finditer(r"^(?=[^\n]).*(?:\n(?! *(?:[-|#>]|\d+\.) | *$).+)*", text, re.M):
        yield text[: part.start()].count("\n") + 1, re.sub(r"\s+", " ", part[0])


def squeezed(text: str) -> str:
    return re.sub(r"\s+", "", text)


def clauses(line: str) -> Iterator[Tuple[str, str]]:
    """The clauses that a line names, each with the crate of the function behind it, if one is named."""
    for names, crate in re.findall(r"[Cc]lauses? ((?:`\w+`(?:, | and )?)+)(?: of (?:the public call )?`(\w+)::)?", line):
        yield from ((name, crate) for name in re.findall(r"\w+", names.replace(" and ", " ")))


def title(text: str) -> str:
    """A title as it is read, without marks."""
    return re.sub(r"[`*]", "", text).strip()


def anchor(text: str) -> str:
    """The name by which a link reaches a title."""
    return re.sub(r"[^\w\- ]", "", title(text).lower()).replace(" ", "-")


def titles(text: str) -> List[str]:
    """The titles of a page: its headings, and what its paragraphs and items begin with in bold."""
    bare = re.sub(r"^```.*?^```", "", text, flags=re.M | re.S)
    return [title(it) for it in re.findall(r"^#+ (.*)$", bare, re.M)] + [title(it).rstrip(".:") for it in re.findall(r"^(?:- )?\*\*(.+?)\*\*", bare, re.M)]


class Names:
    """What there is: the paths of files, the words of the code, the rules, the options, and of each crate its code."""

    def __init__(self) -> None:
        inside = (path.relative_to(TOP) for path in TOP.rglob("*"))
        self.paths = {f"/{path}" for path in inside if not {".git", "out", "__pycache__"} & set(path.parts)}
        kinds = r"\.(rt|antt|py|txt|edit|aidl|rows|json|sh)$|/(aidl|try|run|all|check-api|lines|report|stage|try-calls|book|package|compare|fetch|build)$"
        sources = {path: (TOP / path[1:]).read_text(errors="replace") for path in self.paths if re.search(kinds, path) and (TOP / path[1:]).is_file()}
        sources = {path: text for path, text in sources.items() if not path.startswith("/tools/check/tests/")}
        self.code = "".join(squeezed(re.sub(r"^ *//.*\n", "", text, flags=re.M)) for path, text in sources.items() if not path.endswith((".rows", ".json")))
        self.known = set(re.findall(r"\w+", "\n".join(sources.values())))
        self.options = OPTIONS | set(re.findall(r"(?<![\w-])--[a-z][\w-]*", "\n".join(text for path, text in sources.items() if "/check/page" not in path)))
        self.crates = {name: "" for name in re.findall(r"^(\w+):", sources["/crates.txt"], re.M)}
        self.words: Dict[str, Set[str]] = {name: set() for name in self.crates}
        for path, text in sources.items():
            crate = path.split("/")[2] if path.startswith("/crates/") else ""
            if path.endswith(".rt"):
                self.crates[crate] += text
            if path.endswith((".rt", ".antt")):
                self.words[crate] |= set(re.findall(r"\w+", text))
        table = json.loads((TOP / "ci/aidl_ci/rules.json").read_text(encoding="utf-8"))
        self.rules = set(table)
        self.faults = self.named_faults()
        self.titles = {str(path.relative_to(TOP)): titles(path.read_text()) for path in TOP.rglob("*.md") if ".git" not in path.parts}

    def named_faults(self) -> Dict[str, str]:
        """The name of each rule of `check`, as its rows print it."""
        rows = (TOP / "crates/worked_rows/data/check.rows").read_text() + (TOP / "crates/worked_rows/data/lexer.rows").read_text()
        names = dict(re.findall(r"\b(E\d+|lex \d) ([A-Z]\w+)", rows))
        return {code: name for code, name in names.items() if code in self.rules}

    def is_file(self, name: str, below: str = "/") -> bool:
        return any(path.startswith(below) and path.endswith(f"/{name}") for path in self.paths)

    def titles_of(self, page: str, name: str) -> List[str]:
        """The titles of the page of this name or path, as another page names it, or of that page itself."""
        near = str(pathlib.PurePath(page).parent / name)
        found = [path for path in (near, name) if path in self.titles] or [path for path in self.titles if path.endswith(f"/{name}")]
        return self.titles[found[0] if found else page] if name and found or not name else []

    def is_clause(self, name: str, crate: str) -> bool:
        codes = [self.crates[crate]] if crate in self.crates else self.crates.values()
        return any(name in re.findall(CLAUSES, code) for code in codes)

    def lost(self, line: str) -> Iterator[str]:
        """What a line names and isn't there."""
        spans = re.findall(r"`([^`]+)`", line)
        yield from self.lost_files(line, spans)
        yield from self.lost_items(line, spans)
        yield from (f"clause {name}" for name, crate in clauses(line) if name not in ELSEWHERE and not self.is_clause(name, crate))
        yield from (f"option {word}" for span in spans for word in re.findall(r"(?<![\w-])--[a-z][\w-]*", span) if word not in self.options)
        yield from self.lost_rules(line)

    def lost_files(self, line: str, spans: List[str]) -> Iterator[str]:
        files = {name.rstrip("/.") for span in spans if "*" not in span for name in re.findall(FILE, span) if not name.startswith("/")}
        yield from (name for name in files - ELSEWHERE if not self.is_file(name) and not self.is_example(name, line))
        for name, crate in re.findall(rf"`({FILE})` of `([a-z]\w*)`", line):
            if not self.is_file(name, f"/crates/{crate}/"):
                yield f"{name} of {crate}"

    def is_example(self, name: str, line: str) -> bool:
        """Whether a name of a source is one of a tree that a reader has, or is one by its line."""
        return name.endswith((".aidl", ".json")) and not name.startswith(("examples/", "tools/", "ci/")) and "tools/" not in line

    def lost_items(self, line: str, spans: List[str]) -> Iterator[str]:
        """Items, words and types that are in no code, and items that aren't in the crate that is named with them."""
        for crate, name in (pair for span in spans for pair in re.findall(r"\b([a-z]\w*)::(\w+)", span)):
            is_there = re.search(rf"\b(fn|mod) {name}\b", self.crates.get(crate, "")) if name[0].islower() else name in self.words.get(crate, ())
            if crate in self.crates and not is_there:
                yield f"{crate}::{name}"
        for name, crate in re.findall(r"`(\w+)` of `([a-z]\w*)`", line):
            if crate in self.crates and name not in self.words[crate]:
                yield f"{name} of {crate}"
        words = {word for span in spans for word in re.findall(r"(?<![\w./-])[a-z]\w*_\w+(?![\w./-])", span)}
        words |= {word for span in spans for word in re.findall(r"\b[A-Z][a-z]+[A-Z]\w*", span)}
        words |= {span for span in spans if re.fullmatch(r"[a-z]{4,}|[A-Z]\w*[a-z]\w*", span)}
        words |= {span.split("::")[0] for span in spans if re.fullmatch(r"[A-Z]\w*[a-z]\w*::\w+", span)}
        yield from words - self.known - ELSEWHERE

    def lost_rules(self, line: str) -> Iterator[str]:
        """Rules that there aren't, and rules under another's name."""
        yield from (f"rule {code}" for code in re.findall(r"\b[CE]\d+\b", line) if code not in self.rules)
        for code, name in re.findall(r"\b(E\d+|lex \d) ([A-Z][a-z]+[A-Z]\w+)", line):
            if self.faults.get(code, name) != name:
                yield f"{code} {name}"

    def lost_sections(self, page: str, line: str) -> Iterator[str]:
        """Sections that a line names, by their title behind a page or by a link, and that aren't there."""
        for other, name in re.findall(r"`([\w/]*[A-Z]+\.md)`[^`\".;]{0,30}\"([^\"]+)\"", line):
            if title(name) not in self.titles_of(page if other != "README.md" else "", other):
                yield f"section \"{name}\" of {other}"
        for name in re.findall(r"\"([A-Z][^\"]+)\" (?:below|above)\b", line):
            if title(name) not in self.titles[page]:
                yield f"section \"{name}\" on this page"
        for path, name in re.findall(r"\]\(([\w./-]*)#([\w-]+)\)", line):
            if name not in map(anchor, self.titles_of(page, posixpath.normpath(path) if path else "")):
                yield f"section #{name} of {path or 'this page'}"
        for path in re.findall(r"\]\(([\w./-]+)[)#]", line):
            if not (TOP / pathlib.PurePath(page).parent / path).exists():
                yield f"file {path}, to which a link goes"


def wrong_blocks(text: str, names: Names) -> Iterator[Tuple[int, str]]:
    """Pieces of code that the code doesn't have, and files and options that commands name and that aren't there."""
    for first, block in page_blocks.blocks(text, "antt"):
        yield from ((first, f"the code has no {part.strip()}") for part in block.split("\n\n") if squeezed(part) not in names.code)
    for first, block in page_blocks.blocks(text, "sh|yaml|make"):
        for number, line in enumerate(block.splitlines(), first):
            files = [it.rstrip("/.") for it in re.findall(rf"(?<![\w./-])(?:{FILE})", line)]
            yield from ((number, f"there is no {name}") for name in files if name not in ELSEWHERE and not names.is_file(name))


def wrong(page: str, text: str, names: Names) -> Iterator[Tuple[int, str]]:
    """What a page of this path names and isn't there, each with its line."""
    yield from wrong_blocks(text, names)
    for number, line in prose(text):
        lost = [*names.lost(line), *names.lost_sections(page, line)]
        yield from ((number, f"there is no {name}") for name in sorted(set(lost)))
