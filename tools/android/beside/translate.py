"""Writes the dump of Android 14's compiler as the program writes its own, by sixteen rules, each of which may be left out.

Its text is regular: a member on one line, a comment and an annotation of a declaration on lines of their own."""
import dataclasses
import re
from typing import Callable, Dict, Iterator, List, Optional, Tuple

from .trees import INDENT

ANNOTATION = re.compile(r"@(\w+)(\((?:[^()\"]|\"[^\"]*\")*\))? ?")
HEADING = re.compile(r"(?:oneway )?(parcelable|union|enum|interface) (\w+) \{")
NOTICE_LINE = "/" * 79 + "\n"
NOTICE_END = "// later when a module using the interface is updated, e.g., Mainline modules.\n\n"
BUILT_IN = ("boolean", "byte", "char", "int", "long", "String")
HasRow = Callable[[str], bool]


@dataclasses.dataclass
class Dumped:
    """A declaration of a dump: its lines as they are, without blanks in front."""
    kind: str
    name: str
    annotations: List[str]
    comments: List[str] = dataclasses.field(default_factory=list)
    members: List[Tuple[List[str], str]] = dataclasses.field(default_factory=list)
    nested: List["Dumped"] = dataclasses.field(default_factory=list)


@dataclasses.dataclass
class DumpedFile:
    """A file of a dump: the notice, the comment of the source before it, the package, and the declaration."""
    notice: str
    comment: str
    package: str
    declaration: Dumped


def parse(text: str) -> DumpedFile:
    """The parts of a file of a dump."""
    front, end, rest = text.partition(NOTICE_END)
    comment, line, notice = front.partition(NOTICE_LINE)
    package, body = re.fullmatch(r"\n*(?:package ([\w.]+);\n)?((?:.*\n)*)", rest).groups()
    lines = [line.strip() for line in body.split("\n") if line.strip()]
    return DumpedFile(line + notice + end, comment, package or "", declaration_of(lines, [0]))


def declaration_of(lines: List[str], at: List[int]) -> Dumped:
    """The declaration that begins at this line; `at` moves behind it."""
    comments, annotations = front_of(lines, at)
    heading = HEADING.fullmatch(lines[at[0]])
    made = Dumped(heading[1], heading[2], annotations, comments)
    at[0] += 1
    while lines[at[0]] != "}":
        mark = at[0]
        comments, _ = front_of(lines, at)
        if HEADING.fullmatch(lines[at[0]]):
            at[0] = mark
            made.nested.append(declaration_of(lines, at))
        else:
            made.members.append((comments, lines[at[0]]))
            at[0] += 1
    at[0] += 1
    return made


def front_of(lines: List[str], at: List[int]) -> Tuple[List[str], List[str]]:
    """The comments and the annotations that stand on lines of their own from here on."""
    comments, annotations = [], []
    while lines[at[0]].startswith("/*") or (lines[at[0]].startswith("@") and ANNOTATION.sub("", lines[at[0]]) == ""):
        if lines[at[0]].startswith("@"):
            annotations += [found[0].strip() for found in ANNOTATION.finditer(lines[at[0]])]
        else:
            first = at[0]
            while not lines[at[0]].endswith("*/"):
                at[0] += 1
            comments.append(" ".join(lines[first:at[0] + 1]))
        at[0] += 1
    return comments, annotations


def outside_texts(text: str) -> str:
    """The same length, with the inside of texts and characters blanked, so that signs in them count for nothing."""
    return re.sub(r"\"[^\"]*\"|'[^']'", lambda part: part[0][0] + " " * (len(part[0]) - 2) + part[0][0], text)


def split(text: str, sign: str = ",") -> List[str]:
    """The parts between the signs that stand in no bracket, text or comment."""
    plain = re.sub(r"/\*.*?\*/", lambda part: " " * len(part[0]), outside_texts(text))
    parts, first, depth = [], 0, 0
    for place, letter in enumerate(plain):
        depth += (letter in "({[") - (letter in ")}]")
        if letter == sign and depth == 0:
            parts.append(text[first:place].strip())
            first = place + 1
    return [*parts, text[first:].strip()] if text.strip() else []


class Translator:
    """The files of one dump; enumerators are looked up over all of them."""

    def __init__(self, files: Dict[str, str], has_rule: HasRow):
        self.has, self.files = has_rule, {path: parse(text) for path, text in files.items()}
        self.enums: Dict[str, List[Tuple[str, int]]] = {}
        for file in self.files.values():
            self.find_enums(file.package + "." if file.package else "", file.declaration)

    def find_enums(self, prefix: str, made: Dumped) -> None:
        """Keeps the enumerators of each enum, with their values."""
        if made.kind == "enum":
            self.enums[prefix + made.name] = []
            for _, line in made.members:
                name, _, written = line.rstrip(",").partition(" = ")
                last = self.enums[prefix + made.name][-1:]
                value = number_of(value_text(written)) if written else last[0][1] + 1 if last else 0
                self.enums[prefix + made.name].append((name, value))
        for inner in made.nested:
            self.find_enums(f"{prefix}{made.name}.", inner)

    def texts(self) -> Dict[str, str]:
        """Each file as the program would write it."""
        return {path: self.file(file) for path, file in self.files.items()}

    def file(self, file: DumpedFile) -> str:
        """One file."""
        front = ("" if self.has("first-comment") else file.comment) + ("" if self.has("notice") else file.notice)
        package = f"package {file.package};\n" if file.package else ""
        prefix = file.package + "." if file.package else ""
        return front + package + "".join(self.declaration(prefix, file.declaration, ""))

    def declaration(self, prefix: str, made: Dumped, indent: str) -> Iterator[str]:
        """A declaration with what is in it."""
        if not self.has("comments"):
            yield from (f"{indent}{comment}\n" for comment in made.comments)
        between = " " if self.has("annotation-lines") else "\n" + indent
        yield indent + "".join(annotation + between for annotation in self.annotations(made)) + f"{made.kind} {made.name} {{\n"
        constants = [member for member in made.members if self.is_constant(member[1])]
        others = [member for member in made.members if not self.is_constant(member[1])]
        if self.has("constant-order"):
            constants.sort(key=lambda member: member[1].partition(" = ")[0].rsplit(" ", 1)[1])
        for number, (comments, line) in enumerate([*others, *constants]):
            if not self.has("comments"):
                yield from (f"{indent}{INDENT}{comment}\n" for comment in comments)
            yield indent + INDENT + self.member(prefix + made.name, made, number, line) + "\n"
        for inner in sorted(made.nested, key=lambda inner: inner.name) if self.has("nested-order") else made.nested:
            yield from self.declaration(f"{prefix}{made.name}.", inner, indent + INDENT)
        yield indent + "}\n"

    def annotations(self, made: Dumped) -> List[str]:
        """Those of a declaration that are kept, in the program's order."""
        kept = {}
        for annotation in made.annotations:
            kept[ANNOTATION.match(annotation)[1]] = annotation
        if made.kind == "enum" and self.has("byte-backing"):
            kept.setdefault("Backing", '@Backing(type="byte")')
        names = ["Backing", "FixedSize", "VintfStability"]
        rest = [] if self.has("dropped-annotations") else [name for name in kept if name not in names]
        return [kept[name] for name in [*names, *rest] if name in kept]

    @staticmethod
    def is_constant(line: str) -> bool:
        """Whether a line is a constant."""
        return bool(re.match(rf"(?:{ANNOTATION.pattern})*const ", line))

    def member(self, name: str, made: Dumped, number: int, line: str) -> str:
        """A field, a method, an enumerator or a constant."""
        if made.kind == "enum":
            return self.enumerator(name, made, number, line)
        marks, rest = self.marks(line)
        if rest.startswith("const "):
            kind, _, after = rest[len("const "):].partition(" ")
            constant, _, value = after[:-1].partition(" = ")
            return f"{marks}const {kind} {constant} = {self.value(kind, value)};"
        if made.kind == "interface":
            return self.method(number, line)
        front, equal, value = rest[:-1].partition(" = ")
        kind = front.rsplit(" ", 1)[0]
        return marks + front + (f" = {self.initial(kind, value)}" if equal else "") + ";"

    def marks(self, text: str) -> Tuple[str, str]:
        """The annotations of a type that are kept, each with a blank behind it, and what follows them."""
        kept = []
        while ANNOTATION.match(text):
            found = ANNOTATION.match(text)
            name, parameters = found[1], found[2] or ""
            if name == "nullable":
                kept.append("@nullable" + ("" if parameters == "(heap=false)" and self.has("heap-false") else parameters) + " ")
            elif name == "utf8InCpp" or not self.has("dropped-annotations"):
                kept.append(f"@{name}{parameters} ")
            text = text[found.end():]
        return "".join(kept), text

    def enumerator(self, name: str, made: Dumped, number: int, line: str) -> str:
        """An enumerator with its value."""
        written = line.rstrip(",").partition(" = ")[2]
        word, value = self.enums[name][number]
        if not written and not self.has("enumerator-values"):
            return f"{word},"
        is_long = any('"long"' in annotation for annotation in made.annotations)
        text = self.value("long" if is_long else "int", written) if written else long_text(value) if is_long else str(value)
        return f"{word} = {text},"

    def method(self, number: int, line: str) -> str:
        """A method; annotations that stand behind `oneway` are the method's."""
        oneway = "oneway " if line.startswith("oneway ") else ""
        marks, rest = self.marks(line[len(oneway):])
        if oneway and not self.has("behind-oneway"):
            found = ANNOTATION.match(line[len(oneway):])
            marks = line[len(oneway):len(oneway) + found.end()] + marks if found and found[1] not in ("nullable", "utf8InCpp") else marks
        front, _, back = rest.partition("(")
        inside, _, after = back.rpartition(")")
        arguments = ", ".join(self.argument(argument) for argument in split(inside))
        written = after[:-1].partition(" = ")[2]
        id_text = f" = {written or number}" if written or self.has("method-ids") else ""
        return f"{oneway}{marks}{front}({arguments}){id_text};"

    def argument(self, text: str) -> str:
        """An argument with its direction."""
        found = re.match(r"(in|out|inout) ", text)
        direction = found[0] if found else "in " if self.has("directions") else ""
        marks, rest = self.marks(text[found.end():] if found else text)
        return direction + marks + rest

    def initial(self, kind: str, value: str) -> str:
        """The initializer of a field."""
        if value.startswith("{") and value.endswith("}"):
            return "{" + ", ".join(self.value(kind.replace("[]", ""), part) for part in split(value[1:-1])) + "}"
        return self.value(kind, value)

    def value(self, kind: str, text: str) -> str:
        """A single value of a type."""
        if not self.has("expressions") and text != value_text(text):
            return text
        plain = value_text(text)
        if kind in ("String", "char", "boolean"):
            return plain
        if kind in BUILT_IN:
            if not self.has("literals"):
                return plain
            number = number_of(plain)
            return long_text(number) if kind == "long" else str(number)
        if not self.has("first-enumerator"):
            return plain
        name, _, word = plain.rpartition(".")
        value = dict(self.enums.get(name, [])).get(word)
        return next((f"{name}.{other}" for other, number in self.enums.get(name, []) if number == value), plain)


def value_text(text: str) -> str:
    """What stands in the comment behind an expression, or the text itself where there is none."""
    place = outside_texts(text).find(" /* ")
    return text[place + 4:-3] if place >= 0 and text.endswith(" */") else text


def number_of(text: str) -> int:
    """The number of a literal: a hexadecimal one of up to eight digits has 32 bits."""
    bare = text.rstrip("lL")
    if bare.lower().startswith("0x"):
        number = int(bare, 16)
        is_long = bare != text or number > 0xffffffff
        return number - (1 << 64 if is_long else 1 << 32) if number >= (1 << 63 if is_long else 1 << 31) else number
    return int(bare)


def long_text(number: int) -> str:
    """A long as the program writes it: the least one has no decimal."""
    return "0x8000000000000000" if number == -(1 << 63) else f"{number}L"
