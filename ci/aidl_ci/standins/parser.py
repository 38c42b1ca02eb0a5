"""Reads a file of AIDL, of the whole language: unstructured parcelables, generics, arrays with lengths, annotations wherever they may stand."""

from __future__ import annotations

from typing import Optional

from .declarations import Annotation, Argument, Declaration, Expression, Import, Member, Source, Span, Type
from .lexer import Text, Token

KINDS = ("interface", "parcelable", "union", "enum")
HEADERS = ("cpp_header", "ndk_header", "rust_type")
DIRECTIONS = ("in", "out", "inout")
RESERVED = {*KINDS, *DIRECTIONS, "package", "import", "const", "oneway", "true", "false"}
OPENING, CLOSING = ("(", "{"), (")", "}")


def parse(text: Text) -> Source:
    """What a file says. A file that isn't AIDL is refused."""
    return Parser(text).source()


class Parser:
    def __init__(self, text: Text):
        self.text, self.at = text, 0
        self.read = Source(text)

    # Tokens

    @property
    def next(self) -> Token:
        return self.text.tokens[self.at]

    def is_next(self, *texts: str) -> bool:
        return self.next.text in texts and self.next.kind in ("word", "symbol")

    def behind(self) -> int:
        """The end of the token before the next one."""
        return self.text.tokens[self.at - 1].end

    def take(self, wanted: str = "") -> Token:
        token = self.next
        if token.kind == "end" or wanted and not self.is_next(wanted):
            self.text.refuse(token.start, f"this isn't AIDL: {wanted or 'more'} was expected, and {token.text or 'the end'} is there")
        self.at += 1
        return token

    def takes(self, *texts: str) -> bool:
        """Takes the next token if it is one of these."""
        found = self.is_next(*texts)
        self.at += found
        return found

    def name(self) -> str:
        token = self.take()
        if token.kind != "word" or token.text in RESERVED:
            self.text.refuse(token.start, f"this isn't AIDL: a name was expected, and {token.text} is there")
        return token.text

    def dotted(self) -> str:
        parts = [self.name()]
        while self.takes("."):
            parts.append(self.name())
        return ".".join(parts)

    def group(self, opened: str, closed: str) -> tuple[Token, ...]:
        """What a pair of brackets has between them."""
        start, depth = self.at + 1, 0
        while True:
            token = self.take()
            depth += (token.text == opened) - (token.text == closed)
            if depth == 0:
                return tuple(self.text.tokens[start : self.at - 1])

    def expression(self, *ends: str) -> Expression:
        """The tokens up to one of these that stands outside brackets."""
        start, depth = self.at, 0
        while depth or not self.is_next(*ends):
            token = self.take()
            depth += (token.text in OPENING) - (token.text in CLOSING)
        if start == self.at:
            self.text.refuse(self.next.start, "this isn't AIDL: a value was expected")
        return Expression(tuple(self.text.tokens[start : self.at]))

    # Files and declarations

    def source(self) -> Source:
        if self.takes("package"):
            self.read.package = self.dotted()
            self.take(";")
        while self.is_next("import"):
            start = self.take().start
            full = self.dotted()
            self.take(";")
            self.read.imports.append(Import(full, Span(start, self.behind())))
        while self.next.kind != "end":
            self.read.declarations.append(self.declaration(self.read.package, self.annotations()))
        return self.read

    def annotations(self) -> tuple[Annotation, ...]:
        found = []
        while self.is_next("@"):
            start = self.take().start
            name = self.dotted()
            parameters = self.group("(", ")") if self.is_next("(") else ()
            found.append(Annotation(name, parameters, Span(start, self.behind())))
        return tuple(found)

    def declaration(self, above: str, annotations: tuple[Annotation, ...]) -> Declaration:
        start = annotations[0].span.start if annotations else self.next.start
        if self.takes("oneway") and not self.is_next("interface"):
            self.text.refuse(self.next.start, "this isn't AIDL: an interface was expected")
        if not self.is_next(*KINDS):
            self.text.refuse(self.next.start, "this isn't AIDL: a declaration was expected")
        kind, name = self.take().text, self.dotted()
        full = f"{above}.{name}" if above else name
        made = Declaration(kind, name, full, annotations, start, self.behind(), self.read)
        if self.is_next("<"):
            opened = self.next.start
            self.group("<", ">")
            made.parameters = Span(opened, self.behind())
        while self.takes(*HEADERS):
            self.take()
        self.body(made)
        return made

    def body(self, made: Declaration) -> None:
        """Reads what stands behind the head of a declaration."""
        if self.is_next(";"):
            made.structured, made.body, made.end = False, self.next.start, self.next.start
            self.take()
            return
        self.take("{")
        made.body = self.behind()
        while not self.is_next("}"):
            if made.kind == "enum":
                made.members.append(self.enumerator())
            else:
                self.member(made)
        made.end = self.take("}").start

    # Members

    def enumerator(self) -> Member:
        self.annotations()
        start, name = self.next.start, self.name()
        value = self.expression(",", "}") if self.takes("=") else None
        made = Member("enumerator", name, Span(start, self.behind()), value=value)
        if not self.is_next("}"):
            self.take(",")
        return made

    def member(self, above: Declaration) -> None:
        annotations = self.annotations()
        oneway = self.is_next("oneway")
        following = self.text.tokens[min(self.at + oneway, len(self.text.tokens) - 1)].text
        if following in KINDS:
            above.nested.append(self.declaration(above.full, annotations))
        elif self.is_next("const"):
            above.members.append(self.constant(annotations))
        else:
            above.members.append(self.field_or_method(annotations))

    def constant(self, annotations: tuple[Annotation, ...]) -> Member:
        start = self.take("const").start
        behind = self.annotations()
        type_, name = self.type(()), self.name()
        self.take("=")
        value = self.expression(";")
        self.take(";")
        return Member("constant", name, Span(start, self.behind()), annotations, type_, value, behind=behind)

    def field_or_method(self, annotations: tuple[Annotation, ...]) -> Member:
        start = self.next.start
        oneway = self.takes("oneway")
        behind = self.annotations() if oneway else ()
        both = annotations + behind
        type_, name = self.type(both), self.name()
        if self.is_next("("):
            arguments = self.arguments()
            if self.takes("="):
                self.expression(";")
            self.take(";")
            return Member("method", name, Span(start, self.behind()), both, type_, arguments=arguments, behind=behind)
        equals = self.next.start
        value = self.expression(";") if not oneway and self.takes("=") else None
        assigned = Span(equals, self.behind()) if value else None
        self.take(";")
        return Member("field", name, Span(start, self.behind()), both, type_, value, assigned)

    def arguments(self) -> tuple[Argument, ...]:
        self.take("(")
        made = []
        while not self.is_next(")"):
            made.append(self.argument())
            if not self.is_next(")"):
                self.take(",")
        self.take(")")
        return tuple(made)

    def argument(self) -> Argument:
        start = self.next.start
        annotations = self.annotations()
        direction = self.take().text if self.is_next(*DIRECTIONS) else ""
        type_ = self.type(annotations + self.annotations())
        return Argument(direction, type_, self.name(), start)

    def type(self, annotations: tuple[Annotation, ...]) -> Type:
        start, base = self.next.start, self.dotted()
        arguments: list[Type] = []
        if self.takes("<"):
            arguments.append(self.type(self.annotations()))
            while self.takes(","):
                arguments.append(self.type(self.annotations()))
            self.take(">")
        lengths: list[Optional[Expression]] = []
        while self.takes("["):
            lengths.append(None if self.is_next("]") else self.expression("]"))
            self.take("]")
        return Type(base, Span(start, self.behind()), tuple(arguments), tuple(lengths), annotations)
