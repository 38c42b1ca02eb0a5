"""Values of constant expressions, as far as a stand-in needs them: whole numbers of 32 bits, and the bits of `float` and `double`. What isn't
understood is refused."""

from __future__ import annotations

import fractions
import re
from dataclasses import dataclass
from typing import Optional

from .declarations import Declaration, Expression, Member
from .lexer import Text, Token
from .tree import BUILT_IN, Tree

WHOLE = re.compile(r"(0|[1-9][0-9]*|0[xX][0-9a-fA-F]+)[lL]?")
FRACTION = re.compile(r"(?=.*[.eEf])([0-9]*\.[0-9]+|[0-9]+)(?:[eE]([-+]?[0-9]+))?(f?)")
LEVELS = [("|",), ("^",), ("&",), ("<<", ">>"), ("+", "-"), ("*", "/", "%")]  # from the least that binds on
EXPONENT = 5000  # the greatest power of ten that is looked at


@dataclass(frozen=True)
class Format:
    """How a type of fractions is laid out: the bits of a fraction and of an exponent."""

    fraction: int
    exponent: int

    @property
    def sign(self) -> int:
        return 1 << (self.fraction + self.exponent)

    def bits(self, value: fractions.Fraction) -> Optional[int]:
        """The bits of the nearest number, of two as near the even one; None where that is infinite. The value is none below 0."""
        least = 2 - (1 << (self.exponent - 1))  # the exponent of the smallest number with all its bits
        power = max(floor_log2(value), least) if value else least
        units = round(value / fractions.Fraction(2) ** (power - self.fraction))
        found = units + ((power - least) << self.fraction)
        return found if found >> self.fraction < (1 << self.exponent) - 1 else None

    def number(self, bits: int) -> fractions.Fraction:
        """The number that bits are, which have neither a sign nor the exponent of an infinite one."""
        power = max(bits >> self.fraction, 1)
        units = bits - ((power - 1) << self.fraction)
        return fractions.Fraction(2) ** (power - (1 << (self.exponent - 1)) + 1 - self.fraction) * units


FORMATS = {"float": Format(23, 8), "double": Format(52, 11)}


def as_written(value: fractions.Fraction, suffix: str) -> fractions.Fraction:
    """The value of a literal by its suffix: `f` is a `float`, none a `double`. One that is infinite as such stays."""
    written = FORMATS["float" if suffix else "double"]
    bits = written.bits(value)
    return value if bits is None else written.number(bits)


def floor_log2(value: fractions.Fraction) -> int:
    """The greatest whole number whose power of two isn't above a value."""
    power = value.numerator.bit_length() - value.denominator.bit_length()
    return power if fractions.Fraction(2) ** power <= value else power - 1


class Values:
    """The values of a tree's expressions."""

    def __init__(self, tree: Tree):
        self.tree = tree

    def whole(self, scope: Declaration, expression: Expression) -> int:
        """The whole number that an expression is."""
        return Sum(self, scope, expression, ()).value()

    def bits(self, scope: Declaration, expression: Expression, word: str) -> int:
        """The bits of a `float` or `double` that an expression is: a number, with signs and parentheses around it."""
        tokens, text = list(expression.tokens), scope.source.text
        negative = False
        while len(tokens) > 1:
            if tokens[0].text in ("-", "+"):
                negative ^= tokens.pop(0).text == "-"
            elif tokens[0].text == "(" and tokens[-1].text == ")":
                tokens = tokens[1:-1]
            else:
                text.refuse(tokens[0].start, f"the value of a {word} that isn't understood")
        return FORMATS[word].sign * negative + self.unsigned(text, tokens, expression, word)

    @staticmethod
    def unsigned(text: Text, tokens: list[Token], expression: Expression, word: str) -> int:
        at = expression.tokens[0].start
        found = FRACTION.fullmatch(tokens[0].text) if tokens else None
        if not found or abs(int(found[2] or 0)) > EXPONENT:
            text.refuse(at, f"the value of a {word} that isn't understood")
        value = fractions.Fraction(found[1]) * fractions.Fraction(10) ** int(found[2] or 0)
        bits = FORMATS[word].bits(value)
        if bits is None:
            text.refuse(at, f"a number that is too large for a {word}")
        if bits != FORMATS[word].bits(as_written(value, found[3])):
            text.refuse(at, f"a number with {'an' if found[3] else 'no'} f behind it, which may be one of two values of a {word}")
        return bits

    def named(self, scope: Declaration, name: str, at: int, seen: tuple[Member, ...]) -> int:
        """The value of the constant or enumerator that a name means."""
        declaration, member = self.constant(scope, name)
        text = scope.source.text
        if declaration is None or member is None or member in seen:
            text.refuse(at, f"the value of {name} isn't known")
        if member.value:
            return Sum(self, declaration, member.value, (*seen, member)).value()
        if member.kind != "enumerator":
            text.refuse(at, f"the value of {name} isn't known")
        place = declaration.members.index(member)
        return self.named(declaration, declaration.members[place - 1].name, at, (*seen, member)) + 1 if place else 0

    def constant(self, scope: Declaration, name: str) -> tuple[Optional[Declaration], Optional[Member]]:
        """The constant or enumerator that a name means, and its declaration: of one part by the declarations around it."""
        above, _, last = name.rpartition(".")
        if above:
            full = None if above in BUILT_IN else self.tree.meaning(scope, above)
            found = self.tree.declared.get(full or "")
            return found, found and (found.member(last, "constant") or found.member(last, "enumerator"))
        around: Optional[Declaration] = scope
        while around:
            member = around.member(last, "enumerator") if around is scope else None
            member = member or around.member(last, "constant")
            if member:
                return around, member
            around = self.tree.declared.get(around.full.rpartition(".")[0])
        return None, None


class Sum:
    """One expression of whole numbers. Each value in it fits 32 bits, or it is refused."""

    def __init__(self, values: Values, scope: Declaration, expression: Expression, seen: tuple[Member, ...]):
        self.values, self.scope, self.seen = values, scope, seen
        self.text = scope.source.text
        self.tokens, self.at = expression.tokens, 0
        self.start = expression.tokens[0].start

    def refuse(self) -> int:
        return self.text.refuse(self.start, "a constant whose value isn't understood")

    def value(self) -> int:
        found = self.level(0)
        return found if self.at == len(self.tokens) else self.refuse()

    def fits(self, value: int) -> int:
        return value if -(2**31) <= value < 2**31 else self.refuse()

    def operator(self, among: tuple[str, ...]) -> str:
        """The next operator, if it is one of these. Shifts are two tokens without a gap."""
        texts = [token.text for token in self.tokens[self.at : self.at + 2]]
        pair = len(texts) == 2 and self.tokens[self.at].end == self.tokens[self.at + 1].start
        text = "".join(texts) if pair and "".join(texts) in ("<<", ">>") else texts[0] if texts else ""
        if text not in among:
            return ""
        self.at += len(text)
        return text

    def level(self, number: int) -> int:
        if number == len(LEVELS):
            return self.single()
        left = self.level(number + 1)
        while True:
            sign = self.operator(LEVELS[number])
            if not sign:
                return left
            left = self.fits(self.joined(sign, left, self.level(number + 1)))

    def joined(self, sign: str, left: int, right: int) -> int:
        if sign in ("/", "%"):
            if right == 0:
                return self.refuse()
            quotient = abs(left) // abs(right) * (1 if (left < 0) == (right < 0) else -1)
            return quotient if sign == "/" else left - quotient * right
        if sign in ("<<", ">>"):
            if not 0 <= right < 32:
                return self.refuse()
            return left << right if sign == "<<" else left >> right
        return {"|": left | right, "^": left ^ right, "&": left & right, "+": left + right, "-": left - right, "*": left * right}[sign]

    def single(self) -> int:
        if self.at == len(self.tokens):
            return self.refuse()
        token = self.tokens[self.at]
        self.at += 1
        if token.text in ("+", "-", "~"):
            value = self.single()
            return self.fits({"+": value, "-": -value, "~": ~value}[token.text])
        if token.text == "(":
            value = self.level(0)
            closed = self.operator((")",))
            return value if closed else self.refuse()
        if token.kind == "word":
            return self.values.named(self.scope, self.dotted(token), token.start, self.seen)
        return self.fits(self.literal(token.text))

    def dotted(self, token: Token) -> str:
        parts = [token.text]
        while self.operator((".",)):
            if self.at == len(self.tokens) or self.tokens[self.at].kind != "word":
                self.refuse()
            parts.append(self.tokens[self.at].text)
            self.at += 1
        return ".".join(parts)

    def literal(self, text: str) -> int:
        found = WHOLE.fullmatch(text)
        return int(found[1], 0) if found else self.refuse()
