"""What a libbinder reads of damaged bytes, beside `decode --lenient`: one reader with a switch for each row of `classes/damaged.json`. With none of them it
reads as the lenient profile does, with those of a host as its libbinder does."""
import json
import re
from typing import Any, Container, Dict, List, NamedTuple, Optional, Tuple

from .base import HERE
from .schema import Declaration, Schema, Type

BAD_VALUE, NOT_ENOUGH_DATA, UNEXPECTED_NULL, NO_MEMORY = -22, -61, -2147483640, -12
STATUSES = {"BAD_VALUE": BAD_VALUE, "NOT_ENOUGH_DATA": NOT_ENOUGH_DATA, "UNEXPECTED_NULL": UNEXPECTED_NULL, "NO_MEMORY": NO_MEMORY,
            "BAD_TYPE": -2147483647, "UNKNOWN_TRANSACTION": -74}
ANY = "\0any text"  # what Android 10's libutils makes of UTF-16 with a lone surrogate where UTF-8 is wanted isn't defined


class Row(NamedTuple):
    """A row of the table of damaged bytes: which hosts do it, its words, where, and its smallest example with what each side makes of it."""
    name: str
    hosts: Tuple[str, ...]
    does: str
    function: str
    type: str
    bytes: str
    libbinder: str
    lenient: str


def rows_of_table() -> List[Row]:
    """The table, in its order."""
    entries: List[Dict[str, Any]] = json.loads((HERE / "classes/damaged.json").read_text(encoding="utf-8"))
    return [Row(**{**entry, "hosts": tuple(entry["hosts"])}) for entry in entries]


class Stop(Exception):
    """The reading ends with a status."""

    def __init__(self, status: int):
        super().__init__(status)
        self.status = status


class Reader:
    """Reads values of bytes, by the rows that are switched on."""

    def __init__(self, schema: Schema, data: bytes, rows: Container[str]):
        self.schema, self.data, self.rows = schema, data, rows
        self.at, self.end, self.is_inside = 0, len(data), False
        self.may_want_memory = False

    def item(self, size: int, status: Optional[int] = None) -> bytes:
        """The next bytes."""
        if self.at + size > min(self.end, len(self.data)):
            raise Stop(status or (BAD_VALUE if self.is_inside else NOT_ENOUGH_DATA))
        self.at += size
        return self.data[self.at - size:self.at]

    def word(self, size: int = 4) -> int:
        """A number."""
        return int.from_bytes(self.item(size), "little", signed=True)

    def value(self, kind: Type, levels: int = 64) -> Any:
        """A value."""
        return self.sequence(kind, levels) if kind.shape else self.single(kind, levels)

    def single(self, kind: Type, levels: int) -> Any:
        """A value that is no array and no List."""
        base = self.schema.backing(kind.base)
        found = self.schema.get(base)
        if found:
            return self.record(found, kind.is_nullable, levels)
        if base == "String":
            return self.text(kind)
        if base == "long":
            return self.word(8)
        word = self.word()
        return {"boolean": word != 0, "byte": (word + 128) % 256 - 128, "char": word % 65536, "int": word}[base]

    # -- sequences

    def count(self, is_nullable: bool) -> Optional[int]:
        """The number of elements or units, or None for null."""
        number = self.word()
        if number >= 0:
            return number
        if is_nullable and (number == -1 or "null" in self.rows):
            return None
        raise Stop(UNEXPECTED_NULL if number == -1 or "count" in self.rows else BAD_VALUE)

    def length(self, kind: Type) -> Optional[int]:
        """The number of elements, by what a libbinder looks at before the first."""
        before = self.at
        try:
            number = self.count(kind.is_nullable)
        except Stop as stop:
            is_of_objects = kind.base == "String" or self.schema.backing(kind.base) in self.schema.declarations
            if "null array" in self.rows and is_of_objects and stop.status == UNEXPECTED_NULL and before + 4 <= len(self.data):
                raise Stop(NO_MEMORY) from None
            raise
        if number is None:
            return None
        left = max(0, len(self.data) - self.at)
        if number > left and "count beyond" in self.rows:
            raise Stop(BAD_VALUE)
        if number > left and "no memory" in self.rows:
            raise Stop(NO_MEMORY)
        self.may_want_memory |= "elements first" in self.rows and number > len(self.data)
        return number

    def sequence(self, kind: Type, levels: int) -> Optional[List[Any]]:
        """An array or a List."""
        number = self.length(kind)
        if number is None:
            return None
        if levels == 0 and "levels" not in self.rows:
            raise Stop(BAD_VALUE)
        if self.schema.backing(kind.base) == "byte":
            return self.raw(number)
        self.look_at_room(kind, number)
        element, values = kind.element(), []  # type: Type, List[Any]
        while len(values) < number:
            values.append(self.single(element, levels - 1))
        return values

    def raw(self, number: int) -> List[int]:
        """Raw bytes with their padding."""
        status = BAD_VALUE if "raw bytes" in self.rows or "short array" in self.rows else NO_MEMORY if "no memory" in self.rows else None
        return [(byte + 128) % 256 - 128 for byte in self.item(number + -number % 4, status)[:number]]

    def look_at_room(self, kind: Type, number: int) -> None:
        """What Android 14 looks at before it reads the elements of an array that it takes as a whole."""
        backing = self.schema.backing(kind.base)
        is_short = self.at + number * (8 if backing == "long" else 4) > len(self.data)
        if is_short and "short array" in self.rows and (backing in ("boolean", "char", "int") or kind.base == "long"):
            raise Stop(BAD_VALUE)
        if is_short and "no memory" in self.rows and backing in ("int", "long"):
            raise Stop(NO_MEMORY)

    # -- texts

    def text(self, kind: Type) -> Optional[str]:
        """A String."""
        before = self.at
        try:
            return self.units(kind)
        except Stop:
            if "null text" in self.rows and kind.is_nullable:
                return None
            if "status" not in self.rows or kind.is_nullable and before + 4 > self.end and "null text" not in self.rows:
                raise
            raise Stop(UNEXPECTED_NULL) from None

    def units(self, kind: Type) -> Optional[str]:
        """A String's units, whose errors have a status each."""
        number = self.count(kind.is_nullable)
        if number is None:
            return None
        size = 2 * number + 2
        block = self.item(size + -size % 4)
        text = block[:2 * number].decode("utf-16-le", "surrogatepass")
        is_lone = bool(re.search("[\ud800-\udfff]", text))
        if is_lone and "surrogates" not in self.rows and "lost surrogates" not in self.rows:
            raise Stop(BAD_VALUE)
        if block[2 * number:size] != b"\0\0" and "unit" not in self.rows:
            raise Stop(BAD_VALUE)
        if is_lone and "lost surrogates" in self.rows:
            return re.sub("[\ud800-\udfff]", "", text)
        return ANY if is_lone and kind.is_utf8 else text

    # -- parcelables and unions

    def record(self, found: Declaration, is_nullable: bool, levels: int) -> Optional[Dict[str, Any]]:
        """A parcelable or a union."""
        flag = self.word()
        if flag == 0 and is_nullable:
            return None
        if flag == 0 or flag != 1 and "flag" in self.rows:
            raise Stop(UNEXPECTED_NULL)
        if levels == 0 and "levels" not in self.rows:
            raise Stop(BAD_VALUE)
        return self.member(found, levels) if found.kind == "union" else self.fields(found, levels)

    def member(self, found: Declaration, levels: int) -> Dict[str, Any]:
        """A union's member."""
        tag = self.word()
        if found.is_fixed and "fixed tag" in self.rows:
            tag %= 256
        if not 0 <= tag < len(found.fields):
            raise Stop(BAD_VALUE)
        return {found.fields[tag].name: self.value(found.fields[tag].type, levels - 1)}

    def fields(self, found: Declaration, levels: int) -> Dict[str, Any]:
        """A parcelable's fields."""
        start = self.at
        size = self.size(start)
        outer, values = (self.end, self.is_inside), {}
        if "past the end" not in self.rows:
            self.end, self.is_inside = start + size, True
        for field in found.fields:
            if self.at - start >= size and (values or "first field" not in self.rows):
                values[field.name] = self.default(field.type, field.initializer)
                continue
            values[field.name] = self.value(field.type, levels - 1)
            if self.at - start >= size:
                self.at = start + size
        self.end, self.is_inside = outer
        if "tail" not in self.rows:
            self.at = start + size
        return values

    def size(self, start: int) -> int:
        """A parcelable's size word."""
        if "any size" in self.rows:
            size = self.word() if self.at + 4 <= self.end else 0
            if size < 0:
                raise Stop(BAD_VALUE)
            return size
        size = self.word()
        if size < 4 or size % 4 and "multiple" not in self.rows or "size" in self.rows and start > 2**31 - 1 - size:
            raise Stop(BAD_VALUE)
        if "size" not in self.rows:
            self.item(size - 4)
            self.at = start + 4
        return size

    # -- defaults

    def default(self, kind: Type, initializer: str) -> Any:
        """The value of a field that the bytes leave out."""
        found = self.schema.get(kind.base)
        if initializer:
            return self.initial(kind, initializer)
        if kind.is_nullable:
            return None
        if kind.shape:
            return []
        if not found or found.kind == "enum":
            return {"boolean": False, "String": ""}.get(kind.base, 0)
        fields = found.fields[:1] if found.kind == "union" else found.fields
        return {field.name: self.default(field.type, field.initializer) for field in fields}

    def initial(self, kind: Type, text: str) -> Any:
        """The value of an initializer."""
        if text.startswith("{"):
            return [self.initial(kind.element(), part.strip()) for part in text[1:-1].split(",") if part.strip()]
        found = self.schema.get(kind.base)
        if found:
            return found.numbers[text.rsplit(".", 1)[1]]
        if kind.base == "String":
            return text[1:-1]
        return {"boolean": text == "true", "char": ord(text[1:2] or "\0")}[kind.base] if kind.base in ("boolean", "char") else int(text)
