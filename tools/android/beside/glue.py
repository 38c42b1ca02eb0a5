"""The C++ that joins what a compiler generates of a tree to `hosts/host.cpp`: how values are drawn and shown, what handlers do, and which calls there are."""
from typing import Iterator, List

from .backends import Backend
from .schema import Declaration, Method, Schema, Type

SCALARS = {"boolean": "bool", "byte": "int8_t", "char": "char16_t", "int": "int32_t", "long": "int64_t"}
LETTERS = {"in": "i", "out": "o", "inout": "x"}


class Glue:
    """The lines for one tree and one backend."""

    def __init__(self, schema: Schema, backend: Backend):
        self.schema, self.backend = schema, backend
        self.prefix = "::aidl::" if backend.language == "ndk" else "::"
        self.folder = "aidl/" if backend.language == "ndk" else ""

    def name(self, base: str) -> str:
        """The generated class of a declaration."""
        return self.prefix + base.replace(".", "::")

    def item(self, kind: Type) -> str:
        """The C++ type of one value, or of an element."""
        if kind.base == "String":
            return "std::string" if kind.is_utf8 else "Text"
        if kind.base == "byte" and kind.shape:
            return "uint8_t"
        return SCALARS.get(kind.base) or self.name(kind.base)

    def type(self, kind: Type) -> str:
        """The C++ type of a value."""
        item = self.item(kind)
        if not kind.shape:
            return f"Maybe<{item}>" if kind.is_nullable else item
        is_plain = self.schema.backing(kind.base) in SCALARS
        many = f"Many<{item}>" if is_plain or not kind.is_nullable else f"Many<Maybe<{item}>>"
        return f"Maybe<{many}>" if kind.is_nullable else many

    def includes(self) -> Iterator[str]:
        """The generated headers."""
        for one in self.schema.declarations.values():
            folder, simple = one.name.rsplit(".", 1)[0].replace(".", "/"), one.name.rsplit(".", 1)[1]
            if one.kind == "interface":
                yield f"#include <{self.folder}{folder}/Bn{simple[1:]}.h>"
            elif not one.is_nested and not self.is_missing(one):
                yield f"#include <{self.folder}{folder}/{simple}.h>"

    def is_missing(self, one: Declaration) -> bool:
        """Whether the older compiler doesn't know what it is."""
        return not self.backend.is_newer and one.kind == "enum"

    def value(self, one: Declaration) -> Iterator[str]:
        """How a declared value is drawn and shown."""
        name = self.name(one.name)
        if one.kind == "enum" and self.is_missing(one):
            yield f"namespace {one.name.rsplit('.', 1)[0]} {{ enum class {one.name.rsplit('.', 1)[1]} : {SCALARS[one.backing]} {{}}; }}"
        if one.kind == "enum":
            yield f"template <> struct V<{name}> : Number<{name}> {{}};"
        elif one.kind == "parcelable":
            fields = " ".join(f'f("{field.name}", x.{field.name});' for field in one.fields)
            yield f"FIELDS_OF({name}, {fields or '(void)x; (void)f;'})"
            yield f"template <> struct V<{name}> : {'Chain' if one.name.endswith('.Node') else 'Record'}<{name}> {{}};"
        elif one.kind == "union":
            cases = " ".join(f'case {i}: f("{field.name}", Tag<{name}, {name}::Tag::{field.name}>()); break;' for i, field in enumerate(one.fields))
            yield f"MEMBERS_OF({name}, {len(one.fields)}, {cases})"
            yield f"template <> struct V<{name}> : Union<{name}> {{}};"

    def settled(self, one: Declaration) -> str:
        """Gives the fields a value that the older compiler leaves without one."""
        fields = [f"x.{field.name} = 0;" for field in one.fields if self.schema.is_plain(field.type) and not field.initializer]
        return f"template <> inline void settle({self.name(one.name)}& x) {{ (void)x; {' '.join(fields)} }}"

    def handler(self, method: Method) -> str:
        """The handler of one method."""
        parameters, ways = [], ""
        for argument in method.arguments:
            kind = self.type(argument.type)
            by_value = kind if self.schema.is_plain(argument.type) else f"const {kind}&"
            parameters.append((by_value if argument.way == "in" else f"{kind}*", argument.name))
            ways += LETTERS[argument.way]
        if method.result:
            parameters.append((self.type(method.result) + "*", "result"))
            ways += "r"
        given = "".join(f", {name}" for _, name in parameters)
        signature = ", ".join(f"{kind} {name}" for kind, name in parameters)
        return f'  Status {method.name}({signature}) override {{ return handle("{ways}"{given}); }}'

    def stub(self, one: Declaration) -> Iterator[str]:
        """A stub whose handlers draw their answers."""
        package, simple = one.name.rsplit(".", 1)
        yield f"struct {simple}Stub : {self.name(package)}::Bn{simple[1:]} {{"
        yield from map(self.handler, one.methods)
        yield "};"

    def call(self, one: Declaration, method: Method) -> str:
        """One call of a proxy. An `out` List has no length."""
        ways = "".join("l" if (argument.way, argument.type.shape) == ("out", "list") else LETTERS[argument.way] for argument in method.arguments)
        pointer = f"&{self.name(one.name)}::{method.name}"
        return f'  all_calls.push_back([](int n) {{ call(n, "{one.name}", "{method.name}", "{ways}{"r" if method.result else ""}", {pointer}); }});'

    def types(self) -> Iterator[str]:
        """The types that a host knows by name."""
        for one in self.schema.of_kind("parcelable", "union"):
            yield f'  add_record<{self.name(one.name)}>("{one.name}");'
        for one in self.schema.of_kind("enum"):
            yield f'  add_enum<{self.name(one.name)}>("{one.name}");'

    def lines(self) -> Iterator[str]:
        """The whole file."""
        faces: List[Declaration] = list(self.schema.of_kind("interface"))
        yield "#pragma once"
        yield from self.includes()
        for one in self.schema.declarations.values():
            yield from self.value(one)
        if not self.backend.is_newer:
            yield from map(self.settled, self.schema.of_kind("parcelable"))
        for one in faces:
            yield from self.stub(one)
        yield "static sp<IBinder> stub_of(const string& name) {"
        yield from (f'  if (name == "{one.name}") return stub_made<{one.name.rsplit(".", 1)[1]}Stub>();' for one in faces)
        yield '  die("no interface " + name);\n}'
        yield from ("static void add_declared() {", *self.types(), "}", "static void add_calls() {")
        yield from (self.call(one, method) for one in faces for method in one.methods)
        yield "}"


def of(schema: Schema, backend: Backend) -> str:
    """The file's text."""
    return "\n".join(Glue(schema, backend).lines()) + "\n"
