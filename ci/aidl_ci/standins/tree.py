"""A tree to be copied: the files of a folder, and beside them those files of other folders that they import."""

from __future__ import annotations

import os
from typing import Iterator, Optional, Sequence

from ..dump import sources
from ..guard import Fault
from .declarations import Declaration, Source, Type
from .lexer import Text, Token
from .parser import parse

PACKAGE = "standin"
PREFIX = "STANDIN_"  # of the constants that a copy has more than its tree
# Imports of these are of built-in types: AIDL looks for no file of them.
BUILT_IN_IMPORTS = {
    "android.os.IBinder",
    "android.os.ParcelFileDescriptor",
    "android.os.Parcelable",
    "android.os.ParcelableHolder",
    "java.io.FileDescriptor",
    "java.lang.CharSequence",
    "java.lang.String",
    "java.util.List",
    "java.util.Map",
}
READ = {"boolean", "byte", "char", "int", "long", "String", "void", "List"}
LEFT_OUT = {"float", "double", "IBinder", "FileDescriptor", "ParcelFileDescriptor", "ParcelableHolder", "Map", "CharSequence"}
BUILT_IN = READ | LEFT_OUT


class Tree:
    """The files of a folder with what they import, as sources by their paths, and the declarations by their full names."""

    def __init__(self, folder: str, imports: Sequence[str] = (), outside: Sequence[str] = ()):
        """Folders of `outside`, as paths below the folder, are no part of the tree."""
        if not os.path.isdir(folder):
            raise Fault(f"there is no folder {folder}")
        for one in imports:
            if not os.path.isdir(one):
                raise Fault(f"there is no folder {one}")
        self.folder, self.imports = folder, list(imports)
        self.sources: dict[str, Source] = {}
        self.imported: dict[str, str] = {}  # where a file comes from that isn't of the folder
        self.declared: dict[str, Declaration] = {}
        self.surroundings: dict[str, Source] = {}  # names around a declaration of several parts that no declaration has
        for path in sources(folder):
            if not any(path.startswith(one + os.sep) for one in outside):
                self.add(os.path.join(folder, path), path)
        if not self.sources:
            raise Fault(f"there is no .aidl file in {folder}")
        self.bring()

    def add(self, shown: str, path: str) -> None:
        """Reads a file."""
        with open(shown, "rb") as file:
            source = parse(Text(shown, path, file.read()))
        self.sources[path] = source
        self.is_ours(source)
        for one in source.all():
            other = self.declared.setdefault(one.full, one)
            if other is not one:
                source.text.refuse(one.start, f"{one.full} is declared a second time: {other.source.text.shown} has it too")
            around = one.full.rpartition(".")[0]
            for _ in range(one.name.count(".")):
                self.surroundings.setdefault(around, source)
                around = around.rpartition(".")[0]

    @staticmethod
    def is_ours(source: Source) -> None:
        """Refuses names that a copy gives to what it adds."""
        for one in source.all():
            if one.full.split(".")[0] == PACKAGE:
                source.text.refuse(one.start, f"the name {PACKAGE} is taken: copies have their stand-ins in a package of that name")
            for member in one.members:
                if member.name.startswith(PREFIX):
                    source.text.refuse(member.span.start, f"a name with {PREFIX} is taken: copies have constants of such names")

    # What is imported

    def bring(self) -> None:
        """Brings in what the files name, and what these name, and so on."""
        waiting = list(self.sources.values())
        while waiting:
            source = waiting.pop()
            for full in self.wanted(source):
                found = self.file_of(full)
                if found:
                    self.add(*found)
                    self.imported[found[1]] = found[0]
                    waiting.append(self.sources[found[1]])
            self.check_imports(source)
        self.surroundings = {name: source for name, source in self.surroundings.items() if name not in self.declared}

    def bring_also(self, files: dict[str, str]) -> None:
        """Brings in what another tree imports, by path and place, so that an import which only one tree has is no type that the other lacks."""
        for path, shown in sorted(files.items()):
            if path not in self.sources:
                self.add(shown, path)
                self.imported[path] = shown
        self.bring()

    def wanted(self, source: Source) -> Iterator[str]:
        """The full names that a file may mean: of its imports, of its types, and of what stands in front of a dot in its values."""
        for one in source.imports:
            if one.full not in BUILT_IN_IMPORTS:
                yield one.full
        for declaration in source.all():
            names = [name for type_ in declaration.types() for name in bases(type_)]
            names += [name for member in declaration.members if member.value for name in dotted(member.value.tokens)]
            for length in (length for type_ in declaration.types() for length in type_.lengths if length):
                names += dotted(length.tokens)
            for name in names:
                if name not in BUILT_IN and not self.meaning(declaration, name):
                    yield from self.candidates(source, name)

    def file_of(self, full: str) -> Optional[tuple[str, str]]:
        """The file of the folders of imports that declares a name or what is around it, if the tree hasn't it yet."""
        while full and full not in self.declared:
            path = full.replace(".", os.sep) + ".aidl"
            for folder in self.imports if path not in self.sources else []:
                shown = os.path.join(folder, path)
                if os.path.isfile(shown):
                    return shown, path
            full = full.rpartition(".")[0]
        return None

    def check_imports(self, source: Source) -> None:
        """Refuses an import that isn't there, and two that one name could mean."""
        last: dict[str, str] = {}
        for one in source.imports:
            if one.full in BUILT_IN_IMPORTS:
                continue
            if one.full not in self.declared and one.full not in self.surroundings:
                source.text.refuse(one.span.start, f"the import {one.full} isn't there: -I names the folder that has it")
            if last.setdefault(one.last, one.full) != one.full:
                source.text.refuse(one.span.start, f"two imports end in {one.last}")

    # What a name means

    def candidates(self, source: Source, name: str) -> list[str]:
        """What a name may mean that no declaration around it has: by an import, in the package, as a full name."""
        head, dot, rest = name.partition(".")
        imported = [one.full + dot + rest for one in source.imports if one.last == head and one.full not in BUILT_IN_IMPORTS]
        return imported[:1] or [source.named(name), name]

    def meaning(self, scope: Declaration, name: str) -> Optional[str]:
        """The full name of the declaration that a name means, as AIDL looks it up: in the declarations around it, in the imports, in the package, and
        then as a full name."""
        around = scope.full
        while around and around != scope.source.package:
            if f"{around}.{name}" in self.declared:
                return f"{around}.{name}"
            around = around.rpartition(".")[0]
        return next((one for one in self.candidates(scope.source, name) if one in self.declared), None)

    def checked_meaning(self, scope: Declaration, name: str, at: int) -> str:
        """The same, refused where there is none, and where `aidl`, which asks for a full name first, would take another one."""
        found = self.meaning(scope, name)
        text = scope.source.text
        if found is None:
            text.refuse(at, f"no declaration of {name} is there: -I names the folder that has it")
        if name in self.declared and name != found:
            text.refuse(at, f"{name} may mean {found}, and {name} itself: write the full name")
        return found


def bases(type_: Type) -> Iterator[str]:
    """The names of a type and of its arguments."""
    yield type_.base
    for one in type_.arguments:
        yield from bases(one)


def dotted(tokens: Sequence[Token]) -> list[str]:
    """What stands in front of the last dot of each name with dots."""
    found, parts = [], []  # type: list[str], list[str]
    for token in tokens:
        if token.kind == "word" or token.text == "." and parts:
            parts.append(token.text)
            continue
        found.append("".join(parts))
        parts = []
    return [name.rpartition(".")[0] for name in [*found, "".join(parts)] if "." in name]
